//! The queue against a straightforward one: random calls, and each error that the bindings let through.

use bekurapi::{Error, Job, Queue, CAPACITY, LATEST_ARRIVAL};

/// Numbers that are the same on each run (xorshift64).
struct Random(u64);

impl Random {
    fn below(&mut self, limit: u64) -> u64 {
        self.0 ^= self.0 << 13;
        self.0 ^= self.0 >> 7;
        self.0 ^= self.0 << 17;
        self.0 % limit
    }
}

/// The place of the job that is due first.
fn first_due(jobs: &[Job]) -> Option<usize> {
    let due = |job: &Job| (job.timeout == 0, if job.timeout == 0 { 0 } else { job.arrival + u64::from(job.timeout) });
    (0..jobs.len()).min_by_key(|&place| due(&jobs[place]))
}

/// What adding answers.
fn addition(jobs: &[Job], job: Job) -> Result<(), Error> {
    if job.arrival > LATEST_ARRIVAL {
        Err(Error::Arrival)
    } else if jobs.iter().any(|other| (other.connection, other.request) == (job.connection, job.request)) {
        Err(Error::Duplicate)
    } else if jobs.len() == CAPACITY {
        Err(Error::QueueFull)
    } else {
        Ok(())
    }
}

fn random_job(random: &mut Random) -> Job {
    let timeouts = [0, 1, 600_000, 4_000_000_000, u32::MAX];
    let arrivals = [0, 1, 600_000, LATEST_ARRIVAL, LATEST_ARRIVAL + 1];
    Job {
        connection: random.below(3) as u32,
        request: random.below(40) as u32,
        timeout: timeouts[random.below(5) as usize],
        arrival: arrivals[random.below(5) as usize],
    }
}

#[test]
fn random_calls() {
    let mut random = Random(1);
    let mut queue = Queue::new();
    let mut jobs: Vec<Job> = Vec::new();
    for _ in 0..100_000 {
        match random.below(8) {
            0 => {
                let taken = first_due(&jobs).map(|place| jobs.remove(place)).ok_or(Error::QueueEmpty);
                assert_eq!(queue.take(), taken);
            }
            1 => {
                let Job { connection, request, .. } = random_job(&mut random);
                let place = jobs.iter().position(|job| (job.connection, job.request) == (connection, request));
                let cancelled = place.map(|place| jobs.remove(place)).ok_or(Error::Absent);
                assert_eq!(queue.cancel(connection, request), cancelled);
            }
            _ => {
                let job = random_job(&mut random);
                let added = addition(&jobs, job);
                assert_eq!(queue.add(job), added);
                jobs.extend(added.is_ok().then_some(job));
            }
        }
        assert!(queue.jobs().eq(jobs.iter().copied()));
        assert_eq!((queue.len(), queue.is_empty()), (jobs.len(), jobs.is_empty()));
    }
}

#[test]
fn the_night_shift() {
    let mut queue = Queue::default();
    for (request, timeout) in [(1, 0), (2, 4_000_000_000), (3, 600_000)] {
        queue.add(Job { connection: 1, request, timeout, arrival: 0 }).unwrap();
    }
    let taken: Vec<u32> = std::iter::from_fn(|| queue.take().ok()).map(|job| job.timeout).collect();
    assert_eq!(taken, [600_000, 4_000_000_000, 0]);
    assert_eq!(queue.take(), Err(Error::QueueEmpty));
}
