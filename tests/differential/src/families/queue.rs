//! The queue of waiting jobs: any sequence of calls, from an empty queue or from any values.

use crate::difference::{same, Difference};
use crate::library;
use crate::random::Random;
use crate::reference::interface;
use crate::reference::queue::{Job, Queue, CAPACITY, LATEST};
use crate::run::{Family, Tally};
use crate::shrink::{fewer, less, Case};

#[derive(Clone, Copy, Debug)]
enum Call {
    Init,
    Add(Job),
    Take,
    Cancel(u32, u32),
}

#[derive(Clone)]
struct Calls {
    queue: Box<Queue>,
    calls: Vec<Call>,
}

/// A queue with something on both sides that no call may touch.
#[repr(C)]
struct Guarded {
    before: [u64; 4],
    queue: Queue,
    behind: [u64; 4],
}

const GUARD: [u64; 4] = [0xFEED_BEEF; 4];

impl Calls {
    fn call(call: Call, expected: &mut Queue, actual: &mut Queue, tally: &mut Tally) -> Result<(), Difference> {
        let (wanted, got) = match call {
            Call::Init => {
                interface::queue_init(expected);
                library::queue_init(actual);
                return Ok(());
            }
            Call::Add(Job { connection, request, timeout, arrival, .. }) => {
                let error = interface::queue_add(expected, connection, request, timeout, arrival);
                tally.count(error);
                let got = library::queue_add(actual, connection, request, timeout, arrival);
                return same(&call_name(call), &error, &got);
            }
            Call::Take => (interface::queue_take(expected), library::queue_take(actual)),
            Call::Cancel(connection, request) => (
                interface::queue_cancel(expected, connection, request),
                library::queue_cancel(actual, connection, request),
            ),
        };
        tally.count(wanted.error);
        same(&call_name(call), &wanted, &got)
    }
}

fn call_name(call: Call) -> impl std::fmt::Display {
    struct Name(Call);
    impl std::fmt::Display for Name {
        fn fmt(&self, out: &mut std::fmt::Formatter) -> std::fmt::Result {
            write!(out, "the answer to {:?}", self.0)
        }
    }
    Name(call)
}

impl Case for Calls {
    fn compare(&self, tally: &mut Tally) -> Result<(), Difference> {
        let mut expected = self.queue.clone();
        let mut actual = Guarded { before: GUARD, queue: *self.queue, behind: GUARD };
        for (number, call) in self.calls.iter().enumerate() {
            Calls::call(*call, &mut expected, &mut actual.queue, tally)?;
            if *expected != actual.queue {
                same(&format_args!("the count after call {number}"), &expected.count, &actual.queue.count)?;
                for (place, (wanted, got)) in expected.jobs.iter().zip(&actual.queue.jobs).enumerate() {
                    same(&format_args!("job {place} after call {number}, {call:?}"), wanted, got)?;
                }
            }
            same(&"what is around the queue, untouched", &[GUARD, GUARD], &[actual.before, actual.behind])?;
        }
        Ok(())
    }

    fn smaller(&self) -> Box<dyn Iterator<Item = Calls> + '_> {
        let empty =
            (*self.queue != Queue::default()).then(|| Calls { queue: Box::default(), calls: self.calls.clone() });
        let fewer_calls = fewer(&self.calls).map(|calls| Calls { calls, queue: self.queue.clone() });
        let fewer_jobs = (0..self.queue.count.min(CAPACITY)).map(|place| {
            let mut queue = self.queue.clone();
            queue.jobs.copy_within(place + 1.., place);
            queue.count -= 1;
            Calls { queue, calls: self.calls.clone() }
        });
        let lower_jobs = (0..CAPACITY).flat_map(move |place| {
            lower_job(self.queue.jobs[place]).map(move |job| {
                let mut queue = self.queue.clone();
                queue.jobs[place] = job;
                Calls { queue, calls: self.calls.clone() }
            })
        });
        let lower_calls = (0..self.calls.len()).flat_map(move |place| {
            let lower: Vec<Call> = match self.calls[place] {
                Call::Add(job) => lower_job(job).map(Call::Add).collect(),
                Call::Cancel(connection, request) => less(connection.into())
                    .map(|connection| Call::Cancel(connection as u32, request))
                    .chain(less(request.into()).map(|request| Call::Cancel(connection, request as u32)))
                    .collect(),
                Call::Init | Call::Take => Vec::new(),
            };
            lower.into_iter().map(move |call| {
                let mut calls = self.calls.clone();
                calls[place] = call;
                Calls { calls, queue: self.queue.clone() }
            })
        });
        let counts = less(self.queue.count as u64).map(|count| {
            let mut queue = self.queue.clone();
            queue.count = count as usize;
            Calls { queue, calls: self.calls.clone() }
        });
        Box::new(
            empty.into_iter().chain(fewer_calls).chain(fewer_jobs).chain(counts).chain(lower_jobs).chain(lower_calls),
        )
    }

    fn show(&self) -> String {
        let used = self.queue.jobs.iter().rposition(|job| *job != Job::default()).map_or(0, |place| place + 1);
        let mut shown = format!("queue with count {}, zero but for its first {used} jobs:", self.queue.count);
        for (place, job) in self.queue.jobs[..used].iter().enumerate() {
            shown += &format!("\n  job {place}: {job:?}");
        }
        shown += "\ncalls:";
        for (number, call) in self.calls.iter().enumerate() {
            shown += &format!("\n  {number}: {call:?}");
        }
        shown
    }
}

/// With one of its numbers less.
fn lower_job(job: Job) -> impl Iterator<Item = Job> {
    let connections = less(job.connection.into()).map(move |connection| Job { connection: connection as u32, ..job });
    let requests = less(job.request.into()).map(move |request| Job { request: request as u32, ..job });
    let timeouts = less(job.timeout.into()).map(move |timeout| Job { timeout: timeout as u32, ..job });
    let zeros = less(job.zero.into()).map(move |zero| Job { zero: zero as u32, ..job });
    let arrivals = less(job.arrival).map(move |arrival| Job { arrival, ..job });
    connections.chain(requests).chain(timeouts).chain(zeros).chain(arrivals)
}

fn pair(random: &mut Random) -> (u32, u32) {
    match random.below(8) {
        0 => (random.number32(), random.number32()),
        _ => (random.below(3) as u32, random.below(40) as u32),
    }
}

/// A job: due times tie, meet or lie around the borders of 32 bits and of 2^62.
fn job(random: &mut Random) -> Job {
    let (connection, request) = pair(random);
    let any = random.u32();
    let timeout = random.pick(&[0, 0, 1, 2, 5_000, 600_000, 4_000_000_000, u32::MAX, any]);
    let due = random.pick(&[5_000_000_000, 5_000_000_000, 1 << 33, LATEST]);
    let arrival = match random.below(8) {
        0 | 1 => random.below(4) as u64,
        2..=4 => due - u64::from(timeout),
        5 => LATEST - random.below(2) as u64,
        6 if random.one_in(4) => random.pick(&[LATEST + 1, u64::MAX, u64::MAX - 5, 1 << 63]),
        6 => u64::from(u32::MAX) + random.below(3) as u64,
        _ => random.u64() >> random.between(3, 40),
    };
    Job { connection, request, timeout, zero: 0, arrival }
}

/// Calls in a mood: one that fills the queue, one that keeps it short, and such between.
fn some_calls(random: &mut Random, count: usize) -> Vec<Call> {
    let adds = random.pick(&[3, 5, 7, 9]);
    (0..count)
        .map(|_| match random.below(10) {
            kind if kind < adds => Call::Add(job(random)),
            _ if random.one_in(200) => Call::Init,
            _ if random.one_in(3) => {
                let (connection, request) = pair(random);
                Call::Cancel(connection, request)
            }
            _ => Call::Take,
        })
        .collect()
}

/// From an empty queue.
pub fn calls(family: &mut Family) {
    for _ in 0..family.inputs {
        let random = &mut family.random;
        let count = random.pick(&[3, 10, 10, 30, 30, 100, 200]);
        let mut calls = some_calls(random, count);
        calls.insert(0, Call::Init);
        let mut queue = Box::new(any_queue(random));
        if random.one_in(2) {
            *queue = Queue::default();
        }
        family.check(&Calls { queue, calls });
    }
}

/// Any values in every place, and in the number zero of every job.
fn any_queue(random: &mut Random) -> Queue {
    let mut queue = Queue::default();
    for place in &mut queue.jobs {
        let any = random.u32();
        *place = Job { zero: random.pick(&[0, 1, any]), ..job(random) };
    }
    queue.count = random.pick(&[0, 1, 2, 10, 63, 64, 64, 65, 66, 1 << 32, usize::MAX]);
    queue
}

/// From a queue of any values: valid ones with something past their count, and every ground for 24.
pub fn queues(family: &mut Family) {
    for _ in 0..family.inputs {
        let random = &mut family.random;
        let mut queue = Box::new(any_queue(random));
        // Most have no fault at first, and then one or none.
        for place in 0..CAPACITY {
            queue.jobs[place].connection = 7;
            queue.jobs[place].request = place as u32;
            queue.jobs[place].arrival = queue.jobs[place].arrival.min(LATEST);
        }
        let (one, other) = (random.below(CAPACITY), random.below(CAPACITY));
        match random.below(6) {
            0 => queue.jobs[one].arrival = random.pick(&[LATEST + 1, u64::MAX]),
            1 => queue.jobs[one].request = queue.jobs[other].request,
            2 => queue.jobs[one].connection = 6,
            _ => queue.count = queue.count.min(CAPACITY),
        }
        let count = random.between(1, 6);
        let mut calls = some_calls(random, count);
        for call in &mut calls {
            if random.one_in(2) {
                if let Call::Cancel(connection, request) = call {
                    (*connection, *request) = (7, random.below(CAPACITY) as u32);
                }
            }
        }
        family.check(&Calls { queue, calls });
    }
}
