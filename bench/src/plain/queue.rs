//! The queue of waiting jobs.

use super::Error;

pub const CAPACITY: usize = 64;
const LATEST: u64 = 1 << 62;

/// Laid out as in C, like the queue: the library takes the same two. `zero` fills the place before the arrival.
#[repr(C)]
#[derive(Clone, Copy, Default, Debug, PartialEq, Eq)]
pub struct Job {
    pub connection: u32,
    pub request: u32,
    pub timeout: u32,
    pub zero: u32,
    pub arrival: u64,
}

impl Job {
    #[inline]
    fn is(&self, connection: u32, request: u32) -> bool {
        self.connection == connection && self.request == request
    }

    /// No deadline sorts last.
    #[inline]
    fn due(&self) -> u64 {
        if self.timeout == 0 {
            u64::MAX
        } else {
            self.arrival + u64::from(self.timeout)
        }
    }
}

#[repr(C)]
#[derive(Clone, Debug, PartialEq, Eq)]
pub struct Queue {
    pub jobs: [Job; CAPACITY],
    pub count: usize,
}

impl Default for Queue {
    fn default() -> Queue {
        Queue { jobs: [Job::default(); CAPACITY], count: 0 }
    }
}

/// The calls on a queue that the caller lends: it is checked first, as the library does.
impl Queue {
    #[inline]
    pub fn add(&mut self, job: Job) -> Result<(), Error> {
        self.check()?;
        self.add_valid(job)
    }

    #[inline]
    pub fn take(&mut self) -> Result<Job, Error> {
        self.check()?;
        self.take_valid()
    }

    #[inline]
    pub fn cancel(&mut self, connection: u32, request: u32) -> Result<Job, Error> {
        self.check()?;
        self.cancel_valid(connection, request)
    }
}

/// A queue that nobody else writes: it has nothing to check.
#[repr(transparent)]
pub struct OwnQueue(Queue);

impl OwnQueue {
    #[inline]
    pub fn add(&mut self, job: Job) -> Result<(), Error> {
        self.0.add_valid(job)
    }

    #[inline]
    pub fn take(&mut self) -> Result<Job, Error> {
        self.0.take_valid()
    }

    #[inline]
    pub fn cancel(&mut self, connection: u32, request: u32) -> Result<Job, Error> {
        self.0.cancel_valid(connection, request)
    }
}

impl Queue {
    fn check(&self) -> Result<(), Error> {
        let jobs = self.jobs.get(..self.count).ok_or(24u32)?;
        for (index, job) in jobs.iter().enumerate() {
            if job.arrival > LATEST || jobs[..index].iter().any(|other| other.is(job.connection, job.request)) {
                return Err(24);
            }
        }
        Ok(())
    }

    #[inline]
    fn waiting(&self) -> &[Job] {
        &self.jobs[..self.count]
    }

    #[inline]
    fn add_valid(&mut self, job: Job) -> Result<(), Error> {
        if job.arrival > LATEST {
            return Err(22);
        }
        if self.waiting().iter().any(|other| other.is(job.connection, job.request)) {
            return Err(25);
        }
        *self.jobs.get_mut(self.count).ok_or(21u32)? = job;
        self.count += 1;
        Ok(())
    }

    #[inline]
    fn take_valid(&mut self) -> Result<Job, Error> {
        let jobs = self.waiting();
        // Of equal ones the first is the least.
        let earliest = (0..jobs.len()).min_by_key(|at| jobs[*at].due()).ok_or(23u32)?;
        Ok(self.remove(earliest))
    }

    #[inline]
    fn cancel_valid(&mut self, connection: u32, request: u32) -> Result<Job, Error> {
        let at = self.waiting().iter().position(|job| job.is(connection, request)).ok_or(26u32)?;
        Ok(self.remove(at))
    }

    #[inline]
    fn remove(&mut self, at: usize) -> Job {
        let removed = self.jobs[at];
        self.jobs.copy_within(at + 1..self.count, at);
        self.count -= 1;
        self.jobs[self.count] = Job::default();
        removed
    }
}
