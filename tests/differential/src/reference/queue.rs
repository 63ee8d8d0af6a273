//! "Waiting jobs".

use super::Refusal;

/// "The list holds up to 64 jobs"
pub const CAPACITY: usize = 64;

/// "arrival above 2^62"
pub const LATEST: u64 = 1 << 62;

/// "connection number, request id and timeout (32-bit), arrival (64-bit ms)", laid out as in C: a number zero fills the place
/// before the arrival.
#[repr(C)]
#[derive(Clone, Copy, Debug, Default, PartialEq, Eq)]
pub struct Job {
    pub connection: u32,
    pub request: u32,
    pub timeout: u32,
    pub zero: u32,
    pub arrival: u64,
}

impl Job {
    fn is_pair(&self, connection: u32, request: u32) -> bool {
        self.connection == connection && self.request == request
    }

    /// "Due time is arrival plus timeout as whole numbers; timeout 0 is no deadline and sorts after all others, two such being
    /// a tie."
    fn due(&self) -> (bool, u128) {
        if self.timeout == 0 {
            (true, 0)
        } else {
            (false, u128::from(self.arrival) + u128::from(self.timeout))
        }
    }
}

/// The waiting jobs, "in order of acceptance", and how many they are.
#[repr(C)]
#[derive(Clone, Copy, Debug, PartialEq, Eq)]
pub struct Queue {
    pub jobs: [Job; CAPACITY],
    pub count: usize,
}

impl Default for Queue {
    fn default() -> Queue {
        Queue { jobs: [Job::default(); CAPACITY], count: 0 }
    }
}

impl Queue {
    /// 24: "count over 64, a waiting pair twice, or a waiting arrival above 2^62"
    fn checked(&self) -> Result<&[Job], Refusal> {
        let jobs = self.jobs.get(..self.count).ok_or(24u32)?;
        let twice =
            |later: usize| jobs[..later].iter().any(|job| job.is_pair(jobs[later].connection, jobs[later].request));
        if (0..jobs.len()).any(twice) || jobs.iter().any(|job| job.arrival > LATEST) {
            return Err(24);
        }
        Ok(jobs)
    }

    /// "List 24 first; add 22, 25, 21."
    pub fn add(&mut self, job: Job) -> Result<(), Refusal> {
        let jobs = self.checked()?;
        if job.arrival > LATEST {
            return Err(22);
        }
        if jobs.iter().any(|waiting| waiting.is_pair(job.connection, job.request)) {
            return Err(25);
        }
        if jobs.len() == CAPACITY {
            return Err(21);
        }
        self.jobs[self.count] = job;
        self.count += 1;
        Ok(())
    }

    /// "Take removes the earliest due, ties by acceptance."
    pub fn take(&mut self) -> Result<Job, Refusal> {
        let jobs = self.checked()?;
        // Of equal ones the first is the least.
        let earliest = (0..jobs.len()).min_by_key(|place| jobs[*place].due()).ok_or(23u32)?;
        Ok(self.remove(earliest))
    }

    /// "Cancel removes the named pair."
    pub fn cancel(&mut self, connection: u32, request: u32) -> Result<Job, Refusal> {
        let jobs = self.checked()?;
        let named = jobs.iter().position(|job| job.is_pair(connection, request)).ok_or(26u32)?;
        Ok(self.remove(named))
    }

    /// "Both give the job removed; later jobs move up one and the last place freed is zero."
    fn remove(&mut self, place: usize) -> Job {
        let removed = self.jobs[place];
        self.jobs.copy_within(place + 1..self.count, place);
        self.count -= 1;
        self.jobs[self.count] = Job::default();
        removed
    }
}
