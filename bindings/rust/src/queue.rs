use std::fmt;

use crate::error::{checked, Error};
use bekurapi_sys as ffi;

/// How many jobs wait in a [`Queue`] at most.
///
/// ```
/// use bekurapi::{Error, Job, Queue, CAPACITY};
///
/// let mut queue = Queue::new();
/// for request in 0..CAPACITY as u32 {
///     queue.add(Job { request, ..Job::default() }).unwrap();
/// }
/// assert_eq!(queue.add(Job { request: 64, ..Job::default() }), Err(Error::QueueFull));
/// ```
pub const CAPACITY: usize = 64;

/// The latest arrival that a job may have: 2^62.
///
/// ```
/// use bekurapi::{Error, Job, Queue, LATEST_ARRIVAL};
///
/// let job = Job { arrival: LATEST_ARRIVAL, ..Job::default() };
/// assert_eq!(Queue::new().add(job), Ok(()));
/// assert_eq!(Queue::new().add(Job { arrival: LATEST_ARRIVAL + 1, ..job }), Err(Error::Arrival));
/// ```
pub const LATEST_ARRIVAL: u64 = 1 << 62;

/// A job, named by its pair of connection number and request id, [`Message::id`](crate::Message::id).
///
/// ```
/// let job = bekurapi::Job { connection: 1, request: 7, timeout: 600_000, arrival: 0 };
/// assert_eq!(job.timeout, 600_000);
/// ```
#[derive(Clone, Copy, Debug, Default, PartialEq, Eq, Hash)]
pub struct Job {
    /// The connection that the request came on.
    pub connection: u32,
    /// The request id of the frame's fixed header.
    pub request: u32,
    /// In ms; 0 is no deadline.
    pub timeout: u32,
    /// In ms; at most [`LATEST_ARRIVAL`].
    pub arrival: u64,
}

impl Job {
    /// The job of the C interface's struct, which has a number zero beside these.
    fn of(job: &ffi::Job) -> Job {
        Job { connection: job.connection, request: job.request, timeout: job.timeout, arrival: job.arrival }
    }
}

/// Up to 64 waiting jobs. The one whose arrival plus timeout is the least is taken first, of several such the one that was
/// accepted first; one with no deadline comes after all that have one.
///
/// ```
/// use bekurapi::{Job, Queue};
///
/// let mut queue = Queue::new();
/// for (request, timeout) in [(1, 0), (2, 4_000_000_000), (3, 600_000)] {
///     queue.add(Job { connection: 1, request, timeout, arrival: 0 })?;
/// }
/// assert_eq!(queue.take()?.request, 3);
/// assert_eq!(queue.take()?.request, 2);
/// assert_eq!(queue.take()?.request, 1);
/// # Ok::<(), bekurapi::Error>(())
/// ```
#[derive(Clone)]
pub struct Queue(ffi::Queue);

impl Queue {
    /// A queue in which nothing waits.
    ///
    /// ```
    /// assert_eq!(bekurapi::Queue::new().len(), 0);
    /// ```
    pub fn new() -> Queue {
        let mut queue = ffi::Queue { jobs: [ffi::Job::default(); CAPACITY], count: 0 };
        // SAFETY: the queue is a local.
        unsafe { ffi::trpc_queue_init(&mut queue) };
        Queue(queue)
    }

    /// Puts a job after those that wait.
    ///
    /// The errors, in this order: [`Error::Arrival`], [`Error::Duplicate`] where the pair waits already, [`Error::QueueFull`].
    /// A job that is refused leaves the queue as it was.
    ///
    /// ```
    /// use bekurapi::{Error, Job, Queue};
    ///
    /// let mut queue = Queue::new();
    /// let job = Job { connection: 1, request: 7, timeout: 500, arrival: 0 };
    /// assert_eq!(queue.add(job), Ok(()));
    /// assert_eq!(queue.add(job), Err(Error::Duplicate));
    /// ```
    pub fn add(&mut self, job: Job) -> Result<(), Error> {
        // SAFETY: the queue is borrowed exclusively.
        checked(unsafe { ffi::trpc_queue_add(&mut self.0, job.connection, job.request, job.timeout, job.arrival) })
    }

    /// Removes the job that is due first. The error is [`Error::QueueEmpty`].
    ///
    /// ```
    /// use bekurapi::{Error, Job, Queue};
    ///
    /// let mut queue = Queue::new();
    /// assert_eq!(queue.take(), Err(Error::QueueEmpty));
    ///
    /// let job = Job { connection: 1, request: 7, timeout: 500, arrival: 0 };
    /// queue.add(job).unwrap();
    /// assert_eq!(queue.take(), Ok(job));
    /// ```
    pub fn take(&mut self) -> Result<Job, Error> {
        let mut removed = ffi::Job::default();
        // SAFETY: the queue is borrowed exclusively, and `removed` is a local outside it.
        checked(unsafe { ffi::trpc_queue_take(&mut self.0, &mut removed) })?;
        Ok(Job::of(&removed))
    }

    /// Removes the job of a pair, connection number and request id. The error is [`Error::Absent`].
    ///
    /// ```
    /// use bekurapi::{Error, Job, Queue};
    ///
    /// let mut queue = Queue::new();
    /// let job = Job { connection: 1, request: 7, timeout: 500, arrival: 0 };
    /// queue.add(job).unwrap();
    /// assert_eq!(queue.cancel(1, 8), Err(Error::Absent));
    /// assert_eq!(queue.cancel(1, 7), Ok(job));
    /// ```
    pub fn cancel(&mut self, connection: u32, request: u32) -> Result<Job, Error> {
        let mut removed = ffi::Job::default();
        // SAFETY: as in `take`.
        checked(unsafe { ffi::trpc_queue_cancel(&mut self.0, connection, request, &mut removed) })?;
        Ok(Job::of(&removed))
    }

    /// The jobs that wait, in order of acceptance.
    ///
    /// ```
    /// use bekurapi::{Job, Queue};
    ///
    /// let mut queue = Queue::new();
    /// let job = Job { connection: 1, request: 7, timeout: 500, arrival: 0 };
    /// queue.add(job).unwrap();
    /// assert!(queue.jobs().eq([job]));
    /// ```
    pub fn jobs(&self) -> impl ExactSizeIterator<Item = Job> + '_ {
        self.0.jobs[..self.0.count].iter().map(Job::of)
    }

    /// How many jobs wait.
    ///
    /// ```
    /// use bekurapi::{Job, Queue};
    ///
    /// let mut queue = Queue::new();
    /// queue.add(Job::default()).unwrap();
    /// assert_eq!(queue.len(), 1);
    /// ```
    pub fn len(&self) -> usize {
        self.0.count
    }

    /// Whether nothing waits.
    ///
    /// ```
    /// assert!(bekurapi::Queue::new().is_empty());
    /// ```
    pub fn is_empty(&self) -> bool {
        self.0.count == 0
    }
}

impl Default for Queue {
    fn default() -> Self {
        Queue::new()
    }
}

impl fmt::Debug for Queue {
    fn fmt(&self, f: &mut fmt::Formatter<'_>) -> fmt::Result {
        f.debug_list().entries(self.jobs()).finish()
    }
}
