//! Safe Rust bindings of Bekurapi, a verified library for tRPC frames: it cuts a stream into frames, reads and writes their
//! messages, and keeps a queue of waiting jobs.
//!
//! docs/PROTOCOL.md of the repository says what a frame is, field by field, and what each error means.
//!
//! Every answer is that of the library, whose contracts are proved of its source. The one exception is a record with byte
//! fields of over 4 GiB in all, which these bindings refuse themselves, in the library's order. They add Rust's types: they
//! lend the buffers as the C interface wants them lent, and give byte fields as parts of the frame. Each `unsafe` block is one
//! call.
//!
//! ```
//! use bekurapi::{read, to_vec, Deframer, End, Job, Kind, Queue, Record, Request, Response};
//!
//! // What a client sends.
//! let request = Request { request_id: 7, timeout: 5_000, func: b"/cell.Robot/Pick", ..Request::default() };
//! let stream = to_vec(7, &Record::Request(request), b"crate 12")?;
//!
//! // It arrives in pieces of any size; whole frames are read, and a job waits for each request.
//! let mut deframer = Deframer::new();
//! let mut queue = Queue::new();
//! for mut piece in stream.chunks(11) {
//!     while let Some(frame) = deframer.next_frame(&mut piece)? {
//!         let message = read(Kind::Request, frame)?;
//!         if let Record::Request(request) = &message.record {
//!             assert_eq!(request.func, b"/cell.Robot/Pick");
//!             queue.add(Job { connection: 1, request: message.id, timeout: request.timeout, arrival: 0 })?;
//!         }
//!     }
//! }
//! assert_eq!(deframer.finish()?, End::Clean);
//!
//! // The job that is due first is answered.
//! let job = queue.take()?;
//! let response = Response { request_id: job.request, ..Response::default() };
//! let frame = to_vec(job.request, &Record::Response(response), b"packed")?;
//! assert_eq!(read(Kind::Response, &frame)?.body, b"packed");
//! # Ok::<(), bekurapi::Error>(())
//! ```
//!
//! A frame has at most 65,536 bytes. A connection whose frames are to be smaller has a [`Ceiling`] of its own.

#![deny(missing_docs)]

mod ceiling;
mod deframer;
mod error;
mod header;
mod numbers;
mod queue;
mod reader;
mod record;
mod trans_info;
mod writer;

pub use ceiling::Ceiling;
pub use deframer::{Deframer, End, Progress};
pub use error::Error;
pub use header::{
    header_check, header_check_within, parse_header, parse_header_within, FixedHeader, FrameType, HEADER_SIZE,
    MAX_FRAME,
};
pub use queue::{Job, Queue, CAPACITY, LATEST_ARRIVAL};
pub use reader::{read, read_within, Message};
pub use record::{Close, Data, Feedback, Init, Kind, Record, Request, RequestMeta, Response, ResponseMeta};
pub use trans_info::TransInfo;
pub use writer::{to_vec, to_vec_within, write, write_within};
