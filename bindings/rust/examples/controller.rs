//! A small controller. A gateway's stream arrives in pieces of odd sizes; the frames are cut from it, the requests are read, and
//! a job is queued for each. A sensor's line has a ceiling of 4,096 bytes, and its deframer a buffer of as many: a larger frame is
//! refused. Then the jobs are taken, the one that is due first before the others, and each is answered with a response frame,
//! under the ceiling of its line. examples/controller.c of the repository does the same and prints the same.
//!
//!     cargo run --example controller

use bekurapi::{
    parse_header_within, read_within, to_vec, to_vec_within, Ceiling, Data, Deframer, End, Error, Feedback, FrameType,
    Job, Kind, Message, Queue, Record, Request, Response, TransInfo, HEADER_SIZE,
};

/// A connection: its number and its ceiling.
struct Line {
    connection: u32,
    ceiling: Ceiling,
}

const GATEWAY: Line = Line { connection: 1, ceiling: Ceiling::MAX };
const SENSOR: Line = Line { connection: 2, ceiling: Ceiling::new(4_096).unwrap() };
const LINES: [Line; 2] = [GATEWAY, SENSOR];

/// The protocol version that gateway and sensor name in their fixed headers. Every version is read.
const VERSION: u8 = 1;

/// A request of the gateway.
struct Order {
    id: u32,
    /// In ms; 0 is no deadline.
    timeout: u32,
    func: &'static str,
    /// The value of a key in the map.
    cell: &'static str,
    body: &'static str,
}

/// The jobs are due in the order 2, 1, 3; the second 2 is refused, since 2 waits already.
const ORDERS: [Order; 4] = [
    Order { id: 1, timeout: 4_000_000_000, func: "/cell.Robot/Park", cell: "4", body: "" },
    Order { id: 2, timeout: 600_000, func: "/cell.Robot/Pick", cell: "4", body: "crate 12" },
    Order { id: 3, timeout: 0, func: "/cell.Robot/Report", cell: "7", body: "since noon" },
    Order { id: 2, timeout: 5_000, func: "/cell.Robot/Pick", cell: "4", body: "crate 12, again" },
];

impl Order {
    fn frame(&self) -> Result<Vec<u8>, Error> {
        let request = Request {
            header_version: VERSION,
            request_id: self.id,
            timeout: self.timeout,
            func: self.func.as_bytes(),
            trans_info: TransInfo::from([("cell", self.cell)]),
            ..Request::default()
        };
        to_vec(self.id, &Record::Request(request), self.body.as_bytes())
    }
}

/// The gateway: a Feedback frame, which is no request, the orders, the beginning of a frame that never gets whole.
fn gateway_stream() -> Result<Vec<u8>, Error> {
    let feedback = Feedback { header_version: VERSION, window_size_increment: 300 };
    let mut stream = to_vec(5, &Record::Feedback(feedback), b"")?;
    for order in &ORDERS {
        stream.extend(order.frame()?);
    }
    stream.extend([0x09, 0x30, 0, 0, 0, 0, 0]);
    Ok(stream)
}

/// The sensor: a Data frame as large as its line takes, and the fixed header of one that is a byte larger.
fn sensor_stream() -> Result<Vec<u8>, Error> {
    let reading = vec![0; SENSOR.ceiling.get() as usize - HEADER_SIZE];
    let mut stream = to_vec_within(9, &Record::Data(Data { header_version: VERSION }), &reading, SENSOR.ceiling)?;
    stream.extend([0x09, 0x30, 1, 2, 0, 0, 0x10, 0x01, 0, 0, 0, 0, 0, 9, VERSION, 0]);
    Ok(stream)
}

fn text(bytes: &[u8]) -> std::borrow::Cow<'_, str> {
    String::from_utf8_lossy(bytes)
}

fn print_request(message: &Message, request: &Request) {
    print!("request {}, version {}, ", message.id, request.header_version);
    print!("timeout {}, func {}", request.timeout, text(request.func));
    for (key, value) in &request.trans_info {
        print!(", {} = {}", text(key), text(value));
    }
    println!(", body \"{}\"", text(message.body));
}

/// Reads a frame as a request and queues a job for it.
fn accept(queue: &mut Queue, line: &Line, frame: &[u8], now: u64) {
    let header = parse_header_within(&frame[..HEADER_SIZE], line.ceiling).expect("the deframer has found it good");
    print!("frame of {} bytes: ", header.total);
    if header.frame_type != FrameType::Unary {
        return println!("{} of stream {}, no request", header.frame_type, header.id);
    }
    let message = match read_within(Kind::Request, frame, line.ceiling) {
        Ok(message) => message,
        Err(error) => return println!("bad, error {}", error.number()),
    };
    let Record::Request(request) = &message.record else { unreachable!("read as a request") };
    print_request(&message, request);
    let job = Job { connection: line.connection, request: message.id, timeout: request.timeout, arrival: now };
    match queue.add(job) {
        Ok(()) => println!("  queued at {now} ms, {} waiting", queue.len()),
        Err(error) => println!("  not queued, error {}", error.number()),
    }
}

/// Cuts the frames from a stream that comes in pieces of these sizes, one each millisecond.
fn receive(queue: &mut Queue, line: &Line, mut stream: &[u8], sizes: &[usize]) -> Result<End, Error> {
    let mut deframer = Deframer::with_ceiling(line.ceiling);
    for (now, &size) in (0..).zip(sizes.iter().cycle()) {
        if stream.is_empty() {
            break;
        }
        let (mut piece, rest) = stream.split_at(size.min(stream.len()));
        while let Some(frame) = deframer.next_frame(&mut piece)? {
            accept(queue, line, frame, now);
        }
        stream = rest;
    }
    deframer.finish()
}

fn print_end(end: Result<End, Error>) {
    match end {
        Ok(End::Clean) => println!("the stream ends clean"),
        Ok(End::Short(held)) => println!("the stream ends short, with {held} bytes held"),
        Err(error) => println!("the stream is refused with {}", error.number()),
    }
}

/// Answers a job, under the ceiling of the line that it came by.
fn answer(job: Job) -> Result<(), Error> {
    let line = LINES.iter().find(|line| line.connection == job.connection).expect("a job comes by a line");
    let response = Response { request_id: job.request, ..Response::default() };
    let frame = to_vec_within(job.request, &Record::Response(response), b"done", line.ceiling)?;
    print!("request {} is due first; its response:", job.request);
    for byte in frame {
        print!(" {byte:02x}");
    }
    println!();
    Ok(())
}

fn main() -> Result<(), Error> {
    let mut queue = Queue::new();
    print_end(receive(&mut queue, &GATEWAY, &gateway_stream()?, &[1, 7, 31, 3, 19, 113]));
    println!("the sensor's line has a ceiling of {} bytes", SENSOR.ceiling.get());
    // The Data frame comes in four pieces, and the header after it in two, 4 bytes and 12.
    print_end(receive(&mut queue, &SENSOR, &sensor_stream()?, &[1_025]));
    loop {
        match queue.take() {
            Ok(job) => answer(job)?,
            Err(Error::QueueEmpty) => break,
            // 24 would mean that something else has written to the queue. Jobs may wait in it.
            Err(error) => return Err(error),
        }
    }
    println!("nothing waits");
    Ok(())
}
