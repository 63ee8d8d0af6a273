//! The deframer and the end of a stream, against the reference's own deframer and against the uncut reading.

use super::header::header;
use super::reader::{filled, filled_record, smaller_frames};
use crate::ceilings::{length, plainer, Limited};
use crate::difference::{hex, same, same_slices, Difference};
use crate::generate::{damage, frame, with_last_two, Generator};
use crate::lent::Lent;
use crate::library;
use crate::random::Random;
use crate::reference::deframer::{uncut, End, State};
use crate::reference::header::{first, in_range, HIGHEST_CEILING, LARGEST, LOWEST_CEILING, SIZE, UNARY};
use crate::reference::interface::{self, finished, Deframed};
use crate::reference::messages::{Kind, ROW_NUMBERS};
use crate::reference::RETIRED;
use crate::run::{Family, Tally};
use crate::shrink::{fewer, less, lower, without, Case};
use std::cell::RefCell;
use std::fmt::{self, Display, Formatter};

/// What is in a buffer that received nothing.
const EMPTY: u8 = 0xA5;

/// The buffers of reference and library, of which a first part is lent. Between inputs both are empty again.
pub struct Buffers {
    reference: Vec<u8>,
    library: Lent<u8>,
    /// How much of them has received bytes.
    reach: usize,
}

thread_local! {
    static BUFFERS: RefCell<Buffers> = RefCell::new(Buffers::new());
}

/// What is given to a call of the deframer: of the buffer its first bytes, as many as the length.
#[derive(Clone, Copy)]
pub struct Given<'a> {
    pub state: State,
    pub length: usize,
    pub ceiling: u32,
    pub piece: &'a [u8],
}

impl Display for Given<'_> {
    fn fmt(&self, out: &mut Formatter) -> fmt::Result {
        let Given { state: State { held, error }, length, ceiling, piece } = self;
        let size = piece.len();
        write!(
            out,
            "a call of {size} bytes at ceiling {ceiling}, with {held} held and error {error}, in {length} bytes"
        )
    }
}

impl Buffers {
    fn new() -> Buffers {
        let empty = vec![EMPTY; LARGEST + 1];
        Buffers { library: Lent::new(&empty, 0x30), reference: empty, reach: 0 }
    }

    /// Runs calls. At the end the whole buffers are the same, past the part that was lent too.
    pub fn lend(calls: impl FnOnce(&mut Buffers) -> Result<(), Difference>) -> Result<(), Difference> {
        BUFFERS.with_borrow_mut(|buffers| {
            let whole = |buffers: &Buffers| buffers.library.holds("the buffer at the end", &buffers.reference);
            let result = calls(buffers).and_then(|()| whole(buffers));
            // A library that wrote where it should not leaves nothing for the next input.
            match &result {
                Ok(()) => buffers.clear(),
                Err(_) => *buffers = Buffers::new(),
            }
            result
        })
    }

    fn clear(&mut self) {
        self.reference[..self.reach].fill(EMPTY);
        self.library.get_mut()[..self.reach].fill(EMPTY);
        self.reach = 0;
    }

    /// One call of both.
    pub fn call(&mut self, given: &Given, tally: &mut Tally) -> Result<Deframed, Difference> {
        let Given { state, length, ceiling, piece } = *given;
        let expected = interface::deframe(state, &mut self.reference[..length], ceiling, piece);
        let actual = library::deframe(state, &mut self.library.get_mut()[..length], ceiling, piece);
        tally.count(expected.error);
        same(given, &expected, &actual)?;
        if expected.taken > 0 {
            self.reach = self.reach.max(state.held + expected.taken);
            let near = self.reference.len().min(self.reach + 64);
            same_slices("the buffer", &self.reference[..near], &self.library.get()[..near])?;
        }
        Ok(expected)
    }

    /// The end of both, asked in place of this call.
    pub fn end(&self, given: &Given) -> Result<(), Difference> {
        let Given { state, length, ceiling, .. } = *given;
        let expected = interface::finish(state, &self.reference[..length], ceiling);
        let actual = library::finish(state, &self.library.get()[..length], ceiling);
        same(&format_args!("the end, asked in place of {given}"), &expected, &actual)
    }

    /// The total of the header that is held.
    pub fn total(&self) -> usize {
        first(&self.reference).total
    }
}

/// A stream in pieces of these sizes; what they leave over comes as a last piece. Unary frames are read as `side`.
#[derive(Clone)]
pub struct Stream {
    pub bytes: Vec<u8>,
    pub pieces: Vec<usize>,
    pub side: Kind,
    /// Whether calls that are refused with 41, 1 and 2 are made between the others.
    pub misused: bool,
    pub ceiling: u32,
    /// The buffer's length.
    pub length: usize,
}

/// A run of calls, while it goes well.
struct Walk<'a> {
    stream: &'a Stream,
    frames: Vec<&'a [u8]>,
    frame_count: usize,
    state: State,
    taken: usize,
}

impl Walk<'_> {
    fn given<'p>(&self, piece: &'p [u8]) -> Given<'p> {
        Given { state: self.state, length: self.stream.length, ceiling: self.stream.ceiling, piece }
    }

    /// One call of both. Whether the stream goes on.
    fn call(&mut self, buffers: &mut Buffers, piece: &[u8], tally: &mut Tally) -> Result<bool, Difference> {
        let answer = buffers.call(&self.given(piece), tally)?;
        self.state = answer.next;
        self.taken += answer.taken;
        buffers.end(&self.given(&[]))?;
        if answer.size > 0 {
            self.frame(buffers, answer.size)?;
        }
        Ok(answer.error == 0)
    }

    /// The frame just cut is the uncut reading's next, and reads the same.
    fn frame(&mut self, buffers: &Buffers, size: usize) -> Result<(), Difference> {
        let cut = &buffers.library.get()[..size];
        let Some(frame) = self.frames.get(self.frame_count) else {
            return same(&"the count of frames in the uncut reading", &self.frames.len(), &(self.frame_count + 1));
        };
        same_slices("a frame of the uncut reading", frame, cut)?;
        self.frame_count += 1;
        let Stream { side, ceiling, .. } = self.stream;
        let kind = kind_of(frame, *side);
        let (mut rows, mut record) = (filled(ROW_NUMBERS, 1), filled_record(1));
        let (mut lent_rows, mut lent_record) = (Lent::new(&rows, 3), Lent::new(&record, 4));
        let expected = interface::read(kind, frame, *ceiling, &mut rows, &mut record);
        let actual = library::read(kind, cut, *ceiling, lent_rows.get_mut(), lent_record.array());
        same(&"the error code of a frame's reading", &expected, &actual)?;
        lent_record.holds("the record of a frame", &record)?;
        lent_rows.holds("the row numbers of a frame", &rows)
    }

    /// Calls that are refused with 41, 1 and 2, and change nothing. They may carry any ceiling.
    fn misuse(&self, buffers: &mut Buffers, piece: &[u8], tally: &mut Tally) -> Result<(), Difference> {
        let right = self.given(piece);
        let State { held, error } = self.state;
        let strange = State { held: held + 17, error: 3 };
        let retired = State { held: SIZE, error: RETIRED[0] };
        let mut wrong = vec![
            Given { length: right.length.min(right.ceiling as usize).saturating_sub(1), ..right },
            Given { state: strange, ..right },
            Given { state: retired, ..right },
            Given { ceiling: LOWEST_CEILING - 1, ..right },
            Given { ceiling: HIGHEST_CEILING + 1, state: strange, length: 0, ..right },
        ];
        // At another ceiling the header that is held is judged otherwise: at one below its total, or at the total that was over.
        if held >= SIZE && error == 0 {
            wrong.push(Given { ceiling: buffers.total() as u32 - 1, ..right });
        }
        if error == 6 && in_range(buffers.total() as u32) {
            wrong.push(Given { ceiling: buffers.total() as u32, ..right });
        }
        for wrong in wrong {
            let answer = buffers.call(&wrong, tally)?;
            assert!(answer.error != 0 && answer.taken == 0, "{wrong}, which is not refused");
            buffers.end(&wrong)?;
        }
        Ok(())
    }
}

fn kind_of(frame: &[u8], side: Kind) -> Kind {
    let fixed = first(frame);
    match (fixed.data_type, fixed.stream_type) {
        (UNARY, _) => side,
        (_, 1) => Kind::Init,
        (_, 2) => Kind::Data,
        (_, 3) => Kind::Feedback,
        _ => Kind::Close,
    }
}

impl Stream {
    /// At 65,536, and no misuse between.
    pub fn plain(bytes: &[u8], pieces: Vec<usize>, side: Kind) -> Stream {
        Stream { bytes: bytes.to_vec(), pieces, side, misused: false, ceiling: HIGHEST_CEILING, length: LARGEST }
    }

    fn run(&self, buffers: &mut Buffers, walk: &mut Walk, tally: &mut Tally) -> Result<(), Difference> {
        let mut rest = self.bytes.as_slice();
        for size in self.pieces.iter().copied().chain([usize::MAX]) {
            let (mut piece, behind) = rest.split_at(size.min(rest.len()));
            loop {
                if self.misused {
                    walk.misuse(buffers, piece, tally)?;
                }
                let taken = walk.taken;
                if !walk.call(buffers, piece, tally)? {
                    if self.misused {
                        walk.misuse(buffers, piece, tally)?;
                    }
                    walk.call(buffers, piece, tally)?; // the number again, and nothing taken
                    return Ok(());
                }
                piece = &piece[walk.taken - taken..];
                if piece.is_empty() {
                    break;
                }
            }
            rest = behind;
        }
        Ok(())
    }

    /// The frames of the uncut reading and its end. It has a premise: with a ceiling out of the range, or a buffer that is too
    /// short for it, every call is refused.
    fn uncut(&self) -> (Vec<&[u8]>, End) {
        if !in_range(self.ceiling) {
            (Vec::new(), End::Refused(41))
        } else if self.length < self.ceiling as usize {
            (Vec::new(), End::Refused(1))
        } else {
            uncut(&self.bytes, self.ceiling)
        }
    }
}

impl Case for Stream {
    fn compare(&self, tally: &mut Tally) -> Result<(), Difference> {
        tally.count_ceiling(self.ceiling);
        Buffers::lend(|buffers| {
            let (frames, end) = self.uncut();
            let mut walk = Walk { stream: self, frames, frame_count: 0, state: State::default(), taken: 0 };
            self.run(buffers, &mut walk, tally)?;
            same(&"the count of frames in the uncut reading", &walk.frames.len(), &walk.frame_count)?;
            let actual = library::finish(walk.state, &buffers.library.get()[..self.length], self.ceiling);
            same(&"the end of the uncut reading", &finished(end), &actual)
        })
    }

    fn smaller(&self) -> Box<dyn Iterator<Item = Stream> + '_> {
        let without_misuse = self.misused.then(|| Stream { misused: false, ..self.clone() });
        let one_piece = (!self.pieces.is_empty()).then(|| Stream { pieces: Vec::new(), ..self.clone() });
        let fewer_pieces = fewer(&self.pieces).map(|pieces| Stream { pieces, ..self.clone() });
        let joined = (1..self.pieces.len()).map(|place| {
            let mut pieces = without(&self.pieces, &(place..place + 1));
            pieces[place - 1] += self.pieces[place];
            Stream { pieces, ..self.clone() }
        });
        let smaller_pieces = (0..self.pieces.len()).flat_map(move |place| {
            less(self.pieces[place] as u64).map(move |size| {
                let mut pieces = self.pieces.clone();
                pieces[place] = size as usize;
                Stream { pieces, ..self.clone() }
            })
        });
        let bytes =
            shorter_streams(&self.bytes).chain(lower(&self.bytes)).map(|bytes| Stream { bytes, ..self.clone() });
        let ceilings = plainer(self.ceiling).map(|ceiling| Stream { ceiling, length: LARGEST, ..self.clone() });
        let lengths = less(self.length as u64).map(|length| Stream { length: length as usize, ..self.clone() });
        let all = without_misuse.into_iter().chain(one_piece).chain(ceilings).chain(fewer_pieces).chain(bytes);
        Box::new(all.chain(joined).chain(smaller_pieces).chain(lengths))
    }

    fn show(&self) -> String {
        format!(
            "stream, {} bytes: {}\nin pieces of {:?} and the rest, at ceiling {} with a buffer of {} bytes; unary frames are \
             read as {:?}{}",
            self.bytes.len(),
            hex(&self.bytes),
            self.pieces,
            self.ceiling,
            self.length,
            self.side,
            if self.misused { "; with calls refused with 41, 1 and 2 between" } else { "" }
        )
    }
}

impl Limited for Stream {
    fn sizes(&self) -> Vec<usize> {
        uncut(&self.bytes, HIGHEST_CEILING).0.iter().map(|frame| frame.len()).collect()
    }

    fn at(&self, ceiling: u32, random: &mut Random) -> Stream {
        let length = length(random, ceiling, self.length).min(LARGEST + 1);
        Stream { ceiling, length, ..self.clone() }
    }
}

/// Without a frame, with a smaller one, and without some bytes.
fn shorter_streams(bytes: &[u8]) -> impl Iterator<Item = Vec<u8>> + '_ {
    let mut places = Vec::new();
    let mut end = 0;
    for frame in uncut(bytes, HIGHEST_CEILING).0 {
        places.push(end..end + frame.len());
        end += frame.len();
    }
    let whole = places.clone().into_iter().map(|place| without(bytes, &place));
    let inside = places.into_iter().flat_map(move |place| {
        let smaller = smaller_frames(&bytes[place.clone()]).into_iter();
        smaller.map(move |frame| [&bytes[..place.start], &frame, &bytes[place.end..]].concat())
    });
    whole.chain(inside).chain(fewer(bytes))
}

/// Streams that are short enough for every split: document 01's listing, frames of 16 bytes and a refused header with bytes
/// after them, and headers that never come to their end. Some have a version.
fn short_streams() -> Vec<Vec<u8>> {
    let empty = frame(Kind::Request, 7, &[], &[]);
    let mut refused = empty.clone();
    refused[7] = 15;
    vec![
        [&frame(Kind::Feedback, 5, &[0x08, 0xAC, 0x02], &[])[..], &[0x09]].concat(),
        [&empty[..], &[0x30]].concat(),
        [&with_last_two(empty.clone(), 1, 0)[..], &[0x30]].concat(),
        [&refused[..], &[0x09]].concat(),
        with_last_two(frame(Kind::Data, 5, &[], &[0x77]), 0xFE, 0xFF),
        vec![0x30; 15],
        empty[..13].to_vec(),
    ]
}

/// Every split of short streams into pieces that are not empty.
pub fn every_split(family: &mut Family) {
    for bytes in short_streams() {
        let places = bytes.len() - 1;
        for cuts in 0..1u32 << places {
            let mut pieces = Vec::new();
            let mut last = 0;
            for place in (1..=places).filter(|place| cuts >> (place - 1) & 1 == 1) {
                pieces.push(place - last);
                last = place;
            }
            family.check_limited(&Stream::plain(&bytes, pieces, Kind::Request));
        }
    }
}

/// Three pieces, empty ones too, by every pair of cuts, of streams of several frames, each of another version.
pub fn every_two_cuts(family: &mut Family) {
    let whole = four_frames();
    let mut refused = whole.clone();
    refused[whole.len() - 23] = 0x30; // the magic of the last
    let unfinished = whole[..whole.len() - 5].to_vec();
    for bytes in [whole, refused, unfinished] {
        for first in 0..=bytes.len() {
            for second in first..=bytes.len() {
                let pieces = vec![first, second - first];
                let case = Stream::plain(&bytes, pieces, Kind::Response);
                family.check_limited(&Stream { misused: first % 8 == 0, ..case });
            }
        }
    }
}

fn four_frames() -> Vec<u8> {
    let response = [0x20, 0x05, 0x42, 0x06, 0x0A, 0x01, 0x6B, 0x12, 0x01, 0x76, 0x60, 0x02];
    let frames = [
        frame(Kind::Response, 9, &response, &[1, 2, 3]),
        frame(Kind::Data, 4, &[], &[]),
        frame(Kind::Init, 4, &[0x0A, 0x03, 0x0A, 0x01, 0x63, 0x12, 0x00, 0x18, 0x07], &[]),
        frame(Kind::Close, 4, &[0x08, 0x01, 0x1A, 0x03, 0x62, 0x79, 0x65], &[]),
    ];
    let versions = [(1, 0), (0xFF, 1), (2, 0xFF), (0, 8)];
    let under = |(frame, (version, last))| with_last_two(frame, version, last);
    frames.into_iter().zip(versions).flat_map(under).collect()
}

/// A stream of some frames, long ones now and then, damaged or cut off or not.
fn stream(random: &mut Random) -> Vec<u8> {
    let mut bytes = Vec::new();
    for _ in 0..random.pick(&[0, 1, 1, 2, 2, 3, 4, 8]) {
        let kind = random.pick(&Kind::ALL);
        let mut next = Generator { random, tidy: false }.frame(kind, 0);
        if random.one_in(24) {
            let size = random.pick(&[65_520, 65_519, 65_521, 4_000, 20_000]);
            next = frame(Kind::Data, 3, &[], &vec![random.byte(); size]);
            next[14..16].copy_from_slice(&random.last_two());
        }
        bytes.extend(next);
    }
    if random.one_in(4) {
        damage(random, &mut bytes);
    }
    if random.one_in(4) {
        bytes.extend(header(random));
    }
    if random.one_in(3) {
        bytes.truncate(random.between(0, bytes.len()));
    }
    bytes
}

fn pieces(random: &mut Random, total: usize) -> Vec<usize> {
    let largest = random.pick(&[1, 3, 17, 40, 200, 5_000, 70_000]).max(total / 100);
    let mut pieces = Vec::new();
    let mut left = total;
    while left > 0 {
        let size = random.between(0, largest.min(left));
        pieces.push(size);
        left -= size;
    }
    pieces
}

/// Streams of any length in pieces of any size, with refused calls between them now and then.
pub fn streams(family: &mut Family) {
    for _ in 0..family.inputs {
        let random = &mut family.random;
        let bytes = stream(random);
        let pieces = pieces(random, bytes.len());
        let side = random.pick(&[Kind::Request, Kind::Response]);
        let misused = random.one_in(8);
        family.check_limited(&Stream { misused, ..Stream::plain(&bytes, pieces, side) });
    }
}

/// One call and one end with any state and any buffer.
#[derive(Clone)]
pub struct Standing {
    pub state: State,
    pub ceiling: u32,
    /// The buffer's length, and the bytes at its start.
    pub length: usize,
    pub start: Vec<u8>,
    pub piece: Vec<u8>,
}

impl Standing {
    /// At 65,536.
    pub fn plain(state: State, length: usize, start: &[u8], piece: &[u8]) -> Standing {
        Standing { state, ceiling: HIGHEST_CEILING, length, start: start.to_vec(), piece: piece.to_vec() }
    }
}

impl Case for Standing {
    fn compare(&self, tally: &mut Tally) -> Result<(), Difference> {
        let mut buffer = self.start.clone();
        buffer.resize(self.length, EMPTY);
        let mut lent = Lent::new(&buffer, 0x09);
        let lent_piece = Lent::new(&self.piece, 0x09);

        let Standing { state, ceiling, piece, .. } = self;
        let expected = interface::finish(*state, &buffer, *ceiling);
        same(&"the end", &expected, &library::finish(*state, lent.get(), *ceiling))?;
        lent.holds("the buffer after the end", &buffer)?;

        let expected = interface::deframe(*state, &mut buffer, *ceiling, piece);
        let actual = library::deframe(*state, lent.get_mut(), *ceiling, lent_piece.get());
        tally.count(expected.error);
        tally.count_ceiling(*ceiling);
        same(&"the call", &expected, &actual)?;
        lent.holds("the buffer", &buffer)?;
        lent_piece.holds("the piece", piece)
    }

    fn smaller(&self) -> Box<dyn Iterator<Item = Standing> + '_> {
        let State { held, error } = self.state;
        let states = less(held as u64)
            .map(move |held| State { held: held as usize, error })
            .chain(less(error.into()).map(move |error| State { held, error: error as u32 }))
            .map(|state| Standing { state, ..self.clone() });
        let lengths = less(self.length as u64).map(|length| Standing { length: length as usize, ..self.clone() });
        let ceilings = plainer(self.ceiling).flat_map(|ceiling| {
            let beside = self.length.saturating_sub(self.ceiling as usize);
            let lengths = [self.length, ceiling as usize + beside];
            lengths.map(|length| Standing { ceiling, length: length.min(self.length.max(LARGEST)), ..self.clone() })
        });
        let starts = fewer(&self.start).chain(lower(&self.start)).map(|start| Standing { start, ..self.clone() });
        let pieces = fewer(&self.piece).chain(lower(&self.piece)).map(|piece| Standing { piece, ..self.clone() });
        Box::new(pieces.chain(starts).chain(states).chain(ceilings).chain(lengths))
    }

    fn show(&self) -> String {
        format!(
            "state {:?} at ceiling {} with a buffer of {} bytes: {} and then {EMPTY:02X} each\npiece, {} bytes: {}",
            self.state,
            self.ceiling,
            self.length,
            hex(&self.start),
            self.piece.len(),
            hex(&self.piece)
        )
    }
}

impl Limited for Standing {
    /// The total of what is held and comes, the count held, and the buffer's length.
    fn sizes(&self) -> Vec<usize> {
        let State { held, .. } = self.state;
        let bytes = [&self.start[..held.min(self.start.len())], &self.piece].concat();
        let total = (bytes.len() >= SIZE).then(|| first(&bytes).total);
        total.into_iter().chain(total).chain([held, self.length]).collect()
    }

    fn at(&self, ceiling: u32, random: &mut Random) -> Standing {
        Standing { ceiling, length: length(random, ceiling, self.length), ..self.clone() }
    }
}

/// A state that a call can have left, or another; a buffer that is too short, exact or longer.
pub fn any_standing(random: &mut Random) -> Standing {
    let mut start = header(random).to_vec();
    let fixed = first(&start);
    let near = fixed.total.wrapping_add(random.below(3)).wrapping_sub(1);
    let any = random.number() as usize;
    let held = random.pick(&[0, 1, 14, 15, 16, 16, 16, 16, 17, 20, near, near, 65_535, 65_536, usize::MAX, any]);
    let own = fixed.error(HIGHEST_CEILING);
    let held = if held > 16 && own == 0 && random.one_in(2) { random.between(16, fixed.total) } else { held };
    let small = random.below(12) as u32;
    let retired = random.pick(&RETIRED);
    let error = random.pick(&[0, 0, 0, own, own, own, small, retired, any as u32]);
    let length =
        random.pick(&[0, 1, 15, 16, 65_535, LARGEST, LARGEST, LARGEST, LARGEST, LARGEST, LARGEST, 65_537, 70_000]);
    start.truncate(length);
    let count = random.pick(&[0, 1, 2, 16, 17, 40, 300]);
    let mut piece = random.bytes(count);
    if held < 16 && random.one_in(2) {
        let header = header(random);
        for (byte, own) in piece.iter_mut().zip(&header[held..]) {
            *byte = *own;
        }
        for (place, own) in start.iter_mut().zip(&header[..held]) {
            *place = *own;
        }
    }
    Standing::plain(State { held, error }, length, &start, &piece)
}

/// States that a call can have left, and others; buffers that are too short, exact and longer.
pub fn states(family: &mut Family) {
    for _ in 0..family.inputs {
        let case = any_standing(&mut family.random);
        family.check_limited(&case);
    }
}
