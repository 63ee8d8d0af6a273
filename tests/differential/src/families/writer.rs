//! The writer of a frame.

use crate::ceilings::{length, lowered, plainer, Limited};
use crate::difference::{hex, same, Difference};
use crate::lent::Lent;
use crate::library;
use crate::random::Random;
use crate::reference::header::{HIGHEST_CEILING, LARGEST, SIZE};
use crate::reference::interface::{self, Numbers, RECORD_NUMBERS, VERSION};
use crate::reference::messages::Kind;
use crate::reference::writer::frame;
use crate::run::{Family, Tally};
use crate::shrink::{each_less, fewer, less, lower, Case};

/// A record to be written at a ceiling, and an output of so many bytes.
#[derive(Clone)]
pub struct Writing {
    pub kind: Kind,
    pub record: Numbers,
    pub source: Vec<u8>,
    pub rows: Vec<u32>,
    pub body: Vec<u8>,
    pub out: usize,
    pub ceiling: u32,
}

/// Where a record has what, by kind. Byte fields are named by the place of their start.
pub struct Layout {
    pub numbers: &'static [usize],
    pub bytes: &'static [usize],
    pub marks: &'static [usize],
    pub attachment: Option<usize>,
    pub has_rows: bool,
    /// Where the numbers begin that are zero, up to the version's.
    pub end: usize,
}

pub fn layout(kind: Kind) -> Layout {
    let (numbers, bytes, marks, attachment, has_rows, end): (&[usize], &[usize], &[usize], _, _, _) = match kind {
        Kind::Request => (&[8, 9, 10, 11, 18, 19, 20], &[12, 14, 16], &[], Some(21), true, 22),
        Kind::Response => (&[8, 9, 10, 11, 12, 15, 16, 17], &[13], &[], Some(18), true, 19),
        Kind::Init => (&[15, 17, 20, 21, 22], &[9, 11, 13, 18], &[8, 16], None, true, 23),
        Kind::Data => (&[], &[], &[], None, false, 8),
        Kind::Feedback => (&[8], &[], &[], None, false, 9),
        Kind::Close => (&[8, 9, 12, 13], &[10], &[], None, true, 14),
    };
    Layout { numbers, bytes, marks, attachment, has_rows, end }
}

/// What is in an output of so many bytes before the call.
fn unwritten(count: usize) -> Vec<u8> {
    (0..count).map(|place| 0xC3 ^ place as u8).collect()
}

impl Case for Writing {
    fn compare(&self, tally: &mut Tally) -> Result<(), Difference> {
        let Writing { kind, record, source, rows, body, ceiling, .. } = self;
        let mut out = unwritten(self.out);
        let mut lent_out = Lent::new(&out, 0x5C);
        let (mut lent_record, lent_rows) = (Lent::new(record, 7), Lent::new(rows, 1));
        let (lent_source, lent_body) = (Lent::new(source, 0x73), Lent::new(body, 0x62));

        let expected = interface::write(*kind, record, source, rows, body, &mut out, *ceiling);
        let actual = library::write(
            *kind,
            lent_record.array(),
            lent_source.get(),
            lent_rows.get(),
            lent_body.get(),
            lent_out.get_mut(),
            *ceiling,
        );
        tally.count(expected.error);
        tally.count_ceiling(*ceiling);
        same(&"the answer", &expected, &actual)?;
        lent_out.holds("the output", &out)?;
        lent_record.holds("the record", record)?;
        lent_source.holds("the source", source)?;
        lent_rows.holds("the row numbers", rows)?;
        lent_body.holds("the body", body)
    }

    fn smaller(&self) -> Box<dyn Iterator<Item = Writing> + '_> {
        let bodies = fewer(&self.body).chain(lower(&self.body)).map(|body| Writing { body, ..self.clone() });
        let sources = fewer(&self.source).chain(lower(&self.source)).map(|source| Writing { source, ..self.clone() });
        let rows = fewer(&self.rows).chain(each_less(&self.rows)).map(|rows| Writing { rows, ..self.clone() });
        let without_row = (0..self.rows.len() / 4).filter_map(|row| {
            let mut smaller = self.clone();
            smaller.rows.drain(4 * row..4 * row + 4);
            smaller.record[1] = smaller.record[1].checked_sub(1)?;
            Some(smaller)
        });
        let records =
            each_less(&self.record).map(|record| Writing { record: record.try_into().unwrap(), ..self.clone() });
        let outs = less(self.out as u64).map(|out| Writing { out: out as usize, ..self.clone() });
        let ceilings = plainer(self.ceiling).map(|ceiling| Writing { ceiling, ..self.clone() });
        let all = bodies.chain(without_row).chain(records).chain(rows).chain(sources).chain(outs);
        // Each as it is, and with a ceiling that is lower by as much as the frame is shorter.
        let before = self.size().filter(|_| self.ceiling != HIGHEST_CEILING);
        let all = all.flat_map(move |smaller| {
            let ceiling = before.and_then(|before| lowered(self.ceiling, before, smaller.size()?));
            let lower = ceiling.map(|ceiling| Writing { ceiling, ..smaller.clone() });
            lower.into_iter().chain([smaller])
        });
        Box::new(all.chain(ceilings))
    }

    fn show(&self) -> String {
        format!(
            "written as {:?}\nrecord, in hex: {:X?}\nsource, {} bytes: {}\nrows, {} numbers in hex: {:X?}\n\
             body, {} bytes: {}\noutput of {} bytes, ceiling {}",
            self.kind,
            self.record,
            self.source.len(),
            hex(&self.source),
            self.rows.len(),
            self.rows,
            self.body.len(),
            hex(&self.body),
            self.out,
            self.ceiling
        )
    }
}

impl Limited for Writing {
    fn sizes(&self) -> Vec<usize> {
        self.size().into_iter().collect()
    }

    fn at(&self, ceiling: u32, random: &mut Random) -> Writing {
        let long = length(random, ceiling, self.out);
        Writing { ceiling, out: random.pick(&[self.out, long]), ..self.clone() }
    }
}

impl Writing {
    pub fn new(kind: Kind) -> Writing {
        let record = [0; RECORD_NUMBERS];
        let (source, rows, body) = (Vec::new(), Vec::new(), Vec::new());
        Writing { kind, record, source, rows, body, out: 0, ceiling: HIGHEST_CEILING }
    }

    /// The size of its frame, were there no output to be too short, and no ceiling but the highest.
    pub fn size(&self) -> Option<usize> {
        let input = interface::input(self.kind, &self.record, &self.source, &self.rows, &self.body);
        frame(&input, HIGHEST_CEILING).ok().map(|frame| frame.len())
    }

    /// A start and length within the source; an empty one anywhere in it.
    fn span(&self, random: &mut Random) -> (u32, u32) {
        let size = self.source.len();
        if random.one_in(4) {
            return (random.pick(&[0, 0, 1, size]).min(size) as u32, 0);
        }
        let start = random.between(0, size);
        let longest = if random.one_in(12) { size - start } else { (size - start).min(9) };
        (start as u32, random.between(0, longest) as u32)
    }

    pub fn put_span(&mut self, place: usize, (start, length): (u32, u32)) {
        self.record[place] = start;
        self.record[place + 1] = length;
    }

    /// A row more. Most keys are of three bytes, so that few are equal.
    fn push_row(&mut self, random: &mut Random) {
        let (mut key, value) = (self.span(random), self.span(random));
        if self.source.len() >= 30 && !random.one_in(16) {
            key = (random.below(self.source.len() - 3) as u32, 3);
        }
        self.rows.extend([key.0, key.1, value.0, value.1]);
        self.record[1] = self.record[1].saturating_add(1);
    }

    /// A record that the writer takes, but for equal keys that come by chance and the output.
    pub fn good(random: &mut Random) -> Writing {
        let kind = Kind::ALL[random.pick(&[0, 0, 1, 1, 2, 2, 3, 4, 5, 5])];
        let mut new = Writing::new(kind);
        let source_size = random.pick(&[0, 1, 30, 60, 300, 300, 700]);
        new.source = random.bytes(source_size);
        new.record[0] = random.number32();
        new.record[VERSION] = random.version();
        let layout = layout(kind);
        for place in layout.numbers {
            new.record[*place] = if random.one_in(3) { 0 } else { random.number32() };
        }
        for place in layout.bytes {
            let span = new.span(random);
            new.put_span(*place, span);
        }
        for place in layout.marks {
            // Any number but 0 marks a part as present.
            new.record[*place] = random.pick(&[0, 0, 0, 1, 1, 1, 2, u32::MAX]);
        }
        if layout.has_rows {
            let most = if source_size < 30 { 1 } else { 64 };
            for _ in 0..random.pick(&[0, 0, 0, 1, 2, 3, 5, 8, 64]).min(most) {
                new.push_row(random);
            }
        }
        if kind == Kind::Init {
            new.empty_absent_parts(random);
        }
        let body_size = random.pick(&[0, 0, 1, 5, 20, 130, 700]);
        if matches!(kind, Kind::Request | Kind::Response | Kind::Data) {
            new.body = random.bytes(body_size);
        }
        if let Some(place) = layout.attachment {
            new.record[place] = random.pick(&[0, 0, 1, body_size / 2, body_size]).min(body_size) as u32;
        }
        new
    }

    fn empty_absent_parts(&mut self, random: &mut Random) {
        let start = random.between(0, self.source.len()) as u32;
        let empty = random.pick(&[(0, 0), (0, 0), (start, 0)]);
        if self.record[8] == 0 {
            for place in [9, 11, 13] {
                self.put_span(place, empty);
            }
            self.record[15] = 0;
            self.record[1] = 0;
        }
        if self.record[16] == 0 {
            self.record[17] = 0;
            self.put_span(18, empty);
        }
    }

    /// An output as long as the frame, a little shorter or longer, or any; rows that are more than needed; anything in the
    /// numbers that a writer does not look at.
    fn with_slices(mut self, random: &mut Random) -> Writing {
        let exact = self.size().unwrap_or(40);
        let any = random.below(900);
        self.out = random.pick(&[exact, exact, exact, exact + 1, exact + 40, exact + 700, exact - 1, any, 0]);
        for place in (2..8).chain(layout(self.kind).end..VERSION) {
            self.record[place] = random.pick(&[0, 0, 1, 77, u32::MAX]);
        }
        if random.one_in(4) {
            let more = random.below(9);
            self.rows.extend((0..more).map(|_| random.number32()));
        }
        self
    }

    /// Gives a ground for a refusal, where its kind can have it.
    fn fault(&mut self, random: &mut Random) {
        let layout = layout(self.kind);
        let size = self.source.len() as u32;
        let border = random.pick(&[(size + 1, 0), (size, 1), (0, size + 1)]);
        let wrapping =
            random.pick(&[(u32::MAX, 0), (u32::MAX, 1), (u32::MAX, size), (1, u32::MAX), (size, u32::MAX - size)]);
        let past = random.pick(&[border, wrapping]);
        match random.below(11) {
            0 => {
                while self.rows.len() < 4 * 65 {
                    self.push_row(random);
                }
                self.record[1] = random.pick(&[65, 65, 66, 1 << 30, u32::MAX]);
            }
            1 => self.record[1] = random.pick(&[65, 64, 1, 1 << 30, (1 << 30) + 1, u32::MAX]),
            2 => self.push_row(random),
            3 => {
                self.push_row(random);
                self.rows.truncate(self.rows.len() - random.between(1, 4));
            }
            4 | 5 if !layout.bytes.is_empty() => {
                let place = random.pick(layout.bytes);
                self.put_span(place, past);
            }
            6 => {
                self.push_row(random);
                let place = self.rows.len() - random.pick(&[4, 2]);
                (self.rows[place], self.rows[place + 1]) = past;
            }
            7 => self.equal_keys(random),
            8 if self.kind == Kind::Init => {
                self.record[random.pick(&[8, 16])] = 0;
            }
            9 => match layout.attachment {
                Some(place) => {
                    self.record[place] =
                        random.pick(&[self.body.len() as u32 + 1, self.body.len() as u32 + 2, u32::MAX]);
                }
                None => self.body.push(random.byte()),
            },
            _ => {
                let long = random.pick(&[65_520, 65_521, 65_536, 70_000]);
                self.body = vec![random.byte(); long];
            }
        }
    }

    /// A row whose key is another's: the same place, or the same bytes elsewhere, or both empty.
    fn equal_keys(&mut self, random: &mut Random) {
        self.push_row(random);
        self.push_row(random);
        let rows = self.rows.len() / 4;
        let (from, to) = (4 * random.below(rows - 1), 4 * (rows - 1));
        let (start, length) = (self.rows[from], self.rows[from + 1]);
        let copied = self.source.len() as u32;
        let key = self.source.get(start as usize..start as usize + length as usize).unwrap_or(&[]).to_vec();
        self.source.extend(key);
        self.rows[to] = random.pick(&[start, copied]);
        self.rows[to + 1] = length;
    }
}

/// Records that are written, into outputs of every length.
pub fn records(family: &mut Family) {
    for _ in 0..family.inputs {
        let random = &mut family.random;
        let case = Writing::good(random).with_slices(random);
        family.check_limited(&case);
    }
}

/// A record with one ground for a refusal, or several at once.
pub fn any_grounds(random: &mut Random) -> Writing {
    let mut case = Writing::good(random);
    for _ in 0..random.pick(&[1, 1, 2, 2, 3]) {
        case.fault(random);
    }
    case.with_slices(random)
}

/// One ground for a refusal, or several at once.
pub fn grounds(family: &mut Family) {
    for _ in 0..family.inputs {
        let case = any_grounds(&mut family.random);
        family.check_limited(&case);
    }
}

/// A record whose frame has around 65,536 bytes, or a few more: by its body, or by a byte field or a row. Without a body the
/// message then has around 65,520 bytes, or around 65,536.
pub fn large(random: &mut Random) -> Writing {
    let mut case = Writing::good(random);
    let layout = layout(case.kind);
    let has_body = matches!(case.kind, Kind::Request | Kind::Response | Kind::Data);
    if random.one_in(2) {
        case.body.clear();
        if let Some(place) = layout.attachment {
            case.record[place] = 0;
        }
    }
    let near = if random.one_in(4) { LARGEST + SIZE } else { LARGEST };
    let total = near - 3 + random.below(7);
    let byte = random.byte();
    match case.kind {
        Kind::Data => case.by_body(random, total, byte),
        Kind::Request | Kind::Response if random.one_in(2) => case.by_body(random, total, byte),
        Kind::Request | Kind::Response | Kind::Init | Kind::Close => case.by_message(random, total, byte),
        Kind::Feedback => {} // its message is always short
    }
    // A message that fills the frame leaves no room for a body.
    if has_body && random.one_in(8) {
        case.body.push(byte);
    }
    case
}

impl Writing {
    /// Its body makes the frame of so many bytes; half have no field.
    fn by_body(&mut self, random: &mut Random, total: usize, byte: u8) {
        if random.one_in(2) {
            *self = Writing::new(self.kind);
        }
        let rest = self.size().map_or(SIZE, |size| size - self.body.len());
        self.body.resize(total - rest, byte);
    }

    /// A byte field or the value of a new row makes the frame of so many bytes.
    fn by_message(&mut self, random: &mut Random, total: usize, byte: u8) {
        if self.kind == Kind::Init {
            self.record[8] = 1;
            self.record[16] = 1;
        }
        self.source.resize(LARGEST + 2 * SIZE, byte);
        let start = random.below(8) as u32;
        let fields = layout(self.kind).bytes;
        let field = random.one_in(2).then(|| random.pick(fields));
        if field.is_none() {
            self.rows.truncate(4 * self.record[1] as usize);
            self.rows.extend([LARGEST as u32, 1, start, 0]);
            self.record[1] += 1;
        }
        let put = |case: &mut Writing, length: u32| match field {
            Some(place) => case.put_span(place, (start, length)),
            None => *case.rows.last_mut().unwrap() = length,
        };
        // From 16,384 to 65,536 a length takes three bytes, so that the frame grows as the content does.
        put(self, 16_384);
        let size = self.size().unwrap_or(16_384 + SIZE);
        put(self, (16_384 + total - size) as u32);
    }
}

pub fn largest(family: &mut Family) {
    for _ in 0..family.inputs {
        let random = &mut family.random;
        let mut case = large(random);
        let exact = case.size().unwrap_or(LARGEST);
        // The last has room for a frame that is too long, so that 27's ground does not hold.
        case.out = random.pick(&[exact, exact, exact - 1, exact + 5, 2 * LARGEST]);
        family.check_limited(&case);
    }
}
