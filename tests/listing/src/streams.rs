//! The streams: good, damaged, and cut short at every place, each with the sizes of its pieces.

use std::collections::BTreeMap;

pub struct Case {
    pub what: &'static str,
    pub stream: Vec<u8>,
    pub pieces: Vec<usize>,
}

/// xorshift64*
struct Random(u64);

impl Random {
    fn next(&mut self) -> u64 {
        self.0 ^= self.0 >> 12;
        self.0 ^= self.0 << 25;
        self.0 ^= self.0 >> 27;
        self.0.wrapping_mul(0x2545_f491_4f6c_dd1d) >> 11
    }

    fn below(&mut self, bound: usize) -> usize {
        (self.next() % bound as u64) as usize
    }

    fn one_of<T: Copy>(&mut self, choices: &[T]) -> T {
        choices[self.below(choices.len())]
    }

    fn bytes(&mut self, count: usize) -> Vec<u8> {
        (0..count).map(|_| self.next() as u8).collect()
    }

    fn total(&mut self) -> usize {
        match self.below(40) {
            0 => self.one_of(&[65_536, 65_535, 65_520, 40_000]),
            1..=3 => 1_000 + self.below(8_000),
            4..=15 => 16,
            16..=20 => self.one_of(&[17, 31, 32, 33, 255, 256, 257]),
            _ => 16 + self.below(200),
        }
    }

    /// The protocol version and the reserved byte: 0, or any.
    fn last_two(&mut self) -> [u8; 2] {
        let any = self.next() as u8;
        [self.one_of(&[0, 1, 8, any]), self.one_of(&[0, 0, 0xFF, !any])]
    }

    fn frame(&mut self, total: usize) -> Vec<u8> {
        let unary = self.below(2) == 0;
        let header_size = if unary { self.below(total - 15).min(65_535) as u16 } else { 0 };
        let stream_type = if unary { self.one_of(&[0, 0, 0, 200]) } else { 1 + self.below(4) as u8 };
        let id = match self.below(4) {
            0 => self.one_of(&[0, 1, 9, 10, 99, 100, 999_999_999, 1_000_000_000, u32::MAX]),
            _ => self.next() as u32,
        };
        let mut frame = vec![0x09, 0x30, u8::from(!unary), stream_type];
        frame.extend((total as u32).to_be_bytes());
        frame.extend(header_size.to_be_bytes());
        frame.extend(id.to_be_bytes());
        frame.extend(self.last_two());
        frame.extend(self.bytes(total - 16));
        frame
    }

    /// Up to `most` frames, each with its place.
    fn frames(&mut self, most: usize) -> (Vec<u8>, Vec<usize>) {
        let mut stream = Vec::new();
        let mut places = Vec::new();
        for _ in 0..self.below(most + 1) {
            let total = self.total();
            places.push(stream.len());
            stream.extend(self.frame(total));
        }
        (stream, places)
    }

    /// Sizes of pieces, odd ones mostly.
    fn pieces(&mut self) -> Vec<usize> {
        match self.below(5) {
            0 => vec![self.one_of(&[1, 3, 15, 17, 4_095])],
            1 => vec![4_096],
            _ => (0..1 + self.below(7))
                .map(|_| self.one_of(&[1, 3, 5, 7, 13, 15, 16, 17, 31, 101, 1_023, 4_095]))
                .collect(),
        }
    }

    fn case(&mut self, what: &'static str, stream: Vec<u8>) -> Case {
        let pieces = if stream.len() > 20_000 { vec![4_095, 3_001, 17, 4_096] } else { self.pieces() };
        Case { what, stream, pieces }
    }
}

const EXAMPLE: [u8; 20] = [0x09, 0x30, 1, 3, 0, 0, 0, 0x13, 0, 0, 0, 0, 0, 5, 0, 0, 0x08, 0xAC, 0x02, 0x09];

/// One or two bytes of the headers, or any byte of the stream, are others.
fn damage(random: &mut Random, stream: &mut [u8], places: &[usize]) {
    for _ in 0..1 + random.below(2) {
        let at =
            if random.below(5) == 0 { random.below(stream.len()) } else { random.one_of(places) + random.below(16) };
        stream[at] = random.one_of(&[0, 1, 2, 4, 5, 0x09, 0x10, 0x30, 0xFF, stream[at] ^ 1]);
    }
}

pub fn all(seed: u64) -> Vec<Case> {
    let mut random = Random(seed);
    let mut cases = Vec::new();

    for count in 0..=EXAMPLE.len() {
        cases.push(random.case("document 01's example, cut", EXAMPLE[..count].to_vec()));
    }
    for _ in 0..2_000 {
        let (stream, _) = random.frames(8);
        cases.push(random.case("good", stream));
    }
    for _ in 0..3_000 {
        let (mut stream, places) = random.frames(6);
        if !stream.is_empty() {
            damage(&mut random, &mut stream, &places);
        }
        cases.push(random.case("damaged", stream));
    }
    // a gateway's frames, one for each version
    let gateway: Vec<u8> = (0..=255)
        .flat_map(|version| {
            let mut frame = random.frame(16);
            frame[14] = version;
            frame
        })
        .collect();
    cases.push(random.case("every version", gateway));
    // every value of every byte of the second of three headers
    for at in 0..16 {
        for value in 0..=255 {
            let mut stream: Vec<u8> = (0..3).flat_map(|_| random.frame(16)).collect();
            stream[16 + at] = value;
            cases.push(random.case("a header byte changed", stream));
        }
    }
    // every place of streams of small frames
    for totals in [&[16, 16, 16][..], &[23, 16, 40, 19], &[17, 100, 31], &[300, 16, 16, 16, 77]] {
        let stream: Vec<u8> = totals.iter().flat_map(|total| random.frame(*total)).collect();
        for count in 0..=stream.len() {
            cases.push(random.case("cut at every place", stream[..count].to_vec()));
        }
    }
    for _ in 0..1_500 {
        let (stream, _) = random.frames(5);
        let count = random.below(stream.len() + 1);
        cases.push(random.case("cut somewhere", stream[..count].to_vec()));
    }
    for _ in 0..200 {
        let count = random.below(64);
        let stream = random.bytes(count);
        cases.push(random.case("any bytes", stream));
    }
    // more lines than the program's text has room for, and as many frames as a piece can hold
    for count in [910, 911, 4_096, 9_000] {
        let stream: Vec<u8> = (0..count).flat_map(|_| random.frame(16)).collect();
        cases.push(random.case("many small frames", stream));
    }
    cases
}

/// How many streams of each sort there are.
pub fn summary(cases: &[Case]) -> String {
    let mut counts = BTreeMap::new();
    for case in cases {
        *counts.entry(case.what).or_insert(0) += 1;
    }
    counts.iter().map(|(what, count)| format!("{count} {what}")).collect::<Vec<_>>().join("; ")
}
