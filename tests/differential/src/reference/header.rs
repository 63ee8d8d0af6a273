//! "The 16 bytes", of which the last two are source document 002's: "byte 15 the protocol version and only byte 16 reserved"; and
//! the ceiling for their total.

/// The length of a fixed header.
pub const SIZE: usize = 16;

/// The largest total under any ceiling.
pub const LARGEST: usize = 65_536;

/// "The header judge is now told a ceiling, from 16 to 65,536"
pub const LOWEST_CEILING: u32 = SIZE as u32;
pub const HIGHEST_CEILING: u32 = LARGEST as u32;

/// Whether a ceiling is none of 41's: "ceiling outside the range, before all others".
pub fn in_range(ceiling: u32) -> bool {
    (LOWEST_CEILING..=HIGHEST_CEILING).contains(&ceiling)
}

pub const UNARY: u8 = 0;
pub const STREAM: u8 = 1;

/// A fixed header, whether good or not. "Numbers are big-endian".
pub struct FixedHeader {
    pub magic: u16,
    pub data_type: u8,
    pub stream_type: u8,
    pub total: usize,
    pub header_size: usize,
    pub id: u32,
    pub version: u8,
}

impl FixedHeader {
    pub fn of(bytes: &[u8; SIZE]) -> FixedHeader {
        let b = |from: usize| u16::from_be_bytes([bytes[from], bytes[from + 1]]);
        let wide = |from: usize| u32::from(b(from)) << 16 | u32::from(b(from + 2));
        FixedHeader {
            magic: b(0),
            data_type: bytes[2],
            stream_type: bytes[3],
            total: wide(4) as usize,
            header_size: usize::from(b(8)),
            id: wide(10),
            version: bytes[14], // "Readers .. ignore byte 16."
        }
    }

    /// "3-8 | header judge | magic; data type; stream type; total; header size; reserved" without the last: "Readers accept all
    /// versions". "1, 6 and 19 speak of the ceiling". 0 for a good header.
    pub fn error(&self, ceiling: u32) -> u32 {
        if self.magic != 0x0930 {
            3
        } else if self.data_type != UNARY && self.data_type != STREAM {
            4
        } else if self.data_type == STREAM && !(1..=4).contains(&self.stream_type) {
            5
        } else if !(SIZE..=ceiling as usize).contains(&self.total) {
            6
        } else if self.header_size > self.largest_header_size() {
            7
        } else {
            0
        }
    }

    /// "unary: at most total less 16; stream: 0"
    fn largest_header_size(&self) -> usize {
        if self.data_type == UNARY {
            self.total - SIZE
        } else {
            0
        }
    }
}

/// The judge of a fixed header. "Order: judge 9, then 3 to 8", where "8 is no longer given" and 41 is "before all others".
pub fn judge(bytes: &[u8], ceiling: u32) -> u32 {
    if !in_range(ceiling) {
        return 41;
    }
    match bytes.try_into() {
        Ok(header) => FixedHeader::of(header).error(ceiling),
        Err(_) => 9,
    }
}

/// The fixed header at the start of bytes that hold one.
pub fn first(bytes: &[u8]) -> FixedHeader {
    FixedHeader::of(bytes[..SIZE].try_into().unwrap())
}
