//! What the listing of a stream has to be, from documents 01 and 02 only and on the whole stream at once.

const KINDS: [&str; 4] = ["init", "data", "feedback", "close"];

fn big_endian(bytes: &[u8]) -> u64 {
    bytes.iter().fold(0, |number, byte| number << 8 | u64::from(*byte))
}

/// Kind, id and total of 16 bytes, or the number of the first rule that they break. The last two, the protocol version and the
/// reserved byte, break none.
fn header(h: &[u8]) -> Result<(&'static str, u64, usize), u32> {
    let (magic, data_type, stream_type) = (big_endian(&h[0..2]), h[2], usize::from(h[3]));
    let (total, header_size, id) = (big_endian(&h[4..8]), big_endian(&h[8..10]), big_endian(&h[10..14]));
    let kind = match data_type {
        0 => Some("unary"),
        _ => stream_type.checked_sub(1).and_then(|index| KINDS.get(index).copied()),
    };
    let most = if data_type == 0 { total.saturating_sub(16) } else { 0 };
    let broken = [
        (3, magic != 0x0930),
        (4, data_type > 1),
        (5, kind.is_none()),
        (6, !(16..=65_536).contains(&total)),
        (7, header_size > most),
    ];
    match broken.iter().find(|(_, broken)| *broken) {
        Some((code, _)) => Err(*code),
        None => Ok((kind.unwrap(), id, total as usize)),
    }
}

pub fn listing(stream: &[u8]) -> Vec<u8> {
    let mut lines = String::new();
    let mut rest = stream;
    let mut number = 0;
    let end = loop {
        if rest.is_empty() {
            break "end clean".to_string();
        }
        let Some(first) = rest.get(..16) else {
            break format!("end short {}", rest.len());
        };
        match header(first) {
            Err(code) => break format!("end refused {code}"),
            Ok((_, _, total)) if total > rest.len() => break format!("end short {}", rest.len()),
            Ok((kind, id, total)) => {
                number += 1;
                lines += &format!("{number} {kind} {id} {total}\n");
                rest = &rest[total..];
            }
        }
    };
    (lines + &end + "\n").into_bytes()
}
