//! The interval file, in both versions.
use crate::run::End;

pub const MOST_TICKS: u64 = 16_777_215;
pub const MOST_RATE: u64 = 100_000_000;

/// What is in an interval file: the header if it is whole and good, the whole good intervals, and
/// how the reading ends.
pub struct File {
    pub header: Option<Header>,
    pub intervals: Vec<u64>,
    pub end: End,
}

#[derive(Clone, Copy)]
pub struct Header {
    pub system: u64,
    pub rate: u64,
}

fn number(bytes: &[u8]) -> u64 {
    bytes.iter().fold(0, |n, b| 256 * n + *b as u64)
}

/// The first fault of the header, by the bytes that are there.
fn header_fault(bytes: &[u8]) -> Option<End> {
    for (place, byte) in bytes.iter().enumerate().take(8) {
        let name = match place {
            0..=3 if *byte != b"LTCI"[place] => "magic",
            4 if *byte != 1 && *byte != 2 => "version",
            5 if ![24, 25, 30].contains(byte) => "system",
            6 | 7 if *byte != 0 => "reserved",
            _ => continue,
        };
        return Some(End::at_byte(name, place as u64));
    }
    if bytes.len() < 12 {
        return Some(End::at_byte("truncated", bytes.len() as u64));
    }
    let rate = number(&bytes[8..12]);
    (rate == 0 || rate > MOST_RATE).then(|| End::at_byte("tick-rate", 8))
}

pub fn read(bytes: &[u8]) -> File {
    if let Some(end) = header_fault(bytes) {
        return File { header: None, intervals: Vec::new(), end };
    }
    let header = Header { system: bytes[5] as u64, rate: number(&bytes[8..12]) };
    let (mut at, mut intervals) = (12, Vec::new());
    let end = loop {
        let rest = &bytes[at..];
        let is_long = bytes[4] == 2 && rest.len() >= 2 && rest[..2] == [0, 0];
        let width = match bytes[4] {
            1 => 4,
            _ if is_long => 6,
            _ => 2,
        };
        if rest.is_empty() {
            break End::Done;
        }
        if rest.len() < width {
            break End::at_byte("truncated", bytes.len() as u64);
        }
        let ticks = number(&rest[..width]);
        let least = if is_long { 65_536 } else { 1 };
        if ticks < least || ticks > MOST_TICKS {
            break End::at_byte("interval", at as u64);
        }
        intervals.push(ticks);
        at += width;
    };
    File { header: Some(header), intervals, end }
}

/// The header of a file.
pub fn header(version: u8, system: u64, rate: u64) -> Vec<u8> {
    let mut bytes = b"LTCI".to_vec();
    bytes.extend([version, system as u8, 0, 0]);
    bytes.extend((rate as u32).to_be_bytes());
    bytes
}

/// An interval's spelling.
pub fn spell(version: u8, ticks: u64, bytes: &mut Vec<u8>) {
    let four = (ticks as u32).to_be_bytes();
    match version {
        1 => bytes.extend(four),
        _ if ticks < 65_536 => bytes.extend(&four[2..]),
        _ => {
            bytes.extend([0, 0]);
            bytes.extend(four);
        }
    }
}

/// What `ltc-convert` writes of a file.
pub fn convert(version: u8, bytes: &[u8]) -> (Vec<u8>, End) {
    let file = read(bytes);
    let mut output = Vec::new();
    if let Some(head) = file.header {
        output = header(version, head.system, head.rate);
    }
    for ticks in file.intervals {
        spell(version, ticks, &mut output);
    }
    (output, file.end)
}
