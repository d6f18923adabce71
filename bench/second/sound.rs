//! Sound and intervals: `pcm-ltc`, `wav-ltc` and `ltc-pcm`.
use crate::intervals::{File, MOST_TICKS, header, spell};
use crate::path::{self, Grid};
use crate::run::{End, Run};

#[derive(Clone, Copy, PartialEq, Eq, Debug)]
pub enum Threshold {
    Fixed,
    Follow,
    Deep,
}

#[derive(Clone, Copy, Debug)]
pub struct Slicing {
    pub system: u64,
    pub rate: u64,
    pub least: u64,
    pub fineness: u64,
    pub threshold: Threshold,
    pub smooth: usize,
    pub is_live: bool,
    /// Whether the best path is written in place of crossings.
    pub is_path: bool,
}

/// The threshold at each sample, by their sizes so far.
struct Level {
    slicing: Slicing,
    peak: u64,
    sum: u64,
}

impl Level {
    fn at(&mut self, v: u64) -> i64 {
        let least = self.slicing.least * self.slicing.smooth as u64;
        if v > self.peak {
            self.peak += (v - self.peak).div_ceil(4);
        } else {
            self.peak -= self.peak.div_ceil(1024);
        }
        self.sum = self.sum - self.sum / 1024 + v;
        let above = self.peak.saturating_sub(self.sum / 1024);
        (match self.slicing.threshold {
            Threshold::Fixed => least,
            Threshold::Follow => least.max(above / 2),
            Threshold::Deep => least.max(above / 4),
        }) as i64
    }
}

/// The intervals of samples. `from_start` says that the first one begins at tick 0, and not at the first crossing.
fn intervals(s: &Slicing, samples: &[i64], from_start: bool) -> Vec<u64> {
    let fineness = s.fineness as i64;
    let piece = match s.is_live {
        true => (s.rate * s.fineness / (4 * s.system)).clamp(1, MOST_TICKS),
        false => MOST_TICKS,
    };
    let mut level = Level { slicing: *s, peak: 0, sum: 0 };
    let (mut intervals, mut side, mut before) = (Vec::new(), 0i64, 0i64);
    let mut last = from_start.then_some(0u64);
    for place in 0..samples.len() {
        let now: i64 = samples[(place + 1).saturating_sub(s.smooth)..=place].iter().sum();
        let threshold = level.at(now.unsigned_abs());
        let sign = if now >= threshold { 1 } else { -((now <= -threshold) as i64) };
        if sign == -side && side != 0 {
            let is_there = |k: i64| sign * (fineness * before + (now - before) * k) >= fineness * threshold;
            let k = (1..=fineness).find(|k| is_there(*k)).expect("the sample itself is there");
            let moment = ((place as i64 - 1) * fineness + k) as u64;
            if let Some(from) = last {
                split(moment - from, piece, &mut intervals);
            }
            last = Some(moment);
        }
        if sign != 0 {
            side = sign;
        }
        if let (true, Some(from)) = (s.is_live, last) {
            let passed = (place as u64 * s.fineness).saturating_sub(from) / piece;
            intervals.extend((0..passed).map(|_| piece));
            last = Some(from + passed * piece);
        }
        before = now;
    }
    intervals
}

/// A distance, in pieces of the greatest length and the rest.
fn split(distance: u64, piece: u64, intervals: &mut Vec<u64>) {
    let whole = (distance - 1) / piece;
    intervals.extend((0..whole).map(|_| piece));
    intervals.push(distance - whole * piece);
}

fn file(s: &Slicing, samples: &[i64], from_start: bool, is_ended: bool) -> Vec<u8> {
    let mut bytes = header(1, s.system, s.rate * s.fineness);
    let grid: Option<Grid> = s.is_path.then(|| path::grid(s.system, s.rate)).flatten();
    let intervals = match grid {
        Some(grid) => path::intervals(s, grid, samples, is_ended),
        None => intervals(s, samples, from_start),
    };
    for ticks in intervals {
        spell(1, ticks, &mut bytes);
    }
    bytes
}

/// `pcm-ltc` of raw samples.
pub fn slice(s: &Slicing, bytes: &[u8]) -> Run {
    let samples: Vec<i64> = bytes.chunks_exact(2).map(|b| i16::from_le_bytes([b[0], b[1]]) as i64).collect();
    let end = match bytes.len() % 2 {
        0 => End::Done,
        _ => End::at_byte("truncated", bytes.len() as u64),
    };
    Run { output: file(s, &samples, false, end == End::Done), end }
}

fn little(bytes: &[u8]) -> u64 {
    bytes.iter().rev().fold(0, |n, b| 256 * n + *b as u64)
}

#[derive(Clone, Copy)]
struct Format {
    rate: u64,
    block: usize,
    width: usize,
}

/// What comes before the samples: the format, and how many bytes of samples are announced, if that is known.
struct Front {
    format: Format,
    data: usize,
    size: Option<u64>,
}

/// The format of a chunk `fmt ` that begins at a place, with its first 26 bytes or all.
fn format(place: usize, body: &[u8], track: usize, least_rate: u64) -> Result<Format, End> {
    let field = |at: usize| End::at_byte("format", (place + 8 + at) as u64);
    let two = |at: usize| little(&body[at..at + 2]);
    let is_plain = two(0) == 1 || two(0) == 65_534 && body.len() >= 26 && two(24) == 1;
    let (tracks, rate, block, bits) = (two(2), little(&body[4..8]), two(12), two(14));
    if !is_plain {
        return Err(field(0));
    }
    if tracks == 0 || tracks > 64 {
        return Err(field(2));
    }
    if rate < least_rate || rate > 6_250_000 {
        return Err(field(4));
    }
    if ![8, 16, 24, 32].contains(&bits) {
        return Err(if 8 * block != tracks * bits { field(12) } else { field(14) });
    }
    if 8 * block != tracks * bits {
        return Err(field(12));
    }
    if track as u64 > tracks {
        return Err(End::at_byte("track", (place + 10) as u64));
    }
    Ok(Format { rate, block: block as usize, width: (bits / 8) as usize })
}

/// Reads a sound file up to its samples.
fn front(bytes: &[u8], track: usize, least_rate: u64) -> Result<Front, End> {
    let truncated = End::at_byte("truncated", bytes.len() as u64);
    if bytes.len() < 4 {
        return Err(truncated);
    }
    let is_riff = &bytes[..4] == b"RIFF";
    if !is_riff && &bytes[..4] != b"RF64" && &bytes[..4] != b"BW64" {
        return Err(End::at_byte("riff", 0));
    }
    if bytes.len() < 12 {
        return Err(truncated);
    }
    if &bytes[8..12] != b"WAVE" {
        return Err(End::at_byte("wave", 8));
    }
    let (mut at, mut known, mut long) = (12, None, None);
    loop {
        if bytes.len() < at + 8 {
            return Err(truncated);
        }
        let (letters, size) = (&bytes[at..at + 4], little(&bytes[at + 4..at + 8]));
        let rest = &bytes[at + 8..];
        match letters {
            b"fmt " => {
                if size < 16 {
                    return Err(End::at_byte("format", at as u64));
                }
                let looked = size.min(26) as usize;
                if rest.len() < looked {
                    return Err(truncated);
                }
                known = Some(format(at, &rest[..looked], track, least_rate)?);
            }
            b"ds64" if !is_riff => {
                if size < 16 {
                    return Err(End::at_byte("ds64", at as u64));
                }
                if rest.len() < 16 {
                    return Err(truncated);
                }
                long = Some(little(&rest[8..16]));
            }
            b"data" => {
                let size = data_size(bytes, at, size, is_riff, long)?;
                let Some(format) = known else { return Err(End::at_byte("format", at as u64)) };
                return Ok(Front { format, data: at + 8, size });
            }
            _ => {}
        }
        let behind = at as u64 + 8 + size + size % 2;
        if behind > bytes.len() as u64 {
            return Err(truncated);
        }
        at = behind as usize;
    }
}

/// How many bytes of samples are announced, or nothing if the writer did not know.
fn data_size(bytes: &[u8], at: usize, size: u64, is_riff: bool, long: Option<u64>) -> Result<Option<u64>, End> {
    if is_riff {
        let all = little(&bytes[4..8]);
        let is_open = match size {
            4_294_967_295 | 2_147_418_112..=2_147_483_648 => true,
            0 => all <= at as u64,
            _ => false,
        };
        return Ok((!is_open).then_some(size));
    }
    match (size, long) {
        (4_294_967_295, None) => Err(End::at_byte("ds64", at as u64)),
        (4_294_967_295, Some(0)) => Ok(None),
        (4_294_967_295, long) => Ok(long),
        (size, _) => Ok(Some(size)),
    }
}

/// The upper 16 bits of a sample's value.
fn sample(bytes: &[u8]) -> i64 {
    match bytes {
        [b] => 256 * (*b as i64 - 128),
        [.., low, high] => i16::from_le_bytes([*low, *high]) as i64,
        [] => 0,
    }
}

/// `wav-ltc` of a sound file; the slicing's rate is the file's.
pub fn slice_track(slicing: &Slicing, track: usize, bytes: &[u8]) -> Run {
    let least_rate = if slicing.is_path { 140 * slicing.system } else { 1 };
    let front = match front(bytes, track, least_rate) {
        Ok(front) => front,
        Err(end) => return Run { output: Vec::new(), end },
    };
    let Format { rate, block, width } = front.format;
    let there = &bytes[front.data..];
    let sound = match front.size {
        Some(size) => &there[..there.len().min(size as usize)],
        None => there,
    };
    let is_short = match front.size {
        Some(size) => (there.len() as u64) < size,
        None => there.len() % block != 0,
    };
    let first = (track - 1) * width;
    let samples: Vec<i64> = sound.chunks_exact(block).map(|b| sample(&b[first..first + width])).collect();
    let slicing = Slicing { rate, fineness: 16, ..*slicing };
    let end = match is_short {
        true => End::at_byte("truncated", bytes.len() as u64),
        false => End::Done,
    };
    Run { output: file(&slicing, &samples, true, end == End::Done), end }
}

/// The sound of `ltc-pcm`.
pub fn make(level: i16, recording: &File) -> Vec<u8> {
    let mut bytes = Vec::new();
    if recording.header.is_none() {
        return bytes;
    }
    let mut side = -level;
    bytes.extend(side.to_le_bytes());
    for ticks in &recording.intervals {
        side = -side;
        for _ in 0..*ticks {
            bytes.extend(side.to_le_bytes());
        }
    }
    if recording.end == End::Done {
        bytes.extend((-side).to_le_bytes());
    }
    bytes
}
