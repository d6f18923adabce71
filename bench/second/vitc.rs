//! The line file, `vitc-read` and `vitc-make`.
use crate::fields::VITC;
use crate::labels::{Count, Label};
use crate::run::{End, Run};

/// What a line says, or why it says no word.
type Said = Result<String, String>;

fn two(bytes: &[u8]) -> u64 {
    256 * bytes[0] as u64 + bytes[1] as u64
}

/// The fault of the header, or the system and the length of a line.
fn header(bytes: &[u8]) -> Result<(u64, u64), End> {
    for (place, byte) in bytes.iter().enumerate().take(8) {
        let name = match place {
            0..=3 if *byte != b"VITL"[place] => "magic",
            4 if *byte != 1 => "version",
            5 if ![25, 30].contains(byte) => "system",
            6 | 7 if *byte != 0 => "reserved",
            _ => continue,
        };
        return Err(End::at_byte(name, place as u64));
    }
    if bytes.len() < 12 {
        return Err(End::at_byte("truncated", bytes.len() as u64));
    }
    let length = 65_536 * two(&bytes[8..]) + two(&bytes[10..]);
    if !(460..=65_535).contains(&length) {
        return Err(End::at_byte("line-length", 8));
    }
    Ok((bytes[5] as u64, length))
}

/// The lines of the field at a place, each as its runs, and the place behind it.
fn field(bytes: &[u8], mut at: usize) -> Result<(Vec<Vec<u64>>, usize), End> {
    let truncated = || End::at_byte("truncated", bytes.len() as u64);
    let lines = bytes[at];
    if lines > 20 {
        return Err(End::at_byte("line-count", at as u64));
    }
    at += 1;
    let mut field = Vec::new();
    for _ in 0..lines {
        let runs = *bytes.get(at).ok_or_else(truncated)?;
        if runs % 2 == 0 || runs > 89 {
            return Err(End::at_byte("run-count", at as u64));
        }
        at += 1;
        let mut line = Vec::new();
        for _ in 0..runs {
            if bytes.len() < at + 2 {
                return Err(truncated());
            }
            let ticks = two(&bytes[at..]);
            if ticks == 0 {
                return Err(End::at_byte("run", at as u64));
            }
            line.push(ticks);
            at += 2;
        }
        field.push(line);
    }
    Ok((field, at))
}

/// The 90 bits of a line of runs.
fn bits_of(runs: &[u64], length: u64) -> Result<[u8; 90], String> {
    let (mut bits, mut at) = ([0u8; 90], 0usize);
    for (place, ticks) in runs.iter().enumerate() {
        let cells = (2 * 115 * ticks + length) / (2 * length);
        let is_whole = cells >= 1 && 4 * (115 * ticks).abs_diff(cells * length) <= length;
        if !is_whole {
            return Err(format!("run {place}"));
        }
        if at as u64 + cells > 90 {
            return Err(format!("too-long {place}"));
        }
        for _ in 0..cells {
            bits[at] = (place % 2 == 0) as u8;
            at += 1;
        }
    }
    Ok(bits)
}

/// What a line says.
fn word(system: u64, runs: &[u64], length: u64) -> Said {
    let bits = bits_of(runs, length)?;
    if let Some(pair) = (0..9).find(|j| bits[10 * j] != 1 || bits[10 * j + 1] != 0) {
        return Err(format!("sync-pair {pair}"));
    }
    let parity = |r: usize| (0..90).filter(|i| i % 8 == r).fold(0, |sum, i| sum ^ bits[i]);
    if let Some(r) = (0..8).find(|r| parity(*r) != 0) {
        return Err(format!("check {r}"));
    }
    let label = VITC.label(system, &bits)?;
    let user = VITC.user(&bits);
    let (groups, mark) = if system == 25 { ([35, 74, 55], 75) } else { ([55, 74, 75], 35) };
    let flags: String = [14, 15, groups[0], groups[1], groups[2]].iter().map(|p| char::from(b'0' + bits[*p])).collect();
    Ok(format!("{} user {user:08x} flags {flags} mark {}", label.text(), bits[mark]))
}

/// What the lines of a field say together: the line of the report behind its number, and its kind.
fn answer(said: &[Said]) -> (String, usize) {
    let words: Vec<&String> = said.iter().filter_map(|it| it.as_ref().ok()).collect();
    match words.first() {
        None => {
            let reason = said.first().map_or("no-line".to_string(), |it| it.clone().unwrap_err());
            (format!("nothing {reason}"), 2)
        }
        Some(first) => match words.iter().find(|other| other != &first) {
            Some(other) => (format!("conflict {first} and {other}"), 1),
            None => (format!("word {first}"), 0),
        },
    }
}

pub fn read(bytes: &[u8]) -> Run {
    let (system, length) = match header(bytes) {
        Ok(header) => header,
        Err(end) => return Run::text(String::new(), end),
    };
    let (mut text, mut at, mut fields, mut counts) = (String::new(), 12, 0, [0; 3]);
    while at < bytes.len() {
        let (lines, behind) = match field(bytes, at) {
            Ok(field) => field,
            Err(end) => return Run::text(text, end),
        };
        let said: Vec<Said> = lines.iter().map(|runs| word(system, runs, length)).collect();
        let (line, kind) = answer(&said);
        text += &format!("field {fields} {line}\n");
        (at, fields) = (behind, fields + 1);
        counts[kind] += 1;
    }
    let [agreed, conflict, nothing] = counts;
    text += &format!("end fields {fields} agreed {agreed} conflict {conflict} nothing {nothing}\n");
    Run::text(text, End::Done)
}

/// The 90 bits of a line with this label and field mark, user bits 0.
pub fn line_bits(label: &Label, mark: u8, user: u32) -> [u8; 90] {
    let mut bits = [0u8; 90];
    for j in 0..9 {
        bits[10 * j] = 1;
    }
    VITC.put(label, user, &mut bits);
    bits[if label.count == Count::Of25 { 75 } else { 35 }] = mark;
    for r in 0..8 {
        let sum = (0..82).filter(|i| i % 8 == r).fold(0, |sum, i| sum ^ bits[i]);
        let place = (82..90).find(|i| i % 8 == r).expect("eight places have each residue once");
        bits[place] = sum;
    }
    bits
}

/// The runs of a line's bits, each cell from where it begins to where the next one does.
pub fn runs_of(bits: &[u8; 90], length: u64) -> Vec<u64> {
    let last = (0..90).rev().find(|i| bits[*i] == 1).expect("a line has a high bit");
    let begin = |cell: usize| cell as u64 * length / 115;
    let (mut runs, mut from) = (Vec::new(), 0);
    for cell in 1..=last + 1 {
        if cell == last + 1 || bits[cell] != bits[cell - 1] {
            runs.push(begin(cell) - begin(from));
            from = cell;
        }
    }
    runs
}

/// The header of a line file.
pub fn file_header(system: u64, length: u64) -> Vec<u8> {
    let mut bytes = b"VITL".to_vec();
    bytes.extend([1, system as u8, 0, 0]);
    bytes.extend((length as u32).to_be_bytes());
    bytes
}

pub fn spell_line(runs: &[u64], bytes: &mut Vec<u8>) {
    bytes.push(runs.len() as u8);
    for ticks in runs {
        bytes.extend((*ticks as u16).to_be_bytes());
    }
}

/// The line file of `vitc-make`.
pub fn make(label: &Label, frames: u64, length: u64) -> Vec<u8> {
    let mut bytes = file_header(label.count.rate(), length);
    for frame in 0..frames {
        for mark in 0..2 {
            let runs = runs_of(&line_bits(&label.step(frame as i64), mark, 0), length);
            bytes.push(2);
            spell_line(&runs, &mut bytes);
            spell_line(&runs, &mut bytes);
        }
    }
    bytes
}
