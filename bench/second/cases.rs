//! Cases: the words of a run and its input, made from a number.
use crate::draws::Draws;
use crate::frames::{played, word_bits};
use crate::intervals::{MOST_TICKS, header, spell};
use crate::labels::{COUNTS, Count, Label, Way};
use crate::noisy;
use crate::pictures;
use crate::vitc::{file_header, line_bits, runs_of, spell_line};
use crate::words::is_page;

pub struct Case {
    pub words: Vec<String>,
    pub input: Vec<u8>,
}

const COMMANDS: [&str; 19] = [
    "ltc-read", "ltc-worn", "ltc-rough", "ltc-fly", "ltc-spans", "ltc-mtc", "ltc-jam", "ltc-chase", "ltc-make",
    "ltc-convert", "ltc-load", "ltc-pcm", "pcm-ltc", "wav-ltc", "mtc-read", "vitc-read", "vitc-make", "chase", "label",
];

/// The kinds that have numbers of their own, one in twenty each.
pub const KINDS: [(u64, &str); 3] = [(9, "path"), (14, "luma-vitc"), (19, "labels")];

/// The kind of the case with a number, if it has one of those.
pub fn kind(number: u64) -> Option<&'static str> {
    KINDS.iter().find(|kind| kind.0 == number % 20).map(|kind| kind.1)
}

/// The case with a number.
pub fn case(seed: u64, number: u64) -> Case {
    let d = &mut Draws::of(seed, number);
    // (by its number, so that each other case is the one that its seed and number were before)
    let kind = kind(number).unwrap_or("");
    if kind == "path" || kind == "luma-vitc" {
        let mut case = if kind == "path" { noisy::case(d) } else { pictures::case(d) };
        if kind == "luma-vitc" && d.one_in(25) {
            spoil_words(&mut case.words, d);
        }
        spoil(&mut case.input, d);
        return case;
    }
    let drawn = if d.one_in(40) { "number" } else { d.pick(&COMMANDS) };
    let command = if kind == "labels" { kind } else { drawn };
    let mut words = vec![command.to_string()];
    words.extend(values(command, d));
    let mut input = match command {
        "ltc-pcm" => short_recording(d),
        "pcm-ltc" => raw(d),
        "wav-ltc" => wave(d),
        "mtc-read" => midi(d),
        "vitc-read" => line_file(d),
        "chase" => script(&words[1], d),
        "labels" if words.iter().any(|word| ["column", "csv", "length"].contains(&&word[..])) => {
            text_of_columns(&words[1], d)
        }
        "labels" => text_of_labels(&words[1], d),
        "ltc-make" | "ltc-load" | "vitc-make" | "label" | "number" => Vec::new(),
        _ => recording(d),
    };
    if d.one_in(25) {
        spoil_words(&mut words, d);
    }
    while is_page(&words) {
        words.push("help".into());
    }
    spoil(&mut input, d);
    Case { words, input }
}

/// Changes, takes or cuts some bytes, in one case of eight.
fn spoil(input: &mut Vec<u8>, d: &mut Draws) {
    if input.is_empty() || !d.one_in(8) {
        return;
    }
    for _ in 0..d.from_to(1, 3) {
        let place = match d.one_in(3) {
            true => d.below(input.len().min(40) as u64),
            false => d.below(input.len() as u64),
        } as usize;
        match d.below(4) {
            0 => input.truncate(place),
            1 => drop(input.remove(place)),
            2 => input[place] = d.next() as u8,
            _ => input[place] ^= 1 << d.below(8),
        }
        if input.is_empty() {
            return;
        }
    }
}

/// Changes the words so that they are often wrong.
fn spoil_words(words: &mut Vec<String>, d: &mut Draws) {
    let place = d.below(words.len() as u64) as usize;
    let odd = ["", "-", "--help", "0", "00", "live", "worn", "firm", "consecutive", "counted", "deep", "99999999999999999999", "1e3", "25 ", "help"];
    match d.below(4) {
        0 => drop(words.remove(place)),
        1 => words.insert(place, d.pick(&odd).to_string()),
        2 => words[place] = d.pick(&odd).to_string(),
        _ => words.push(d.pick(&odd).to_string()),
    }
}

fn count(d: &mut Draws) -> Count {
    d.pick(&COUNTS)
}

/// A label, often near midnight or a minute in which labels are dropped.
pub fn label(count: Count, d: &mut Draws) -> Label {
    let day = count.day();
    match d.below(4) {
        0 => Label::at(count, d.below(40)),
        1 => Label::at(count, day - 1 - d.below(40)),
        2 => minute(count, d),
        _ => Label::at(count, d.below(day)),
    }
}

/// A label in the first frames of a minute, of a tenth one as often as of another.
fn minute(count: Count, d: &mut Draws) -> Label {
    let tenth = 10 * d.below(6);
    let minutes = if d.one_in(2) { tenth } else { tenth + d.from_to(1, 9) };
    let first = Label { count, hours: d.below(24), minutes, seconds: 0, frames: 0 };
    let frames = if first.is_dropped() { 2 + d.below(3) } else { d.below(4) };
    Label { frames, ..first }
}

fn way(d: &mut Draws) -> Way {
    d.pick(&[Way::Forward, Way::Backward])
}

/// The words behind a command, nearly always good ones.
fn values(command: &str, d: &mut Draws) -> Vec<String> {
    let mut words: Vec<String> = Vec::new();
    let count = if command == "vitc-make" { d.pick(&COUNTS[1..]) } else { count(d) };
    let tolerance = d.pick(&["", "", "worn", "rough"]);
    let limit = d.pick(&[0, 1, 2, 3, 10, 255]).to_string();
    match command {
        "ltc-rough" if d.one_in(2) => words.push(d.pick(&["firm", "consecutive", "counted"]).into()),
        "ltc-fly" | "ltc-spans" | "ltc-mtc" => words = vec![limit, tolerance.into()],
        "ltc-jam" => {
            let cell = 16 + d.of_any_size(10);
            words = vec![limit, cell.to_string(), (1 + d.of_any_size(26)).to_string(), tolerance.into()];
        }
        "ltc-chase" => {
            let bound = d.pick(&[0, 3, 8, 24, 25, 40, 1000]).to_string();
            words = vec![count.name().into(), label(count, d).text(), limit, d.of_any_size(64).to_string(), bound];
            words.push(tolerance.into());
        }
        "ltc-make" => {
            let (from, to) = (16 + d.of_any_size(12), 16 + d.of_any_size(12));
            words = vec![count.name().into(), way(d).name().into(), label(count, d).text()];
            words.extend([d.from_to(1, 6), from, 1 + d.of_any_size(26)].map(|n| n.to_string()));
            if d.one_in(2) {
                words.extend([to, d.below(from.min(to) / 8 + 2)].map(|n| n.to_string()));
            }
        }
        "ltc-convert" => words.push(d.pick(&["1", "2"]).into()),
        "ltc-load" => words = vec![d.of_any_size(64).to_string(), d.from_to(1, 20).to_string()],
        "ltc-pcm" => words.push((1 + d.below(32_767)).to_string()),
        "pcm-ltc" => words = slicing(d),
        "wav-ltc" => words = of_a_track(d),
        "vitc-make" => {
            words = vec![count.name().into(), label(count, d).text(), d.from_to(1, 4).to_string()];
            let most = d.pick(&[470, 2_000, 65_535]);
            words.push(d.from_to(460, most).to_string());
        }
        "chase" => words = vec![count.name().into(), label(count, d).text()],
        "label" => words = vec![count.name().into(), d.below(count.day() + 3).to_string()],
        "number" => words = vec![count.name().into(), label(count, d).text()],
        "labels" => words = asked_of_labels(count, d),
        _ => {}
    }
    words.retain(|word| !word.is_empty());
    if words.last().is_some_and(|word| word == "worn" || word == "rough") && d.one_in(2) {
        words.push(d.pick(&["firm", "consecutive", "counted"]).into());
    }
    words
}

pub fn system(d: &mut Draws) -> &'static str {
    d.pick(&["24", "25", "30"])
}

fn slicing(d: &mut Draws) -> Vec<String> {
    let mut words = vec![system(d).to_string(), d.pick(&[8_000, 44_100, 48_000, 3_000_000, 200]).to_string()];
    words.push(d.pick(&[1, 50, 500, 3_000, 20_000]).to_string());
    if d.one_in(2) {
        words.push(d.pick(&[1, 2, 7, 16, 33, 64]).to_string());
        if d.one_in(2) {
            words.push(d.pick(&["follow", "deep"]).into());
            if d.one_in(2) {
                words.push(d.from_to(1, 16).to_string());
            }
        }
    }
    last_word(&mut words, d);
    words
}

/// `live` one time in three, and now and then a word that may not come there.
fn last_word(words: &mut Vec<String>, d: &mut Draws) {
    match d.below(30) {
        0..=9 => words.push("live".into()),
        10 => words.push(d.pick(&["Live", "deep", "2"]).into()),
        _ => {}
    }
}

fn of_a_track(d: &mut Draws) -> Vec<String> {
    let track = d.pick(&[1, 1, 1, 2, 3, 64]).to_string();
    let mut words = vec![system(d).to_string(), track, d.pick(&[1, 50, 500, 3_000]).to_string()];
    if d.one_in(2) {
        words.push(d.from_to(1, 16).to_string());
        if d.one_in(2) {
            words.push("deep".into());
        }
    }
    last_word(&mut words, d);
    words
}

/// The bits of a piece of tape: words that follow one another, now and then a spoilt one, a turn, a cut.
pub fn tape_bits(count: Count, words: u64, d: &mut Draws) -> Vec<bool> {
    let (mut bits, mut way, mut now) = (vec![false, true], way(d), label(count, d));
    for _ in 0..words {
        match d.below(15) {
            0 => now = label(count, d),
            1 => {
                way = if way == Way::Forward { Way::Backward } else { Way::Forward };
            }
            2 => now = now.step(d.from_to(1, 4) as i64),
            3 => {
                let mut word = played(&now, way, d.next() as u32);
                let place = d.below(80) as usize;
                word[place] = !word[place];
                bits.extend(word);
            }
            4 => {
                let word = word_bits(&now, d.next() as u32);
                bits.extend(&word[..d.below(80) as usize]);
            }
            5 => bits.extend((0..d.below(120)).map(|_| false)),
            6 => now = now.step((count.day() / 2) as i64),
            _ => {}
        }
        let user = if d.one_in(2) { 0 } else { d.next() as u32 };
        bits.extend(played(&now, way, user));
        now = now.step(way.steps(1));
    }
    bits
}

/// Intervals of these bits, their cells as steady as a tape's, with some out of place.
fn tape(bits: &[bool], d: &mut Draws) -> Vec<u64> {
    let (mut cell, mut intervals) = (d.pick(&[40, 120, 500, 512, 4_000, 70_000]), Vec::new());
    let wander = d.pick(&[0, 0, 100, 30, 12, 8, 6]);
    let shake = d.pick(&[0, 0, 60, 20, 12, 8]);
    for bit in bits {
        if wander > 0 {
            let most = cell / wander;
            cell = (cell + d.below(2 * most + 1) - most).clamp(20, 200_000);
        }
        if !*bit {
            intervals.push(cell);
            continue;
        }
        let most = if shake > 0 { cell / shake } else { 0 };
        let half = cell / 2 + d.below(2 * most + 1) - most;
        intervals.extend([half, cell - half]);
    }
    if d.one_in(3) {
        for _ in 0..d.from_to(1, 40) {
            displace(&mut intervals, d);
        }
    }
    intervals
}

/// Puts an interval out of place.
fn displace(intervals: &mut Vec<u64>, d: &mut Draws) {
    if intervals.len() < 3 {
        return;
    }
    let place = d.below(intervals.len() as u64 - 1) as usize;
    let now = intervals[place];
    match d.below(6) {
        0 => drop(intervals.remove(place)),
        1 => intervals[place] = 1 + d.of_any_size(24).min(MOST_TICKS - 1),
        2 => intervals[place] = (now + d.below(now / 4 + 1)).min(MOST_TICKS),
        3 => intervals[place] = (now - d.below(now / 4 + 1)).max(1),
        4 => {
            let part = 1 + d.below(now);
            intervals[place] = part;
            intervals.insert(place, (now - part).max(1));
        }
        _ => {
            let other = intervals.remove(place + 1);
            intervals[place] = (now + other).min(MOST_TICKS);
        }
    }
}

fn spelled(version: u8, system: u64, rate: u64, intervals: &[u64]) -> Vec<u8> {
    let mut bytes = header(version, system, rate);
    for ticks in intervals {
        spell(version, (*ticks).clamp(1, MOST_TICKS), &mut bytes);
    }
    bytes
}

/// An interval file of a few words.
fn recording(d: &mut Draws) -> Vec<u8> {
    let count = count(d);
    let most = d.pick(&[3, 9, 30]);
    let words = d.below(most);
    let bits = tape_bits(count, words, d);
    let intervals = tape(&bits, d);
    let rate = d.pick(&[48_000, 768_000, 1, 100_000_000, 44_100]);
    let mut bytes = spelled(d.pick(&[1, 2]), count.rate(), rate, &intervals);
    if d.one_in(40) {
        bytes.extend([0, 0]);
        bytes.extend((65_530 + d.below(12) as u32).to_be_bytes());
    }
    bytes
}

/// An interval file whose sound is not long.
fn short_recording(d: &mut Draws) -> Vec<u8> {
    let intervals: Vec<u64> = (0..d.below(200)).map(|_| 1 + d.of_any_size(7)).collect();
    spelled(d.pick(&[1, 2]), 25, 48_000, &intervals)
}

/// Samples of a tape: levels that wander, soft edges, noise, holds and clicks.
fn samples(d: &mut Draws) -> Vec<i64> {
    let count = count(d);
    let bits = tape_bits(count, d.below(5), d);
    let cell = d.pick(&[8, 20, 24, 25, 50]);
    let (level, noise) = (d.pick(&[300, 4_000, 12_000, 32_000]), d.pick(&[0, 0, 100, 1_000, 6_000]));
    let (soft, hum) = (d.pick(&[1, 1, 2, 4]), d.pick(&[0, 0, 1_000]));
    let (mut side, mut now, mut made) = (1i64, 0i64, Vec::new());
    for bit in bits {
        let halves = if bit { vec![cell / 2, cell - cell / 2] } else { vec![cell] };
        for half in halves {
            side = -side;
            for _ in 0..half {
                now += (side * level - now) / soft;
                let dirt = d.below(2 * noise + 1) as i64 - noise as i64;
                let slow = hum * ((made.len() as i64 / 400) % 3 - 1);
                made.push((now + dirt + slow).clamp(-32_768, 32_767));
            }
        }
    }
    if d.one_in(4) && !made.is_empty() {
        let place = d.below(made.len() as u64) as usize;
        let silence = d.below(4_000) as usize;
        made.splice(place..place, vec![0; silence]);
    }
    made
}

fn raw(d: &mut Draws) -> Vec<u8> {
    samples(d).iter().flat_map(|s| (*s as i16).to_le_bytes()).collect()
}

fn chunk(letters: &[u8; 4], size: u64, body: &[u8], bytes: &mut Vec<u8>) {
    bytes.extend(letters);
    bytes.extend((size as u32).to_le_bytes());
    bytes.extend(body);
    if body.len() % 2 == 1 {
        bytes.push(0);
    }
}

/// A sound file: each form, width and number of tracks, chunks before and behind, sizes that are not known.
fn wave(d: &mut Draws) -> Vec<u8> {
    let form = Form::drawn(d);
    let samples: Vec<i64> = samples(d).into_iter().take(4_000).collect();
    wave_of(&form, &samples, None, d)
}

/// The tracks of a sound file, the bytes of a sample, and whether its sizes have 64 bits.
pub struct Form {
    tracks: u64,
    width: u64,
    is_long: bool,
}

impl Form {
    pub fn drawn(d: &mut Draws) -> Form {
        Form { tracks: d.pick(&[1, 1, 2, 3, 64]), width: d.pick(&[1, 2, 3, 4]), is_long: d.one_in(4) }
    }
}

/// A sound file of these samples on its first track, with this rate or one at random.
pub fn wave_of(form: &Form, samples: &[i64], rate: Option<u32>, d: &mut Draws) -> Vec<u8> {
    let Form { tracks, width, is_long } = *form;
    let mut sound: Vec<u8> = Vec::new();
    for s in samples.iter().take(if tracks > 4 { 60 } else { samples.len() }) {
        for track in 0..tracks {
            let value = if track == 0 { *s } else { d.below(900) as i64 - 450 };
            match width {
                1 => sound.push((value / 256 + 128) as u8),
                _ => {
                    sound.extend((2..width).map(|_| d.next() as u8));
                    sound.extend((value as i16).to_le_bytes());
                }
            }
        }
    }
    let mut bytes = if is_long { d.pick(&[*b"RF64", *b"BW64"]).to_vec() } else { b"RIFF".to_vec() };
    let size = sound.len() as u64 + 36;
    bytes.extend((d.pick(&[size, size, 0, 4_294_967_295, 30]) as u32).to_le_bytes());
    bytes.extend(b"WAVE");
    if is_long && !d.one_in(12) {
        let long = if d.one_in(5) { 0 } else { sound.len() as u64 };
        let body: Vec<u8> = [size, long, 0].iter().flat_map(|n| n.to_le_bytes()).collect();
        chunk(b"ds64", 24, &body, &mut bytes);
    }
    if d.one_in(3) {
        let junk: Vec<u8> = (0..d.below(60)).map(|_| d.next() as u8).collect();
        chunk(b"JUNK", junk.len() as u64, &junk, &mut bytes);
    }
    let body = format(tracks, width, rate, d);
    chunk(b"fmt ", body.len() as u64, &body, &mut bytes);
    let known = sound.len() as u64;
    let announced = match (is_long, d.below(6)) {
        (true, 0) => known,
        (true, _) => 4_294_967_295,
        (false, 0) => d.pick(&[0, 4_294_967_295, 2_147_418_112, 2_147_483_648, 2_147_418_111]),
        (false, 1) => known + d.below(3) - d.below(3).min(known),
        (false, _) => known,
    };
    chunk(b"data", announced, &sound, &mut bytes);
    if d.one_in(4) {
        chunk(b"LIST", 4, b"INFO", &mut bytes);
    }
    bytes
}

fn format(tracks: u64, width: u64, rate: Option<u32>, d: &mut Draws) -> Vec<u8> {
    let is_extended = d.one_in(3);
    let tag: u16 = if is_extended { 65_534 } else { 1 };
    let rate = rate.unwrap_or_else(|| {
        let odd = d.pick(&[48_000u32, 44_100, 8_000, 192_000, 0, 6_250_001]);
        if d.one_in(4) { odd } else { 48_000 }
    });
    let block = (tracks * width) as u16;
    let mut body = tag.to_le_bytes().to_vec();
    body.extend((tracks as u16).to_le_bytes());
    body.extend(rate.to_le_bytes());
    body.extend((rate.wrapping_mul(block as u32)).to_le_bytes());
    body.extend((if d.one_in(30) { block + 1 } else { block }).to_le_bytes());
    body.extend((8 * width as u16).to_le_bytes());
    if is_extended {
        body.extend([22, 0, 8 * width as u8, 0, 0, 0, 0, 0]);
        body.extend([1, 0, 0, 0, 0, 0, 16, 0, 128, 0, 0, 170, 0, 56, 155, 113]);
        if d.one_in(10) {
            body.truncate(d.from_to(16, 30) as usize);
        }
    }
    body
}

/// MIDI bytes: runs of time code with other messages between.
fn midi(d: &mut Draws) -> Vec<u8> {
    let mut bytes = Vec::new();
    for _ in 0..d.below(30) {
        let label = label(count(d), d);
        match d.below(8) {
            0 => bytes.extend([0xf0, 0x7f, d.below(128) as u8, 1, 1, d.below(128) as u8, d.below(70) as u8, 59, 29, 0xf7]),
            1 => bytes.extend((0..d.below(12)).map(|_| d.next() as u8)),
            2 => bytes.extend([0x90, 60, 100]),
            3 => bytes.push(0xf8 + d.below(8) as u8),
            n => quarters(&label, n % 2 == 0, d, &mut bytes),
        }
    }
    bytes
}

/// Eight quarter frames or fewer, rising or falling, with real-time bytes between.
fn quarters(label: &Label, is_rising: bool, d: &mut Draws, bytes: &mut Vec<u8>) {
    let parts = [label.frames, label.seconds, label.minutes, label.hours];
    let code = COUNTS.iter().position(|count| *count == label.count).expect("it is one of them") as u64;
    let code = [0, 1, 3, 2][code as usize];
    for k in 0..d.pick(&[8, 8, 8, 16, 5]) {
        let piece = if is_rising { k % 8 } else { 7 - k % 8 };
        let part = parts[(piece / 2) as usize];
        let bits = match piece {
            7 => part / 16 + 2 * code,
            _ if piece % 2 == 0 => part % 16,
            _ => part / 16,
        };
        if d.one_in(20) {
            bytes.push(0xf8);
        }
        let dirt = if d.one_in(60) { d.below(16) } else { 0 };
        bytes.extend([0xf1, (16 * piece + (bits ^ dirt)) as u8]);
    }
}

/// A line file: fields of equal lines, with some runs out of place.
fn line_file(d: &mut Draws) -> Vec<u8> {
    let count = d.pick(&COUNTS[1..]);
    let most = d.pick(&[600, 3_000, 65_535]);
    let length = d.from_to(460, most);
    let mut bytes = file_header(count.rate(), length);
    for _ in 0..d.below(8) {
        let lines = d.below(4);
        let (mut now, user) = (label(count, d), d.next() as u32);
        bytes.push(lines as u8);
        for _ in 0..lines {
            if d.one_in(8) {
                now = now.step(1);
            }
            let mut bits = line_bits(&now, d.below(2) as u8, user);
            if d.one_in(6) {
                let place = d.below(90) as usize;
                bits[place] ^= 1;
            }
            let mut runs = runs_of(&bits, length);
            if d.one_in(3) {
                let place = d.below(runs.len() as u64) as usize;
                runs[place] = (runs[place] + d.below(length / 100 + 2)).max(1).min(65_535);
            }
            spell_line(&runs, &mut bytes);
        }
    }
    bytes
}

/// A script of a chase, of rows that are nearly always good.
fn script(count_name: &str, d: &mut Draws) -> Vec<u8> {
    let count = Count::named(count_name).unwrap_or(Count::Of25);
    let (mut now, mut text) = (label(count, d), String::new());
    let end = d.pick(&["\n", "\r\n", "\r"]);
    for place in 0..d.below(40) {
        now = now.step(1);
        let mut row = vec![String::new(); 5];
        if place == 0 || d.one_in(8) {
            row[0] = d.pick(&["play", "play", "wait", "locate"]).into();
        }
        if row[0] == "locate" {
            row[1] = label(count, d).text();
        }
        if !d.one_in(6) {
            row[2] = now.text();
            row[3] = if d.one_in(9) { "backward".into() } else { "forward".into() };
        }
        if d.one_in(2) {
            let slip = d.pick(&[0, 3, 8, 24, 41, 90, 1_000_000]);
            row[4] = if d.one_in(2) { format!("-{slip}") } else { slip.to_string() };
        }
        if d.one_in(30) {
            let place = d.below(5) as usize;
            row[place] = d.pick(&["", "x", "Play", "00:00:00:0", "1000001", "00000000", "-", "+1"]).into();
        }
        if d.one_in(12) {
            let place = d.below(5) as usize;
            row[place] = format!("\"{}\"", row[place]);
        }
        text += &row.join(",");
        text += end;
        if d.one_in(20) {
            text += end;
        }
    }
    if d.one_in(5) {
        text.insert(0, '\u{feff}');
    }
    text.into_bytes()
}

/// A count and what is printed of its labels, as often as not in columns.
fn asked_of_labels(count: Count, d: &mut Draws) -> Vec<String> {
    let mut words = pulled_at_times(count, d);
    if d.one_in(2) {
        words.extend(columns(d));
    }
    let way = d.pick(&["number", "label", "plus", "minus", "since", "seconds", "to", "length", "length", "sum"]);
    words.push(way.into());
    match way {
        "plus" | "minus" => {
            let steps = d.pick(&[0, 1, 30, 1_798, count.day(), 4_294_967_295, 4_294_967_296]);
            words.push(if d.one_in(3) { label(count, d).text() } else { steps.to_string() });
        }
        "since" => words.push(label(count, d).text()),
        "to" => {
            let other = self::count(d);
            words.extend(pulled_at_times(other, d));
        }
        _ => {}
    }
    words
}

/// What parts the columns, and which are meant: seldom none that there can be.
fn columns(d: &mut Draws) -> Vec<String> {
    let (first, more) = (d.pick(&[1, 1, 2, 3, 4, 5, 6, 9, 4_096]), d.pick(&[0, 0, 1, 2, 3, 9, 4_096]));
    let which = match d.below(30) {
        0 => d.pick(&["0", "4097", "5-4", "5-", "-5", "5-4097", "x", "1-2-3", "01"]).into(),
        1..=14 => first.to_string(),
        _ => format!("{first}-{}", (first + more).min(4_096)),
    };
    vec![d.pick(&["column", "csv"]).into(), which]
}

/// A count, and `ntsc` behind it now and then, mostly where it may come.
fn pulled_at_times(count: Count, d: &mut Draws) -> Vec<String> {
    let may_stand = count == Count::Of24 || count == Count::Of30;
    let is_pulled = if may_stand { d.one_in(2) } else { d.one_in(40) };
    let mut words = vec![count.name().to_string()];
    if is_pulled {
        words.push("ntsc".into());
    }
    words
}

/// A text of labels, in each form, nearly always of the count.
fn text_of_labels(count_name: &str, d: &mut Draws) -> Vec<u8> {
    let count = Count::named(count_name).unwrap_or(Count::Of25);
    let mut text = String::new();
    for _ in 0..d.below(40) {
        text += &line_of(count, d);
        text.push('\n');
    }
    if d.one_in(3) {
        text.pop();
    }
    text.into_bytes()
}

/// A line that says a label by its text, its number or its seconds, and one time in thirty one that may say none.
fn line_of(count: Count, d: &mut Draws) -> String {
    let now = label(count, d);
    match d.below(30) {
        0 => now.text() + d.pick(&["", " ", "\r", "0", ":00"]),
        1 => now.text().replace(d.pick(&[':', ';', '0', '5']), d.pick(&[":", ";", "9", ""])),
        2 => d.pick(&["", "1.", "1.00", ".040", "123456.000", "12345678", "10:00:0", "-1", "x"]).into(),
        3 => (count.day() - 2 + d.below(4)).to_string(),
        4 => "0".repeat(d.from_to(1, 70) as usize),
        5..=12 => format!("{:01$}", now.number(), d.from_to(0, 7) as usize),
        13..=20 => format!("{}.{:03}", d.below(86_500), d.below(1_000)),
        _ => now.text(),
    }
}

/// A text as an edit list or a table has it: labels and other words, parted by blanks, commas and semicolons, with endings
/// of each kind, a byte order mark, lines that are too long, and bytes that are no text.
fn text_of_columns(count_name: &str, d: &mut Draws) -> Vec<u8> {
    let count = Count::named(count_name).unwrap_or(Count::Of25);
    let mut text: Vec<u8> = if d.one_in(8) { "\u{feff}".into() } else { Vec::new() };
    let end: &[u8] = d.pick(&[&b"\n"[..], b"\n", b"\r\n", b"\r\n", b"\n\n", b"\r\r\n", b" \r\n", b","]);
    for _ in 0..d.below(30) {
        if d.one_in(60) {
            text.extend(vec![b'x'; d.from_to(4_000, 4_200) as usize]);
        }
        for _ in 0..d.below(11) {
            text.extend(column_of(count, d));
            text.extend(d.pick(&[" ", " ", "  ", "\t", ",", ", ", ";", " ,\t", ",,", " ; "]).bytes());
        }
        text.extend(end);
    }
    if d.one_in(3) {
        text.pop();
    }
    text
}

/// A label more often than not, and else what stands beside labels.
fn column_of(count: Count, d: &mut Draws) -> Vec<u8> {
    match d.below(20) {
        0 => label(self::count(d), d).text().into(),
        1 => line_of(count, d).into(),
        2 => format!("\"{}\"", label(count, d).text()).into(),
        3 => vec![0xff, d.below(256) as u8],
        4..=6 => d.pick(&["AX", "V", "C", "*", "FROM", "001", "250", "36000.000", "M2", "\r", "24:00:00:00"]).into(),
        _ => label(count, d).text().into(),
    }
}
