//! What is made from words alone: recordings, line files, a load of the reader, and what calculates.
use crate::cells::{Asked, Event, Tolerance, events};
use crate::frames::{played, spell_cell};
use crate::intervals::header;
use crate::labels::{Count, Label, Way};

pub struct Striping {
    pub way: Way,
    pub label: Label,
    pub frames: u64,
    pub cell: u64,
    pub rate: u64,
    pub to_cell: u64,
    pub step: u64,
}

/// The recording of `ltc-make`.
pub fn stripe(s: &Striping) -> Vec<u8> {
    let mut bytes = header(1, s.label.count.rate(), s.rate);
    let mut place = 0;
    let mut put = |bit: bool, bytes: &mut Vec<u8>| {
        let moved = place * s.step;
        let ticks = match s.to_cell >= s.cell {
            true => (s.cell + moved).min(s.to_cell),
            false => s.cell.saturating_sub(moved).max(s.to_cell),
        };
        place += 1;
        spell_cell(bit, ticks, bytes);
    };
    put(false, &mut bytes);
    put(true, &mut bytes);
    for frame in 0..s.frames {
        let label = s.label.step(s.way.steps(frame as i64));
        for bit in played(&label, s.way, 0) {
            put(bit, &mut bytes);
        }
    }
    bytes
}

/// The line of `ltc-load`, read by the reading of this program.
pub fn load(seed: u64, words: u64) -> String {
    let mut state = seed;
    let mut draw = || {
        state = state.wrapping_mul(6_364_136_223_846_793_005).wrapping_add(1_442_695_040_888_963_407);
        state
    };
    let (mut last, mut intervals) = (512u64, Vec::new());
    let mut cell = |bit: bool, x: u64, intervals: &mut Vec<u64>| {
        let q = last / 8;
        last = (last + (x >> 40) % (2 * q + 1) - q).clamp(64, 4_096);
        if !bit {
            intervals.push(last);
            return;
        }
        let h = (last - 16) / 32;
        let first = last / 2 + (x >> 20) % (2 * h + 1) - h;
        intervals.extend([first, last - first]);
    };
    cell(false, draw(), &mut intervals);
    cell(true, draw(), &mut intervals);
    for k in 0..words {
        let label = Label::at(Count::Of25, (seed % 2_160_000 + k) % 2_160_000);
        let user = (draw() >> 32) as u32;
        for bit in played(&label, Way::Forward, user) {
            cell(bit, draw(), &mut intervals);
        }
    }
    let told = events(Tolerance::Normal, 25, &intervals, Asked::Nothing, true).events;
    let labels: Vec<String> = told
        .iter()
        .filter_map(|event| match event {
            Event::Word(word) => Some(word.label.text()),
            _ => None,
        })
        .collect();
    let refused = told.iter().filter(|event| matches!(event, Event::Refused { .. })).count();
    let lost = told.iter().filter(|event| matches!(event, Event::Lost { .. })).count();
    let dash = "-".to_string();
    let (first, last) = (labels.first().unwrap_or(&dash), labels.last().unwrap_or(&dash));
    format!(
        "load seed {seed} words {words} read {} refused {refused} lost {lost} first {first} last {last}\n",
        labels.len()
    )
}
