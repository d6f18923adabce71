//! The frames of a recording, and what is made of them: lines, spans, MIDI Time Code, a clean recording.
use crate::cells::{Event, SYNC, Word};
use crate::fields::LTC;
use crate::intervals::{header, spell};
use crate::labels::{Count, Label, Way};

#[derive(Clone, Debug)]
pub enum Frame {
    Heard { word: Word, is_joined: bool },
    Invented { label: Label, way: Way, step: u64, tick: u64 },
    Gone { tick: u64 },
}

/// What the flywheel runs on: the last word, and how many frames were invented since, or that it is gone.
struct Wheel {
    label: Label,
    way: Way,
    tick: u64,
    ticks: u64,
    invented: u64,
    is_gone: bool,
}

/// The frames of these events, those that are due by a tick, with at most `limit` invented in a row.
pub fn frames(limit: u64, events: &[Event], until: u64) -> Vec<Frame> {
    let (mut frames, mut wheel) = (Vec::new(), None);
    for event in events {
        let Event::Word(word) = event else { continue };
        due(limit, &mut wheel, word.tick, &mut frames);
        let is_joined = wheel.as_ref().is_some_and(|wheel: &Wheel| {
            let next = wheel.label.step(wheel.way.steps(wheel.invented as i64 + 1));
            !wheel.is_gone && word.way == wheel.way && word.label == next
        });
        frames.push(Frame::Heard { word: word.clone(), is_joined });
        wheel = Some(Wheel {
            label: word.label,
            way: word.way,
            tick: word.tick,
            ticks: word.ticks,
            invented: 0,
            is_gone: false,
        });
    }
    due(limit, &mut wheel, until, &mut frames);
    frames
}

/// The frames that are due by a tick: half a length after they should have been heard.
fn due(limit: u64, wheel: &mut Option<Wheel>, tick: u64, frames: &mut Vec<Frame>) {
    let Some(wheel) = wheel else { return };
    while !wheel.is_gone {
        let step = wheel.invented + 1;
        let heard = wheel.tick + step * wheel.ticks;
        if 2 * heard + wheel.ticks > 2 * tick {
            return;
        }
        if step > limit {
            wheel.is_gone = true;
            frames.push(Frame::Gone { tick: heard });
        } else {
            wheel.invented = step;
            let label = wheel.label.step(wheel.way.steps(step as i64));
            frames.push(Frame::Invented { label, way: wheel.way, step, tick: heard });
        }
    }
}

/// The lines of `ltc-fly`.
pub fn lines(frames: &[Frame], intervals: &[u64], is_done: bool) -> String {
    let (mut text, mut counts) = (String::new(), [0u64; 3]);
    for frame in frames {
        match frame {
            Frame::Heard { word, is_joined } => {
                counts[0] += 1;
                let (way, label) = (word.way.name(), word.label.text());
                text += &format!("heard {way} {label} joined {} tick {}\n", *is_joined as u8, word.tick);
            }
            Frame::Invented { label, way, step, tick } => {
                counts[1] += 1;
                text += &format!("invented {} {} step {step} tick {tick}\n", way.name(), label.text());
            }
            Frame::Gone { tick } => {
                counts[2] += 1;
                text += &format!("gone tick {tick}\n");
            }
        }
    }
    if is_done {
        let ticks: u64 = intervals.iter().sum();
        let [heard, invented, gone] = counts;
        let count = intervals.len();
        text += &format!("end intervals {count} heard {heard} invented {invented} gone {gone} ticks {ticks}\n");
    }
    text
}

struct Span {
    way: Way,
    first: Label,
    last: Label,
    heard: u64,
    bridged: u64,
    /// Invented since the last one that was heard.
    waiting: u64,
    from: u64,
    to: u64,
}

impl Span {
    fn begin(word: &Word) -> Span {
        Span {
            way: word.way,
            first: word.label,
            last: word.label,
            heard: 1,
            bridged: 0,
            waiting: 0,
            from: word.tick,
            to: word.tick,
        }
    }

    fn line(&self, rate: u64, system: u64) -> String {
        let steps = (self.heard + self.bridged - 1) as u128;
        let speed = match steps {
            0 => 0,
            _ => 1000 * rate as u128 * steps / (system as u128 * (self.to - self.from) as u128),
        };
        format!(
            "span {} {} {} heard {} bridged {} tick {} {} speed {speed}\n",
            self.way.name(),
            self.first.text(),
            self.last.text(),
            self.heard,
            self.bridged,
            self.from,
            self.to
        )
    }

    /// How the labels are related if another span begins behind this one.
    fn gap(&self, word: &Word) -> String {
        let ticks = word.tick - self.to;
        if self.last.count != word.label.count {
            return format!("gap ticks {ticks} count\n");
        }
        if self.way != word.way {
            return format!("gap ticks {ticks} turn\n");
        }
        let day = self.last.count.day() as i64;
        let up = (word.label.number() as i64 - self.last.number() as i64).rem_euclid(day);
        let nearest = if 2 * up <= day { up } else { up - day };
        format!("gap ticks {ticks} step {}\n", self.way.steps(nearest))
    }
}

/// The lines of `ltc-spans`.
pub fn spans(frames: &[Frame], rate: u64, system: u64, intervals: &[u64], is_done: bool) -> String {
    let (mut text, mut ended, mut counts) = (String::new(), None::<Span>, [0u64; 3]);
    let mut open: Option<Span> = None;
    let mut end = |open: &mut Option<Span>, ended: &mut Option<Span>, text: &mut String| {
        let Some(span) = open.take() else { return };
        *text += &span.line(rate, system);
        counts[0] += 1;
        counts[1] += span.heard;
        counts[2] += span.bridged;
        *ended = Some(span);
    };
    for frame in frames {
        match frame {
            Frame::Heard { word, is_joined: true } => {
                let span = open.as_mut().expect("a word joins an open span");
                span.heard += 1;
                span.bridged += std::mem::take(&mut span.waiting);
                (span.last, span.to) = (word.label, word.tick);
            }
            Frame::Heard { word, is_joined: false } => {
                end(&mut open, &mut ended, &mut text);
                if let Some(span) = &ended {
                    text += &span.gap(word);
                }
                open = Some(Span::begin(word));
            }
            Frame::Invented { .. } => open.as_mut().expect("frames are invented in a span").waiting += 1,
            Frame::Gone { .. } => end(&mut open, &mut ended, &mut text),
        }
    }
    if is_done {
        end(&mut open, &mut ended, &mut text);
        let ticks: u64 = intervals.iter().sum();
        let [spans, heard, bridged] = counts;
        let count = intervals.len();
        text += &format!("end intervals {count} spans {spans} heard {heard} bridged {bridged} ticks {ticks}\n");
    }
    text
}

/// The label and the direction of a frame, but of an end.
fn placed(frame: &Frame) -> Option<(Label, Way)> {
    match frame {
        Frame::Heard { word, .. } => Some((word.label, word.way)),
        Frame::Invented { label, way, .. } => Some((*label, *way)),
        Frame::Gone { .. } => None,
    }
}

/// The bytes of `ltc-mtc`.
pub fn midi(frames: &[Frame]) -> Vec<u8> {
    let (mut bytes, mut place) = (Vec::new(), 0);
    for frame in frames {
        let Some((label, way)) = placed(frame) else { continue };
        if matches!(frame, Frame::Heard { is_joined: false, .. }) {
            place = 0;
            bytes.extend([0xf0, 0x7f, 0x7f, 0x01, 0x01, (32 * code(label.count) + label.hours) as u8]);
            bytes.extend([label.minutes as u8, label.seconds as u8, label.frames as u8, 0xf7]);
        }
        let (carried, pieces) = match (way, place % 2) {
            (Way::Forward, 0) => (label, [0, 1, 2, 3]),
            (Way::Forward, _) => (label.step(-1), [4, 5, 6, 7]),
            (Way::Backward, 0) => (label.step(-1), [7, 6, 5, 4]),
            (Way::Backward, _) => (label, [3, 2, 1, 0]),
        };
        for piece in pieces {
            bytes.extend([0xf1, (16 * piece + bits_of(&carried, piece)) as u8]);
        }
        place += 1;
    }
    bytes
}

fn code(count: Count) -> u64 {
    match count {
        Count::Of24 => 0,
        Count::Of25 => 1,
        Count::Drop => 2,
        Count::Of30 => 3,
    }
}

fn bits_of(label: &Label, piece: u64) -> u64 {
    let part = [label.frames, label.seconds, label.minutes, label.hours][(piece / 2) as usize];
    match piece {
        7 => part / 16 + 2 * code(label.count),
        _ if piece % 2 == 0 => part % 16,
        _ => part / 16,
    }
}

/// The 80 bits of a word with this label, user bits 0, balanced; bit 0 first.
pub fn word_bits(label: &Label, user: u32) -> [bool; 80] {
    let mut bits = [0; 80];
    LTC.put(label, user, &mut bits);
    bits[64..].copy_from_slice(&SYNC);
    let correction = if label.count == Count::Of25 { 59 } else { 27 };
    let zeros = bits.iter().filter(|bit| **bit == 0).count();
    bits[correction] = (zeros % 2) as u8;
    bits.map(|bit| bit == 1)
}

/// Writes a cell.
pub fn spell_cell(bit: bool, ticks: u64, bytes: &mut Vec<u8>) {
    if bit {
        spell(1, ticks / 2, bytes);
        spell(1, ticks - ticks / 2, bytes);
    } else {
        spell(1, ticks, bytes);
    }
}

/// The word's bits as they are played.
pub fn played(label: &Label, way: Way, user: u32) -> Vec<bool> {
    let mut bits = word_bits(label, user).to_vec();
    if way == Way::Backward {
        bits.reverse();
    }
    bits
}

/// The file of `ltc-jam`, of a recording whose header is good.
pub fn jam(frames: &[Frame], system: u64, cell: u64, rate: u64) -> Vec<u8> {
    let mut bytes = header(1, system, rate);
    spell_cell(false, cell, &mut bytes);
    spell_cell(true, cell, &mut bytes);
    for (label, way) in frames.iter().filter_map(placed) {
        for bit in played(&label, way, 0) {
            spell_cell(bit, cell, &mut bytes);
        }
    }
    bytes
}
