//! `mtc-read`: the labels of MIDI Time Code in MIDI bytes.
use crate::labels::{Count, Label, Part, Way};
use crate::run::{End, Run};

fn count_of(code: u64) -> Count {
    [Count::Of24, Count::Of25, Count::Drop, Count::Of30][code as usize % 4]
}

fn name(part: Part) -> &'static str {
    match part {
        Part::Hours => "hours",
        Part::Minutes => "minutes",
        Part::Seconds => "seconds",
        Part::Frames => "frames",
        Part::Dropped => "dropped",
    }
}

/// The bytes of the message that goes on, from its status on; empty if none does.
#[derive(Default)]
struct Reader {
    message: Vec<u8>,
    row: Vec<u8>,
    text: String,
    counts: [u64; 3],
}

impl Reader {
    fn byte(&mut self, byte: u8, place: usize) {
        match byte {
            0xf8..=0xff => {}
            0xf7 if self.is_full() => {
                self.row.clear();
                self.message.clear();
            }
            0x80..=0xf7 => {
                self.message.clear();
                self.message.push(byte);
            }
            _ => self.data(byte, place),
        }
    }

    fn is_full(&self) -> bool {
        let m = &self.message;
        m.len() == 9 && m[0] == 0xf0 && m[1] == 0x7f && m[3] == 1 && m[4] == 1
    }

    fn data(&mut self, byte: u8, place: usize) {
        if self.message.is_empty() {
            return;
        }
        self.message.push(byte);
        if self.message.len() == 2 && self.message[0] == 0xf1 {
            self.row.push(byte);
            if self.row.len() > 8 {
                self.row.remove(0);
            }
            self.eight(place);
        }
    }

    fn eight(&mut self, place: usize) {
        let pieces: Vec<u8> = self.row.iter().map(|b| b / 16).collect();
        let mut bits: Vec<u64> = self.row.iter().map(|b| (b % 16) as u64).collect();
        let way = match pieces[..] {
            [0, 1, 2, 3, 4, 5, 6, 7] => Way::Forward,
            [7, 6, 5, 4, 3, 2, 1, 0] => Way::Backward,
            _ => return,
        };
        if way == Way::Backward {
            bits.reverse();
        }
        let label = Label {
            count: count_of(bits[7] / 2),
            hours: bits[6] + 16 * (bits[7] % 2),
            minutes: bits[4] + 16 * (bits[5] % 4),
            seconds: bits[2] + 16 * (bits[3] % 4),
            frames: bits[0] + 16 * (bits[1] % 2),
        };
        self.tell(&format!("quarter {}", way.name()), way.name(), 1, &label, place);
    }

    fn full(&mut self, place: usize) {
        let m = &self.message;
        let label = Label {
            count: count_of(m[5] as u64 / 32),
            hours: m[5] as u64 % 32,
            minutes: m[6] as u64,
            seconds: m[7] as u64,
            frames: m[8] as u64,
        };
        self.tell("full", "full", 0, &label, place);
    }

    fn tell(&mut self, good: &str, bad: &str, kind: usize, label: &Label, place: usize) {
        match label.wrong() {
            None => {
                self.counts[kind] += 1;
                self.text += &format!("{good} {} byte {place}\n", label.text());
            }
            Some(part) => {
                self.counts[2] += 1;
                self.text += &format!("refused {bad} {} byte {place}\n", name(part));
            }
        }
    }
}

pub fn read(bytes: &[u8]) -> Run {
    let mut reader = Reader::default();
    for (place, &byte) in bytes.iter().enumerate() {
        if byte == 0xf7 && reader.is_full() {
            reader.full(place);
        }
        reader.byte(byte, place);
    }
    let [full, quarter, refused] = reader.counts;
    let last = format!("end bytes {} full {full} quarter {quarter} refused {refused}\n", bytes.len());
    Run::text(reader.text + &last, End::Done)
}
