//! The fields of a label, in the word of linear time code and in a line of vertical interval time code: the same
//! fields at other bits.
use crate::labels::{Count, Label};

/// Where the digits of a label are: the first bit of each.
pub struct Places {
    pub frames: [usize; 2],
    pub seconds: [usize; 2],
    pub minutes: [usize; 2],
    pub hours: [usize; 2],
    pub drop_frame: usize,
    pub first_group: usize,
    /// From one user group to the next.
    pub apart: usize,
}

pub const LTC: Places = Places {
    frames: [0, 8],
    seconds: [16, 24],
    minutes: [32, 40],
    hours: [48, 56],
    drop_frame: 10,
    first_group: 4,
    apart: 8,
};

pub const VITC: Places = Places {
    frames: [2, 12],
    seconds: [22, 32],
    minutes: [42, 52],
    hours: [62, 72],
    drop_frame: 14,
    first_group: 6,
    apart: 10,
};

fn value(bits: &[u8], at: usize, width: usize) -> u64 {
    (0..width).map(|i| (bits[at + i] as u64) << i).sum()
}

impl Places {
    /// The label that bits carry, or the name of the first fault of their fields.
    pub fn label(&self, system: u64, bits: &[u8]) -> Result<Label, &'static str> {
        let unit = |digits: &[usize; 2]| value(bits, digits[0], 4);
        let ten = |digits: &[usize; 2], width: usize| value(bits, digits[1], width);
        let count = match system {
            24 => Count::Of24,
            25 => Count::Of25,
            _ if bits[self.drop_frame] == 1 => Count::Drop,
            _ => Count::Of30,
        };
        let label = Label {
            count,
            hours: 10 * ten(&self.hours, 2) + unit(&self.hours),
            minutes: 10 * ten(&self.minutes, 3) + unit(&self.minutes),
            seconds: 10 * ten(&self.seconds, 3) + unit(&self.seconds),
            frames: 10 * ten(&self.frames, 2) + unit(&self.frames),
        };
        let faults = [
            (unit(&self.frames) > 9, "frame-units"),
            (label.frames >= system, "frames"),
            (unit(&self.seconds) > 9, "second-units"),
            (ten(&self.seconds, 3) > 5, "second-tens"),
            (unit(&self.minutes) > 9, "minute-units"),
            (ten(&self.minutes, 3) > 5, "minute-tens"),
            (unit(&self.hours) > 9, "hour-units"),
            (label.hours > 23, "hours"),
            (label.is_dropped(), "dropped-label"),
        ];
        faults.iter().find(|(is_so, _)| *is_so).map_or(Ok(label), |(_, name)| Err(name))
    }

    /// The user bits, group 8 highest.
    pub fn user(&self, bits: &[u8]) -> u32 {
        (0..8).map(|group| (value(bits, self.first_group + self.apart * group, 4) as u32) << (4 * group)).sum()
    }

    /// Puts a label and user bits among bits that are 0.
    pub fn put(&self, label: &Label, user: u32, bits: &mut [u8]) {
        let mut put = |at: usize, width: usize, value: u64| {
            for i in 0..width {
                bits[at + i] = (value >> i & 1) as u8;
            }
        };
        let parts = [(&self.frames, label.frames, 2), (&self.seconds, label.seconds, 3)];
        let more = [(&self.minutes, label.minutes, 3), (&self.hours, label.hours, 2)];
        for (digits, part, width) in parts.into_iter().chain(more) {
            put(digits[0], 4, part % 10);
            put(digits[1], width, part / 10);
        }
        put(self.drop_frame, 1, (label.count == Count::Drop) as u64);
        for group in 0..8 {
            put(self.first_group + self.apart * group, 4, (user >> (4 * group) & 15) as u64);
        }
    }
}
