//! Labels and their counts: 24, 25, 30, and 30 with drop-frame counting (SMPTE 12M).

#[derive(Clone, Copy, PartialEq, Eq, Debug)]
pub enum Count {
    Of24,
    Of25,
    Of30,
    Drop,
}

pub const COUNTS: [Count; 4] = [Count::Of24, Count::Of25, Count::Of30, Count::Drop];

impl Count {
    pub fn name(self) -> &'static str {
        match self {
            Count::Of24 => "24",
            Count::Of25 => "25",
            Count::Of30 => "30",
            Count::Drop => "30d",
        }
    }

    /// Frames a second.
    pub fn rate(self) -> u64 {
        match self {
            Count::Of24 => 24,
            Count::Of25 => 25,
            Count::Of30 | Count::Drop => 30,
        }
    }

    /// Labels of a day.
    pub fn day(self) -> u64 {
        match self {
            Count::Drop => 2_589_408,
            count => 86_400 * count.rate(),
        }
    }

    pub fn named(name: &str) -> Option<Count> {
        COUNTS.into_iter().find(|count| count.name() == name)
    }
}

#[derive(Clone, Copy, PartialEq, Eq, Debug)]
pub struct Label {
    pub count: Count,
    pub hours: u64,
    pub minutes: u64,
    pub seconds: u64,
    pub frames: u64,
}

/// Why an address is no label, in the order in which its parts are looked at.
#[derive(Clone, Copy, PartialEq, Eq, Debug)]
pub enum Part {
    Hours,
    Minutes,
    Seconds,
    Frames,
    Dropped,
}

impl Label {
    /// The first part that is wrong.
    pub fn wrong(&self) -> Option<Part> {
        if self.hours > 23 {
            Some(Part::Hours)
        } else if self.minutes > 59 {
            Some(Part::Minutes)
        } else if self.seconds > 59 {
            Some(Part::Seconds)
        } else if self.frames >= self.count.rate() {
            Some(Part::Frames)
        } else if self.is_dropped() {
            Some(Part::Dropped)
        } else {
            None
        }
    }

    /// Frames 0 and 1 of second 0 of each minute that is not a tenth one, at 30 drop-frame.
    pub fn is_dropped(&self) -> bool {
        self.count == Count::Drop && self.frames < 2 && self.seconds == 0 && self.minutes % 10 != 0
    }

    /// How many labels come before it in the day.
    pub fn number(&self) -> u64 {
        let minutes = 60 * self.hours + self.minutes;
        let plain = (60 * minutes + self.seconds) * self.count.rate() + self.frames;
        match self.count {
            Count::Drop => plain - 2 * (minutes - minutes / 10),
            _ => plain,
        }
    }

    /// The label with this number, below the labels of its day.
    pub fn at(count: Count, number: u64) -> Label {
        let plain = match count {
            Count::Drop => {
                let (tens, rest) = (number / 17_982, number % 17_982);
                let dropped = if rest < 1_800 { 0 } else { 2 + 2 * ((rest - 1_800) / 1_798) };
                18_000 * tens + rest + dropped
            }
            _ => number,
        };
        let rate = count.rate();
        let seconds = plain / rate;
        Label {
            count,
            hours: seconds / 3_600,
            minutes: seconds / 60 % 60,
            seconds: seconds % 60,
            frames: plain % rate,
        }
    }

    /// The label `by` labels on, around the day.
    pub fn step(&self, by: i64) -> Label {
        let day = self.count.day() as i64;
        Label::at(self.count, (self.number() as i64 + by).rem_euclid(day) as u64)
    }

    pub fn text(&self) -> String {
        let mark = if self.count == Count::Drop { ';' } else { ':' };
        format!("{:02}:{:02}:{:02}{mark}{:02}", self.hours, self.minutes, self.seconds, self.frames)
    }

    /// The label of the count that has this text.
    pub fn read(count: Count, text: &str) -> Option<Label> {
        let bytes = text.as_bytes();
        if bytes.len() != 11 {
            return None;
        }
        let two = |at: usize| -> Option<u64> {
            let digit = |b: u8| b.is_ascii_digit().then(|| (b - b'0') as u64);
            Some(10 * digit(bytes[at])? + digit(bytes[at + 1])?)
        };
        let label = Label { count, hours: two(0)?, minutes: two(3)?, seconds: two(6)?, frames: two(9)? };
        (label.wrong().is_none() && label.text() == text).then_some(label)
    }
}

#[derive(Clone, Copy, PartialEq, Eq, Debug)]
pub enum Way {
    Forward,
    Backward,
}

impl Way {
    pub fn name(self) -> &'static str {
        match self {
            Way::Forward => "forward",
            Way::Backward => "backward",
        }
    }

    /// `by` labels as the tape runs, with the sign of its direction.
    pub fn steps(self, by: i64) -> i64 {
        match self {
            Way::Forward => by,
            Way::Backward => -by,
        }
    }
}
