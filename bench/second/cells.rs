//! From intervals to cells, windows and events, under each tolerance.
use crate::fields::LTC;
use crate::labels::{Label, Way};

#[derive(Clone, Copy, PartialEq, Eq, Debug)]
pub enum Tolerance {
    Normal,
    Worn,
    Rough,
}

/// What each word is asked for.
#[derive(Clone, Copy, PartialEq, Eq, Debug)]
pub enum Asked {
    Nothing,
    /// A witness: `firm`.
    Witness,
    /// A witness, or the word that follows it on the tape: `consecutive`.
    WitnessOrNext,
    /// A word that counts on with it: `counted`.
    Counted,
}

impl Asked {
    pub fn named(word: &str) -> Option<Asked> {
        match word {
            "firm" => Some(Asked::Witness),
            "consecutive" => Some(Asked::WitnessOrNext),
            "counted" => Some(Asked::Counted),
            _ => None,
        }
    }
}

/// A cell of a stretch: its bit, its length, and the interval that completed it.
struct Cell {
    bit: bool,
    ticks: u64,
}

/// An event of a recording.
#[derive(Clone, Debug)]
pub enum Event {
    Word(Word),
    Refused { way: Way, name: &'static str, tick: u64 },
    Lost { interval: usize, tick: u64 },
}

#[derive(Clone, Debug)]
pub struct Word {
    pub way: Way,
    pub label: Label,
    pub user: u32,
    pub flags: [bool; 5],
    pub is_balanced: bool,
    pub tick: u64,
    pub ticks: u64,
    /// The stretch and the place of its first cell there, for the witness.
    stretch: usize,
    first: usize,
}

/// The sync word in the order of time.
pub const SYNC: [u8; 16] = [0, 0, 1, 1, 1, 1, 1, 1, 1, 1, 1, 1, 1, 1, 0, 1];

impl Tolerance {
    /// Whether two neighbouring intervals are an unequal pair.
    fn is_unequal(self, a: u64, b: u64) -> bool {
        let (less, more) = (a.min(b), a.max(b));
        let is_near = match self {
            Tolerance::Normal => 5 * less >= 2 * more,
            Tolerance::Worn => 8 * less >= 3 * more,
            Tolerance::Rough => 3 * less >= more,
        };
        is_near && 3 * less < 2 * more
    }

    /// Whether an interval is a zero behind these cells, of which there is one at least.
    fn is_zero(self, behind: &[Cell], x: u64) -> bool {
        let last = behind[behind.len() - 1].ticks;
        match self {
            Tolerance::Normal => 8 * x.abs_diff(last) <= last,
            Tolerance::Worn => 6 * x.abs_diff(last) <= last,
            Tolerance::Rough => (3 * latest_four(behind)..=5 * latest_four(behind)).contains(&(16 * x)),
        }
    }

    fn is_half(self, behind: &[Cell], x: u64) -> bool {
        let last = behind[behind.len() - 1].ticks;
        match self {
            Tolerance::Normal => (3 * last..=5 * last).contains(&(8 * x)),
            Tolerance::Worn => 8 * x >= 3 * last && 3 * x <= 2 * last,
            Tolerance::Rough => (3 * latest_four(behind)..=7 * latest_four(behind)).contains(&(40 * x)),
        }
    }

    fn is_one(self, behind: &[Cell], x: u64, y: u64) -> bool {
        let last = behind[behind.len() - 1].ticks;
        let (sum, apart) = (x + y, x.abs_diff(y));
        match self {
            Tolerance::Normal => 8 * sum.abs_diff(last) <= last && 16 * apart <= sum,
            Tolerance::Worn => 6 * sum.abs_diff(last) <= last && 12 * apart <= sum,
            Tolerance::Rough => {
                let four = latest_four(behind);
                self.is_half(behind, x) && self.is_half(behind, y) && (3 * four..=5 * four).contains(&(16 * sum))
            }
        }
    }
}

/// The sum of the latest four cells. The first counts for those that are not there.
fn latest_four(cells: &[Cell]) -> u64 {
    (0..4).map(|back| cells[cells.len().saturating_sub(1 + back)].ticks).sum()
}

/// What intervals give: the events in order, and the tick up to which all events are given.
pub struct Told {
    pub events: Vec<Event>,
    pub until: u64,
}

/// The events of intervals. Words without what they are asked for are refused as `alone`; if the file does not
/// end, a word that still waits for it is left out, with all that comes behind it.
pub fn events(tolerance: Tolerance, system: u64, intervals: &[u64], asked: Asked, is_ended: bool) -> Told {
    let mut told: Vec<Event> = Vec::new();
    let mut stretches: Vec<Vec<Cell>> = Vec::new();
    let (mut open, mut half, mut before, mut tick) = (false, None, None, 0);
    for (place, &x) in intervals.iter().enumerate() {
        tick += x;
        if !open {
            let Some(other) = before.replace(x) else { continue };
            if !tolerance.is_unequal(other, x) {
                continue;
            }
            stretches.push(vec![Cell { bit: false, ticks: other.max(x) }]);
            open = true;
            half = None;
            if x > other {
                continue;
            }
        }
        let at = stretches.len() - 1;
        let cells = &mut stretches[at];
        let cell = match half.take() {
            None if tolerance.is_zero(cells, x) => Some(Cell { bit: false, ticks: x }),
            None if tolerance.is_half(cells, x) => {
                half = Some(x);
                continue;
            }
            Some(first) if tolerance.is_one(cells, first, x) => Some(Cell { bit: true, ticks: first + x }),
            _ => None,
        };
        match cell {
            Some(cell) => {
                cells.push(cell);
                tell_window(system, cells, at, tick, &mut told);
            }
            None => {
                told.push(Event::Lost { interval: place, tick });
                (open, before) = (false, Some(x));
            }
        }
    }
    let waits = open && !is_ended;
    let told = Told { events: told, until: tick };
    if asked == Asked::Nothing {
        return told;
    }
    if asked == Asked::Counted {
        return counted(told, is_ended);
    }
    let (mut judged, mut until) = judge(told, &stretches, waits);
    if asked == Asked::WitnessOrNext {
        join(&mut judged);
        if !is_ended && judged.last().is_some_and(Judged::waits_for_the_next) {
            until = judged.pop().expect("it is the last").tick();
        }
    }
    Told { events: judged.into_iter().map(Judged::told).collect(), until }
}

/// Tells what the last 80 cells of a stretch say.
fn tell_window(system: u64, cells: &[Cell], stretch: usize, tick: u64, told: &mut Vec<Event>) {
    let Some(first) = cells.len().checked_sub(80) else { return };
    let window = &cells[first..];
    let bits: Vec<u8> = window.iter().map(|cell| cell.bit as u8).collect();
    let turned: Vec<u8> = bits.iter().rev().copied().collect();
    let ticks = window.iter().map(|cell| cell.ticks).sum();
    for (way, bits) in [(Way::Forward, &bits), (Way::Backward, &turned)] {
        if bits[64..] != SYNC {
            continue;
        }
        told.push(match fields(system, bits) {
            Err(name) => Event::Refused { way, name, tick },
            Ok((label, user, flags)) => Event::Word(Word {
                way,
                label,
                user,
                flags,
                is_balanced: bits.iter().filter(|bit| **bit == 0).count() % 2 == 0,
                tick,
                ticks,
                stretch,
                first,
            }),
        });
    }
}

/// The label, the user bits and the flags of a word, or the name of the first fault of its fields.
fn fields(system: u64, bits: &[u8]) -> Result<(Label, u32, [bool; 5]), &'static str> {
    let label = LTC.label(system, bits)?;
    let groups = if system == 25 { [27, 58, 43] } else { [43, 58, 59] };
    let flag = |place: usize| bits[place] == 1;
    let flags = [flag(10), flag(11), flag(groups[0]), flag(groups[1]), flag(groups[2])];
    Ok((label, LTC.user(bits), flags))
}

/// An event, and whether it is a word without what it is asked for.
struct Judged {
    event: Event,
    is_alone: bool,
}

impl Judged {
    fn word(&self) -> Option<&Word> {
        if let Event::Word(word) = &self.event { Some(word) } else { None }
    }

    fn tick(&self) -> u64 {
        match &self.event {
            Event::Word(word) => word.tick,
            Event::Refused { tick, .. } | Event::Lost { tick, .. } => *tick,
        }
    }

    fn waits_for_the_next(&self) -> bool {
        self.is_alone && self.word().is_some_and(|word| word.way == Way::Forward)
    }

    fn told(self) -> Event {
        match self.event {
            Event::Word(word) if self.is_alone => Event::Refused { way: word.way, name: "alone", tick: word.tick },
            event => event,
        }
    }
}

/// Looks for the witness of each word, and gives up to which tick that is decided. If the last stretch may go on, a
/// backward word that has fewer than 16 cells behind it still waits, and so does all that was given behind it.
fn judge(told: Told, stretches: &[Vec<Cell>], may_go_on: bool) -> (Vec<Judged>, u64) {
    let mut judged = Vec::new();
    for event in told.events {
        let Event::Word(word) = event else {
            judged.push(Judged { event, is_alone: false });
            continue;
        };
        let cells = &stretches[word.stretch];
        let bit = |place: usize| cells[place].bit as u8;
        let is_alone = match word.way {
            Way::Forward => word.first >= 16 && (0..16).any(|k| bit(word.first - 16 + k) != SYNC[k]),
            Way::Backward => {
                let behind = word.first + 80;
                let is_there = cells.len() >= behind + 16;
                if !is_there && may_go_on && word.stretch + 1 == stretches.len() {
                    return (judged, word.tick);
                }
                is_there && (0..16).any(|k| bit(behind + k) != SYNC[15 - k])
            }
        };
        judged.push(Judged { event: Event::Word(word), is_alone });
    }
    (judged, told.until)
}

/// A word counts if it counts on from the latest word before it, or if the very next event is a word that counts on
/// from it. Of a file that does not end a word that waits for the next event is left out.
fn counted(told: Told, is_ended: bool) -> Told {
    let words: Vec<Option<Word>> = told.events.iter().map(|event| match event {
        Event::Word(word) => Some(word.clone()),
        _ => None,
    }).collect();
    let (mut events, mut until, mut before) = (Vec::new(), told.until, None);
    let last = told.events.len();
    for (place, event) in told.events.into_iter().enumerate() {
        let Some(word) = &words[place] else {
            events.push(event);
            continue;
        };
        let is_behind = before.is_some_and(|other| counts_on(other, word));
        before = Some(word);
        if !is_behind && !is_ended && place + 1 == last {
            until = word.tick;
            break;
        }
        let next = words.get(place + 1).and_then(Option::as_ref);
        let is_counted = is_behind || next.is_some_and(|next| counts_on(word, next));
        events.push(Judged { event, is_alone: !is_counted }.told());
    }
    Told { events, until }
}

/// The second word is a frame or two behind the first, by its label and to within three tenths of a frame.
fn counts_on(first: &Word, second: &Word) -> bool {
    let (both, apart) = (first.ticks + second.ticks, second.tick - first.tick);
    (1..=2).any(|frames: u64| {
        let steps = if first.way == Way::Forward { frames as i64 } else { -(frames as i64) };
        let day = first.label.count.day() as i64;
        let label = Label::at(first.label.count, ((first.label.number() as i64 + steps + day) % day) as _);
        second.way == first.way && second.label == label && (20 * apart).abs_diff(10 * frames * both) <= 3 * both
    })
}

/// A word that is alone counts if the word that follows it on the tape is beside it among the events.
fn join(judged: &mut [Judged]) {
    let joined: Vec<bool> = (0..judged.len()).map(|place| is_joined(judged, place)).collect();
    for (it, is_joined) in judged.iter_mut().zip(joined) {
        it.is_alone &= !is_joined;
    }
}

fn is_joined(judged: &[Judged], place: usize) -> bool {
    let Some(word) = judged[place].word() else { return false };
    let beside = match word.way {
        Way::Forward => judged.get(place + 1),
        Way::Backward => place.checked_sub(1).map(|before| &judged[before]),
    };
    let Some(other) = beside.and_then(Judged::word) else { return false };
    let (first, second) = if word.way == Way::Forward { (word, other) } else { (other, word) };
    let next = Label::at(word.label.count, (word.label.number() + 1) % word.label.count.day());
    other.way == word.way && second.tick - second.ticks == first.tick && other.label == next
}

/// The report of `ltc-read` and its like: the lines of the events, and the last line if the file ended well.
pub fn report(rate: u64, system: u64, events: &[Event], intervals: &[u64], is_done: bool) -> String {
    let (mut text, mut counts) = (String::new(), [0u64; 3]);
    for event in events {
        match event {
            Event::Word(word) => {
                counts[0] += 1;
                let flags: String = word.flags.iter().map(|flag| if *flag { '1' } else { '0' }).collect();
                let speed = 1000 * rate as u128 / (system as u128 * word.ticks as u128);
                text += &format!(
                    "word {} {} user {:08x} flags {flags} balance {} tick {} length {} speed {speed}\n",
                    word.way.name(),
                    word.label.text(),
                    word.user,
                    word.is_balanced as u8,
                    word.tick,
                    word.ticks
                );
            }
            Event::Refused { way, name, tick } => {
                counts[1] += 1;
                text += &format!("refused {} {name} tick {tick}\n", way.name());
            }
            Event::Lost { interval, tick } => {
                counts[2] += 1;
                text += &format!("lost interval {interval} tick {tick}\n");
            }
        }
    }
    if is_done {
        let ticks: u64 = intervals.iter().sum();
        let [words, refused, lost] = counts;
        let count = intervals.len();
        text += &format!("end intervals {count} words {words} refused {refused} lost {lost} ticks {ticks}\n");
    }
    text
}
