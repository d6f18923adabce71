//! The words of a command line, and what the run of them is to end with.
use crate::cells::{Asked, Told, Tolerance, events, report};
use crate::frames::{Frame, frames, jam, lines, midi, spans};
use crate::intervals::{File, MOST_RATE, convert, read};
use crate::labels::{Count, Label, Way};
use crate::lines::{Base, Columns, Printed, added, along_columns, along_text};
use crate::luma::{self, Raster};
use crate::made::{Striping, load, stripe};
use crate::run::{End, Run};
use crate::sound::{Slicing, Threshold, make, slice, slice_track};
use crate::{chase, midi as mtc, path, vitc};

/// The words of a tolerance behind a command along frames.
#[derive(Clone, Copy)]
struct Hearing {
    tolerance: Tolerance,
    asked: Asked,
}

const PLAIN: Hearing = Hearing { tolerance: Tolerance::Normal, asked: Asked::Nothing };

/// Words taken in order, each by its value; the first that has none is the fault.
struct Words<'a> {
    words: &'a [String],
    at: usize,
}

type Read<T> = Result<T, String>;

impl<'a> Words<'a> {
    /// Between `least` and `most` words behind the command.
    fn of(words: &'a [String], least: usize, most: usize) -> Read<Words<'a>> {
        match (least..=most).contains(&(words.len() - 1)) {
            true => Ok(Words { words, at: 0 }),
            false => Err("count of words".into()),
        }
    }

    fn value<T>(&mut self, value: impl Fn(&str) -> Option<T>) -> Read<T> {
        self.at += 1;
        value(&self.words[self.at]).ok_or_else(|| format!("value of word {}", self.at))
    }

    /// The next word, if there is one.
    fn next(&self) -> Option<&'a str> {
        self.words.get(self.at + 1).map(|word| &word[..])
    }


    /// A word more has no value: it is not the `live` that may come there.
    fn none_left(&mut self) -> Read<()> {
        if self.next().is_some() { self.value(|_| None) } else { Ok(()) }
    }

    /// One to twenty digits, from one number to another.
    fn number(&mut self, least: u64, most: u64) -> Read<u64> {
        self.value(|word| number(word).filter(|n| (least..=most).contains(n)))
    }

    /// How many labels, or the label with this number.
    fn distance(&mut self, count: Count) -> Read<i64> {
        self.value(|word| match number(word).filter(|n| *n <= 4_294_967_295) {
            Some(steps) => Some(steps as i64),
            None => Label::read(count, word).map(|label| label.number() as i64),
        })
    }

    /// `N` or `N-M`, from 1 to 4,096.
    fn columns(&mut self) -> Read<Columns> {
        self.value(|word| {
            let (first, last) = word.split_once('-').unwrap_or((word, word));
            let (first, last) = (number(first)? as usize, number(last)? as usize);
            let is_one = 1 <= first && first <= last && last <= 4_096;
            is_one.then_some(Columns { are_csv: false, first, last })
        })
    }

    fn count(&mut self) -> Read<Count> {
        self.value(Count::named)
    }

    fn label(&mut self, count: Count) -> Read<Label> {
        self.value(|word| Label::read(count, word))
    }

    fn system(&mut self) -> Read<u64> {
        self.value(|word| ["24", "25", "30"].contains(&word).then(|| word.parse().expect("it is a number")))
    }

    /// `worn`, `rough` or nothing at the end, and what words are asked for behind one of them.
    fn hearing(&mut self) -> Read<Hearing> {
        if self.next().is_none() {
            return Ok(PLAIN);
        }
        let tolerance = self.value(|word| match word {
            "worn" => Some(Tolerance::Worn),
            "rough" => Some(Tolerance::Rough),
            _ => None,
        })?;
        Ok(Hearing { tolerance, asked: self.asked()? })
    }

    /// `firm`, `consecutive`, `counted` or nothing at the end.
    fn asked(&mut self) -> Read<Asked> {
        if self.next().is_some() { self.value(Asked::named) } else { Ok(Asked::Nothing) }
    }
}

fn number(word: &str) -> Option<u64> {
    let is_one = (1..=20).contains(&word.len()) && word.bytes().all(|b| b.is_ascii_digit());
    is_one.then(|| word.parse::<u128>().ok()).flatten().and_then(|n| u64::try_from(n).ok())
}

/// What a run of these words (behind `tc`) on this input is to end with.
pub fn run(words: &[String], input: &[u8]) -> Run {
    let fault = |text: &str| Run::usage(text.to_string());
    if let Some(place) = words.iter().position(|word| word.starts_with('-')) {
        return fault(&format!("dash in word {place}"));
    }
    let Some(command) = words.first() else { return fault("command") };
    let ran = match &command[..] {
        "ltc-read" => Words::of(words, 0, 0).map(|_| read_with(PLAIN, input)),
        "ltc-worn" => Words::of(words, 0, 0).map(|_| read_with(Hearing { tolerance: Tolerance::Worn, ..PLAIN }, input)),
        "ltc-rough" => rough(words, input),
        "ltc-fly" | "ltc-spans" | "ltc-mtc" => along(words, input),
        "ltc-jam" => copy(words, input),
        "ltc-chase" => follow(words, input),
        "ltc-make" => recording(words),
        "ltc-convert" => converted(words, input),
        "ltc-load" => loaded(words),
        "ltc-pcm" => sound(words, input),
        "pcm-ltc" => sliced(words, input),
        "wav-ltc" => track(words, input),
        "mtc-read" => Words::of(words, 0, 0).map(|_| mtc::read(input)),
        "vitc-read" => Words::of(words, 0, 0).map(|_| vitc::read(input)),
        "vitc-make" => line_file(words),
        "luma-vitc" => pixels(words, input),
        "chase" => script(words, input),
        "number" => numbered(words),
        "label" => labelled(words),
        "labels" => answered(words, input),
        "version" => Words::of(words, 0, 0).map(|_| Run::text("tc 1.2.0\n".into(), End::Done)),
        // (what `help` prints is no rule of a format: no case has its words)
        "help" => asked_of_help(words),
        _ => return fault("command"),
    };
    ran.unwrap_or_else(Run::usage)
}

/// The words that have a page of their own.
const PAGES: [&str; 25] = [
    "ltc-read", "ltc-worn", "ltc-rough", "ltc-fly", "ltc-spans", "ltc-mtc", "ltc-jam", "ltc-chase", "ltc-make",
    "ltc-convert", "ltc-load", "ltc-pcm", "pcm-ltc", "wav-ltc", "mtc-read", "vitc-read", "vitc-make", "luma-vitc",
    "chase", "number", "label", "labels", "help", "version", "statuses",
];

fn asked_of_help(words: &[String]) -> Read<Run> {
    let mut w = Words::of(words, 0, 1)?;
    if w.next().is_some() {
        w.value(|word| PAGES.contains(&word).then_some(()))?;
    }
    Ok(Run::text(String::new(), End::Done))
}

/// Whether a page is printed by these words.
pub fn is_page(words: &[String]) -> bool {
    words.first().is_some_and(|word| word == "help") && asked_of_help(words).is_ok()
}

/// What is heard of a recording.
fn heard(hearing: Hearing, file: &File) -> Told {
    let system = file.header.map_or(25, |header| header.system);
    events(hearing.tolerance, system, &file.intervals, hearing.asked, file.end == End::Done)
}

fn read_with(hearing: Hearing, input: &[u8]) -> Run {
    let file = read(input);
    let Some(header) = file.header else { return Run::text(String::new(), file.end) };
    let events = heard(hearing, &file).events;
    let is_done = file.end == End::Done;
    Run::text(report(header.rate, header.system, &events, &file.intervals, is_done), file.end)
}

fn rough(words: &[String], input: &[u8]) -> Read<Run> {
    let mut w = Words::of(words, 0, 1)?;
    Ok(read_with(Hearing { tolerance: Tolerance::Rough, asked: w.asked()? }, input))
}

fn frames_of(limit: u64, hearing: Hearing, file: &File) -> Vec<Frame> {
    let told = heard(hearing, file);
    frames(limit, &told.events, told.until)
}

fn along(words: &[String], input: &[u8]) -> Read<Run> {
    let mut w = Words::of(words, 1, 3)?;
    let (limit, hearing) = (w.number(0, 255)?, w.hearing()?);
    let file = read(input);
    let Some(header) = file.header else { return Ok(Run::text(String::new(), file.end)) };
    let frames = frames_of(limit, hearing, &file);
    let is_done = file.end == End::Done;
    let output = match &words[0][..] {
        "ltc-fly" => lines(&frames, &file.intervals, is_done).into_bytes(),
        "ltc-spans" => spans(&frames, header.rate, header.system, &file.intervals, is_done).into_bytes(),
        _ => midi(&frames),
    };
    Ok(Run { output, end: file.end })
}

fn copy(words: &[String], input: &[u8]) -> Read<Run> {
    let mut w = Words::of(words, 3, 5)?;
    let (limit, cell, rate) = (w.number(0, 255)?, w.number(16, 8_388_607)?, w.number(1, MOST_RATE)?);
    let hearing = w.hearing()?;
    let file = read(input);
    let output = file.header.map_or(Vec::new(), |header| jam(&frames_of(limit, hearing, &file), header.system, cell, rate));
    Ok(Run { output, end: file.end })
}

fn follow(words: &[String], input: &[u8]) -> Read<Run> {
    let mut w = Words::of(words, 5, 7)?;
    let count = w.count()?;
    let label = w.label(count)?;
    let (limit, seed, bound) = (w.number(0, 255)?, w.number(0, u64::MAX)?, w.number(0, 1_000)?);
    let hearing = w.hearing()?;
    let file = read(input);
    if file.header.is_none() {
        return Ok(Run::text(String::new(), file.end));
    }
    let frames = frames_of(limit, hearing, &file);
    Ok(Run::text(chase::along_frames(label, seed, bound, &frames, file.end == End::Done), file.end))
}

fn recording(words: &[String]) -> Read<Run> {
    if words.len() == 8 {
        return Err("count of words".into());
    }
    let mut w = Words::of(words, 6, 8)?;
    let count = w.count()?;
    let way = w.value(|word| [Way::Forward, Way::Backward].into_iter().find(|way| way.name() == word))?;
    let label = w.label(count)?;
    let (frames, cell, rate) = (w.number(1, 1_000_000)?, w.number(16, 8_388_607)?, w.number(1, MOST_RATE)?);
    let (mut to_cell, mut step) = (cell, 0);
    if w.next().is_some() {
        to_cell = w.number(16, 8_388_607)?;
        step = w.number(0, to_cell.min(cell) / 8)?;
    }
    let output = stripe(&Striping { way, label, frames, cell, rate, to_cell, step });
    Ok(Run { output, end: End::Done })
}

fn converted(words: &[String], input: &[u8]) -> Read<Run> {
    let version = Words::of(words, 1, 1)?.value(|word| match word {
        "1" => Some(1),
        "2" => Some(2),
        _ => None,
    })?;
    let (output, end) = convert(version, input);
    Ok(Run { output, end })
}

fn loaded(words: &[String]) -> Read<Run> {
    let mut w = Words::of(words, 2, 2)?;
    let (seed, count) = (w.number(0, u64::MAX)?, w.number(1, 100_000)?);
    Ok(Run::text(load(seed, count), End::Done))
}

fn sound(words: &[String], input: &[u8]) -> Read<Run> {
    let level = Words::of(words, 1, 1)?.number(1, 32_767)?;
    let file = read(input);
    Ok(Run { output: make(level as i16, &file), end: file.end })
}

/// Takes `live` off the end, behind the command and its three values.
fn without_live(words: &[String]) -> (&[String], bool) {
    match words.split_last() {
        Some((last, front)) if last == "live" && front.len() > 3 => (front, true),
        _ => (words, false),
    }
}

fn sliced(words: &[String], input: &[u8]) -> Read<Run> {
    let (words, is_live) = without_live(words);
    let mut w = Words::of(words, 3, if is_live { 6 } else { 7 })?;
    if words.get(5).is_some_and(|word| word == "path") {
        return path_of_samples(w, is_live, input);
    }
    let (system, rate, least) = (w.system()?, w.number(1, MOST_RATE)?, w.number(1, 32_767)?);
    let (mut fineness, mut threshold, mut smooth) = (1, Threshold::Fixed, 1);
    if w.next().is_some() {
        fineness = w.number(1, 64.min(MOST_RATE / rate))?;
    }
    if w.next().is_some() {
        threshold = w.value(|word| match word {
            "follow" => Some(Threshold::Follow),
            "deep" => Some(Threshold::Deep),
            _ => None,
        })?;
    }
    if w.next().is_some() {
        smooth = w.number(1, 16)? as usize;
    }
    w.none_left()?;
    Ok(slice(&Slicing { system, rate, least, fineness, threshold, smooth, is_live, is_path: false }, input))
}

/// The best path through samples: behind `path` no word has a value, not `live` either.
fn path_of_samples(mut w: Words, is_live: bool, input: &[u8]) -> Read<Run> {
    let system = w.system()?;
    let on_a_grid = |word: &str| number(word).filter(|rate| (1..=MOST_RATE).contains(rate) && path::grid(system, *rate).is_some());
    let rate = w.value(on_a_grid)?;
    let least = w.number(1, 32_767)?;
    let grid = path::grid(system, rate).expect("the rate has one");
    let most = 64.min(MOST_RATE / rate);
    let fineness = w.value(|word| number(word).filter(|n| (1..=most).contains(n) && grid.ticks(*n).is_some()))?;
    w.at += 1;
    nothing_behind(w, is_live)?;
    Ok(slice(&best_path(system, rate, least, fineness), input))
}

fn best_path(system: u64, rate: u64, least: u64, fineness: u64) -> Slicing {
    Slicing { system, rate, least, fineness, threshold: Threshold::Follow, smooth: 1, is_live: false, is_path: true }
}

fn nothing_behind(mut w: Words, is_live: bool) -> Read<()> {
    w.none_left()?;
    if is_live { Err(format!("value of word {}", w.at + 1)) } else { Ok(()) }
}

fn track(words: &[String], input: &[u8]) -> Read<Run> {
    let (words, is_live) = without_live(words);
    let mut w = Words::of(words, 3, if is_live { 5 } else { 6 })?;
    let (system, track, least) = (w.system()?, w.number(1, 64)?, w.number(1, 32_767)?);
    if w.next() == Some("path") {
        w.at += 1;
        nothing_behind(w, is_live)?;
        return Ok(slice_track(&best_path(system, 1, least, 16), track as usize, input));
    }
    let (mut threshold, mut smooth) = (Threshold::Follow, 1);
    if w.next().is_some() {
        smooth = w.number(1, 16)? as usize;
    }
    if w.next().is_some() {
        threshold = w.value(|word| (word == "deep").then_some(Threshold::Deep))?;
    }
    w.none_left()?;
    let slicing = Slicing { system, rate: 1, least, fineness: 16, threshold, smooth, is_live, is_path: false };
    Ok(slice_track(&slicing, track as usize, input))
}

fn line_file(words: &[String]) -> Read<Run> {
    let mut w = Words::of(words, 4, 4)?;
    let count = w.value(|word| Count::named(word).filter(|count| *count != Count::Of24))?;
    let label = w.label(count)?;
    let (frames, length) = (w.number(1, 1_000_000)?, w.number(460, 65_535)?);
    Ok(Run { output: vitc::make(&label, frames, length), end: End::Done })
}

fn pixels(words: &[String], input: &[u8]) -> Read<Run> {
    let mut w = Words::of(words, 5, 5)?;
    let system = w.value(|word| ["25", "30"].contains(&word).then(|| word.parse().expect("it is a number")))?;
    let (width, height) = (w.number(360, 4_096)? as usize, w.number(1, 4_096)? as usize);
    let first = w.number(0, height as u64 - 1)? as usize;
    let rows = w.number(1, 40.min(height - first) as u64)? as usize;
    Ok(luma::read(&Raster { system, width, height, first, rows }, input))
}

fn script(words: &[String], input: &[u8]) -> Read<Run> {
    let mut w = Words::of(words, 2, 2)?;
    let count = w.count()?;
    Ok(chase::along_script(w.label(count)?, input))
}

fn numbered(words: &[String]) -> Read<Run> {
    let mut w = Words::of(words, 2, 2)?;
    let count = w.count()?;
    let label = w.label(count)?;
    Ok(Run::text(format!("{}\n", label.number()), End::Done))
}

fn labelled(words: &[String]) -> Read<Run> {
    let mut w = Words::of(words, 2, 2)?;
    let count = w.count()?;
    let number = w.number(0, count.day() - 1)?;
    Ok(Run::text(format!("{}\n", Label::at(count, number).text()), End::Done))
}

/// `ntsc` behind a count of 24 or 30.
fn may_be_pulled(count: Count) -> bool {
    count == Count::Of24 || count == Count::Of30
}

fn answered(words: &[String], input: &[u8]) -> Read<Run> {
    let is_pulled = words.get(2).is_some_and(|word| word == "ntsc");
    let behind = if is_pulled { 3 } else { 2 };
    let is_parted = words.get(behind).is_some_and(|word| word == "column" || word == "csv");
    let place = if is_parted { behind + 2 } else { behind };
    let way = words.get(place).ok_or("count of words")?;
    let values = words.len() - place - 1;
    let is_so_long = match &way[..] {
        "number" | "label" | "seconds" | "length" => values == 0,
        "sum" if !is_parted => values == 0,
        "plus" | "minus" | "since" => values == 1,
        "to" => values == 1 || values == 2,
        _ => values <= 2,
    };
    if !is_so_long {
        return Err("count of words".into());
    }
    let mut w = Words { words, at: 0 };
    let count = w.count()?;
    if is_pulled {
        w.value(|_| may_be_pulled(count).then_some(()))?;
    }
    let base = Base { count, is_pulled };
    let columns = match is_parted {
        true => Some(Columns { are_csv: w.value(|word| Some(word == "csv"))?, ..w.columns()? }),
        false => None,
    };
    let way = w.value(|word| Some(word.to_string()))?;
    let what = match &way[..] {
        "number" => Printed::Number,
        "label" => Printed::Text,
        "seconds" => Printed::Seconds,
        "length" => Printed::Length,
        "sum" if !is_parted => Printed::Sum,
        "plus" => Printed::Step(w.distance(count)?),
        "minus" => Printed::Step(-w.distance(count)?),
        "since" => Printed::Since(w.label(count)?),
        "to" => {
            let count = w.count()?;
            let is_pulled = w.next().is_some();
            if is_pulled {
                w.value(|word| (word == "ntsc" && may_be_pulled(count)).then_some(()))?;
            }
            Printed::Under(Base { count, is_pulled })
        }
        _ => return Err(format!("value of word {place}")),
    };
    let two = Columns { are_csv: false, first: 1, last: 2 };
    Ok(match columns.or(matches!(what, Printed::Length).then_some(two)) {
        Some(columns) => along_columns(base, &what, &columns, input),
        None if matches!(what, Printed::Sum) => added(base, input),
        None => along_text(base, &what, input),
    })
}
