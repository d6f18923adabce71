//! `labels`: a text of lines that say labels, and what is printed of each; and a text with labels in some columns.
use crate::labels::{Count, Label, Part};
use crate::run::{End, Run};
use std::ops::Range;

/// A count, and whether its frames run at 1000/1001 of their rate.
#[derive(Clone, Copy)]
pub struct Base {
    pub count: Count,
    pub is_pulled: bool,
}

/// Some columns of each line, counted from 1, and whether commas part them.
pub struct Columns {
    pub are_csv: bool,
    pub first: usize,
    pub last: usize,
}

/// What is printed of a label.
pub enum Printed {
    Number,
    Text,
    Step(i64),
    Since(Label),
    Seconds,
    Length,
    Under(Base),
    Sum,
}

impl Base {
    /// How many frames pass, and in how many seconds.
    fn rate(self) -> (u128, u128) {
        let frames = self.count.rate() as u128;
        match self.is_pulled || self.count == Count::Drop {
            true => (1_000 * frames, 1_001),
            false => (frames, 1),
        }
    }

    /// The label that begins `frames` frames after midnight, around the day.
    fn label(self, frames: u128) -> Label {
        Label::at(self.count, (frames % self.count.day() as u128) as u64)
    }

    fn label_of_the_day(self, frames: u128) -> Option<Label> {
        (frames < self.count.day() as u128).then(|| self.label(frames))
    }
}

/// The whole number nearest to a fraction, and the greater one of two.
fn nearest(over: u128, under: u128) -> u128 {
    let is_nearer_above = 2 * (over % under) >= under;
    over / under + is_nearer_above as u128
}

fn digits(bytes: &[u8]) -> Option<u128> {
    let are_digits = !bytes.is_empty() && bytes.iter().all(u8::is_ascii_digit);
    are_digits.then(|| bytes.iter().fold(0, |value, digit| 10 * value + (digit - b'0') as u128))
}

/// The milliseconds of one to five digits, a point and three digits.
fn milliseconds(line: &[u8]) -> Option<u128> {
    let point = line.iter().position(|byte| *byte == b'.')?;
    let (whole, behind) = (digits(&line[..point])?, digits(&line[point + 1..])?);
    (point <= 5 && line.len() == point + 4).then_some(1_000 * whole + behind)
}

/// How many bytes of a line fit a form, in which a 0 is any digit.
fn fitting(form: &str, line: &[u8]) -> usize {
    let fits = |(place, byte): &(u8, &u8)| if *place == b'0' { byte.is_ascii_digit() } else { place == *byte };
    form.bytes().zip(line).take_while(fits).count()
}

fn label_form(count: Count) -> &'static str {
    if count == Count::Drop { "00:00:00;00" } else { "00:00:00:00" }
}

/// The column of the part that no label of the count has.
fn wrong_part(count: Count, line: &[u8]) -> usize {
    let two = |at: usize| digits(&line[at..at + 2]).expect("these are digits") as u64;
    let label = Label { count, hours: two(0), minutes: two(3), seconds: two(6), frames: two(9) };
    match label.wrong().expect("it is no label") {
        Part::Hours => 1,
        Part::Minutes => 4,
        Part::Seconds => 7,
        Part::Frames | Part::Dropped => 10,
    }
}

/// The label that a line says, or the first column that does not fit.
fn said(base: Base, line: &[u8]) -> Result<Label, usize> {
    if let Some(number) = digits(line).filter(|_| line.len() <= 7) {
        return base.label_of_the_day(number).ok_or(1);
    }
    if let Some(milliseconds) = milliseconds(line) {
        let (frames, seconds) = base.rate();
        return base.label_of_the_day(nearest(milliseconds * frames, 1_000 * seconds)).ok_or(1);
    }
    if let Some(label) = std::str::from_utf8(line).ok().and_then(|text| Label::read(base.count, text)) {
        return Ok(label);
    }
    if line.len() == 11 && fitting(label_form(base.count), line) == 11 {
        return Err(wrong_part(base.count, line));
    }
    let forms = [label_form(base.count), "0000000", "0.000", "00.000", "000.000", "0000.000", "00000.000"];
    Err(1 + forms.into_iter().map(|form| fitting(form, line)).max().expect("there are forms"))
}

fn printed(base: Base, what: &Printed, label: Label) -> String {
    let (frames, seconds) = base.rate();
    let number = label.number();
    match what {
        Printed::Number => number.to_string(),
        Printed::Text => label.text(),
        Printed::Step(by) => label.step(*by).text(),
        Printed::Since(from) => {
            let day = label.count.day() as i64;
            let ahead = (number as i64 - from.number() as i64).rem_euclid(day);
            format!("{} {ahead}", if 2 * ahead > day { ahead - day } else { ahead })
        }
        Printed::Seconds => {
            let milliseconds = nearest(1_000 * number as u128 * seconds, frames);
            format!("{}.{:03}", milliseconds / 1_000, milliseconds % 1_000)
        }
        Printed::Length | Printed::Sum => unreachable!("these are of two labels, and of all"),
        Printed::Under(other) => {
            let (there, apart) = other.rate();
            let (over, under) = (number as u128 * seconds * there, frames * apart);
            format!("{} {}", other.label(over / under).text(), 1_000 * over / under - 1_000 * (over / under))
        }
    }
}

/// The labels that the lines of a text say, in order, up to the first that says none, and where that one is.
fn labels_of(base: Base, input: &[u8]) -> (Vec<Label>, End) {
    let mut labels = Vec::new();
    let ended = input.strip_suffix(b"\n").unwrap_or(input);
    let lines = ended.split(|byte| *byte == b'\n').take(if input.is_empty() { 0 } else { usize::MAX });
    for (place, line) in lines.enumerate() {
        match said(base, line) {
            Ok(label) => labels.push(label),
            Err(column) => return (labels, End::Refused(format!("line {} column {column}", place + 1))),
        }
    }
    (labels, End::Done)
}

/// A line for each line of a text, up to the first that says no label.
pub fn along_text(base: Base, what: &Printed, input: &[u8]) -> Run {
    let (labels, end) = labels_of(base, input);
    Run::text(labels.into_iter().map(|label| printed(base, what, label) + "\n").collect(), end)
}

/// One line behind a text whose lines all say labels: how many frames these are together, hour by hour.
pub fn added(base: Base, input: &[u8]) -> Run {
    let (labels, end) = labels_of(base, input);
    if !matches!(end, End::Done) {
        return Run::text(String::new(), end);
    }
    let frames: u64 = labels.iter().map(Label::number).sum();
    // Each hour has as many labels as the next, in drop-frame counting too: 54 of its minutes drop two.
    let an_hour = base.count.day() / 24;
    let behind = Label::at(base.count, frames % an_hour).text();
    Run::text(format!("{frames} {}{}\n", frames / an_hour, &behind[2..]), End::Done)
}

fn is_blank(byte: &u8) -> bool {
    *byte == b' ' || *byte == b'\t'
}

/// Where the columns of a line are that no blank is in.
fn between_blanks(line: &[u8]) -> Vec<Range<usize>> {
    let is_in = |at: usize| line.get(at).is_some_and(|byte| !is_blank(byte));
    let firsts = (0..line.len()).filter(|at| is_in(*at) && (*at == 0 || !is_in(at - 1)));
    let ends = (1..=line.len()).filter(|end| is_in(end - 1) && !is_in(*end));
    firsts.zip(ends).map(|(first, end)| first..end).collect()
}

/// Where those are that are parted by a comma, or by a semicolon where no label has one; blanks at both ends are outside.
fn between_commas(line: &[u8], count: Count) -> Vec<Range<usize>> {
    let parts = |byte: &u8| *byte == b',' || *byte == b';' && count != Count::Drop;
    let mut at = 0;
    let mut found = Vec::new();
    for whole in line.split(parts) {
        let front = whole.iter().take_while(|byte| is_blank(byte)).count();
        let back = whole.iter().rev().take_while(|byte| is_blank(byte)).count();
        found.push(at + front..at + front.max(whole.len() - back));
        at += whole.len() + 1;
    }
    found
}

/// Where the columns of a line without its newline are, in order.
fn columns_of(base: Base, columns: &Columns, line: &[u8]) -> Vec<Range<usize>> {
    let fields = line.strip_suffix(b"\r").unwrap_or(line);
    if columns.are_csv { between_commas(fields, base.count) } else { between_blanks(fields) }
}

/// The label that some bytes are the text of.
fn text_of_label(base: Base, bytes: &[u8]) -> Option<Label> {
    std::str::from_utf8(bytes).ok().and_then(|text| Label::read(base.count, text))
}

/// A line without its newline, with what is printed of each label in these columns in its place.
fn in_columns(base: Base, what: &Printed, columns: &Columns, line: &[u8]) -> Vec<u8> {
    let all = columns_of(base, columns, line);
    let mut line = line.to_vec();
    for range in all.into_iter().take(columns.last).skip(columns.first - 1).rev() {
        if let Some(label) = text_of_label(base, &line[range.clone()]) {
            line.splice(range, printed(base, what, label).into_bytes());
        }
    }
    line
}

/// A line without its newline, with the length from the label in the first column in the place of the one in the last, or
/// in the next one where one column is named. Without both labels it stays.
fn with_length(base: Base, columns: &Columns, line: &[u8]) -> Vec<u8> {
    let all = columns_of(base, columns, line);
    let second = if columns.last > columns.first { columns.last } else { columns.first + 1 };
    let mut written = line.to_vec();
    if let (Some(from), Some(to)) = (all.get(columns.first - 1), all.get(second - 1)) {
        let labels = (text_of_label(base, &line[from.clone()]), text_of_label(base, &line[to.clone()]));
        if let (Some(from), Some(till)) = labels {
            let day = base.count.day();
            let frames = (till.number() + day - from.number()) % day;
            written.splice(to.clone(), format!("{} {frames}", Label::at(base.count, frames).text()).into_bytes());
        }
    }
    written
}

/// A text, line by line, with the lengths between two columns, or what is printed of each label in them. A line of more
/// than 4,096 bytes passes.
pub fn along_columns(base: Base, what: &Printed, columns: &Columns, input: &[u8]) -> Run {
    let lines = input.split(|byte| *byte == b'\n').map(|line| match (line.len() > 4_096, what) {
        (true, _) => line.to_vec(),
        (false, Printed::Length) => with_length(base, columns, line),
        (false, _) => in_columns(base, what, columns, line),
    });
    Run { output: lines.collect::<Vec<_>>().join(&b'\n'), end: End::Done }
}
