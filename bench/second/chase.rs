//! The chase: its law, its script, and its way along a recording.
use crate::frames::Frame;
use crate::labels::{Count, Label, Way};
use crate::run::{End, Run};

#[derive(Clone, Copy, PartialEq, Eq)]
enum State {
    Waiting,
    Locating,
    Pulling,
    Locked,
}

pub enum Command {
    None,
    Play,
    Wait,
    Locate(Label),
}

/// A chase, with its position in subframes of the day.
pub struct Chase {
    count: Count,
    state: State,
    wanted: Label,
    position: i64,
    steps: u64,
    losses: u64,
    pub text: String,
}

fn hold(e: i64, most: i64) -> i64 {
    e.clamp(-most, most)
}

impl Chase {
    pub fn new(label: Label) -> Chase {
        Chase {
            count: label.count,
            state: State::Waiting,
            wanted: label,
            position: 80 * label.number() as i64,
            steps: 0,
            losses: 0,
            text: String::new(),
        }
    }

    fn day(&self) -> i64 {
        80 * self.count.day() as i64
    }

    /// The shortest way from the position to the first subframe of a label, forward at half a day.
    fn error(&self, label: &Label) -> i64 {
        let up = (80 * label.number() as i64 - self.position).rem_euclid(self.day());
        if 2 * up <= self.day() { up } else { up - self.day() }
    }

    pub fn step(&mut self, command: Command, master: Option<(Label, Way)>, slip: i64) {
        match command {
            Command::None => {}
            Command::Wait => self.state = State::Waiting,
            Command::Locate(label) => (self.state, self.wanted) = (State::Locating, label),
            Command::Play if matches!(self.state, State::Waiting | State::Locating) => self.state = State::Pulling,
            Command::Play => {}
        }
        let (error, order, loss, state) = self.law(master);
        self.state = state;
        self.steps += 1;
        self.losses += (loss != "none") as u64;
        self.position = (self.position + order + slip).rem_euclid(self.day());
        let at = Label::at(self.count, (self.position / 80) as u64);
        let name = match state {
            State::Waiting => "waiting",
            State::Locating => "locating",
            State::Pulling => "pulling",
            State::Locked => "locked",
        };
        let (step, place) = (self.steps, self.position % 80);
        self.text += &format!(
            "step {step} {name} error {error} order {order} loss {loss} at {}+{place:02}\n",
            at.text()
        );
    }

    /// The error, the order, the loss and the state after the step.
    fn law(&self, master: Option<(Label, Way)>) -> (i64, i64, &'static str, State) {
        match (self.state, master) {
            (State::Waiting, _) => (0, 0, "none", State::Waiting),
            (State::Locating, _) => {
                let e = self.error(&self.wanted);
                match e.abs() <= 40 {
                    true => (e, 0, "none", State::Waiting),
                    false => (e, hold(e, 2560), "none", State::Locating),
                }
            }
            (State::Pulling, None) => (0, 0, "none", State::Pulling),
            (State::Locked, None) => (0, 0, "no-code", State::Pulling),
            (state, Some((label, way))) => {
                let (e, m) = (self.error(&label), way.steps(80));
                let loss = if state == State::Locked { "window" } else { "none" };
                match e.abs() <= 40 {
                    true => (e, m + hold(e, 24), "none", State::Locked),
                    false => (e, m + hold(e, 1280), loss, State::Pulling),
                }
            }
        }
    }

    pub fn last_line(&self) -> String {
        format!("end steps {} losses {}\n", self.steps, self.losses)
    }
}

/// The records of a text of comma-separated values, by RFC 4180.
fn records(text: &[u8]) -> Vec<Vec<Vec<u8>>> {
    let text = text.strip_prefix(b"\xef\xbb\xbf").unwrap_or(text);
    let (mut records, mut record, mut field) = (Vec::new(), Vec::new(), Vec::new());
    let (mut is_quoted, mut was_quoted, mut at) = (false, false, 0);
    while at < text.len() {
        let byte = text[at];
        at += 1;
        if is_quoted {
            match byte {
                b'"' if text.get(at) == Some(&b'"') => {
                    field.push(b'"');
                    at += 1;
                }
                b'"' => is_quoted = false,
                _ => field.push(byte),
            }
            continue;
        }
        match byte {
            b'"' if field.is_empty() && !was_quoted => (is_quoted, was_quoted) = (true, true),
            b',' => {
                record.push(std::mem::take(&mut field));
                was_quoted = false;
            }
            b'\r' | b'\n' => {
                if !(record.is_empty() && field.is_empty() && !was_quoted) {
                    record.push(std::mem::take(&mut field));
                    records.push(std::mem::take(&mut record));
                }
                was_quoted = false;
            }
            _ => field.push(byte),
        }
    }
    if !(record.is_empty() && field.is_empty() && !was_quoted) {
        record.push(field);
        records.push(record);
    }
    records
}

/// A row of a script: its command, its master and its slip, or the first column that is refused.
fn row(count: Count, record: &[Vec<u8>]) -> Result<(Command, Option<(Label, Way)>, i64), usize> {
    let [first, second, third, fourth, fifth] = record else { return Err(0) };
    let text = |bytes: &[u8]| String::from_utf8(bytes.to_vec()).ok();
    let label = |bytes: &[u8]| text(bytes).and_then(|t| Label::read(count, &t));
    let is_locate = first == b"locate";
    let mut command = match &first[..] {
        b"" => Command::None,
        b"play" => Command::Play,
        b"wait" => Command::Wait,
        b"locate" => Command::None,
        _ => return Err(1),
    };
    if is_locate {
        command = Command::Locate(label(second).ok_or(2usize)?);
    } else if !second.is_empty() {
        return Err(2);
    }
    let read = if third.is_empty() { None } else { Some(label(third).ok_or(3usize)?) };
    let master = match (read, &fourth[..]) {
        (None, b"") => None,
        (Some(label), b"forward") => Some((label, Way::Forward)),
        (Some(label), b"backward") => Some((label, Way::Backward)),
        _ => return Err(4),
    };
    Ok((command, master, slip(fifth).ok_or(5usize)?))
}

/// Empty for 0, or one to seven digits up to 1,000,000, after a `-` if it falls back.
fn slip(bytes: &[u8]) -> Option<i64> {
    if bytes.is_empty() {
        return Some(0);
    }
    let (sign, digits) = match bytes.strip_prefix(b"-") {
        Some(digits) => (-1, digits),
        None => (1, bytes),
    };
    if digits.is_empty() || digits.len() > 7 || !digits.iter().all(u8::is_ascii_digit) {
        return None;
    }
    let n = digits.iter().fold(0i64, |n, d| 10 * n + (d - b'0') as i64);
    (n <= 1_000_000).then_some(sign * n)
}

/// `chase` along a script.
pub fn along_script(label: Label, script: &[u8]) -> Run {
    if script.len() > 1_048_576 {
        return Run::text(String::new(), End::Limit);
    }
    let mut chase = Chase::new(label);
    for (place, record) in records(script).iter().enumerate() {
        match row(label.count, record) {
            Ok((command, master, slip)) => chase.step(command, master, slip),
            Err(column) => {
                let fault = format!("row {} column {column}", place + 1);
                return Run::text(String::new(), End::Refused(fault));
            }
        }
    }
    let text = chase.text.clone() + &chase.last_line();
    Run::text(text, End::Done)
}

/// `ltc-chase` along frames.
pub fn along_frames(label: Label, seed: u64, bound: u64, frames: &[Frame], is_done: bool) -> String {
    let (mut chase, mut state) = (Chase::new(label), seed);
    for (place, frame) in frames.iter().enumerate() {
        state = state.wrapping_mul(6_364_136_223_846_793_005).wrapping_add(1_442_695_040_888_963_407);
        let slip = ((state >> 33) % (2 * bound + 1)) as i64 - bound as i64;
        let master = match frame {
            Frame::Heard { word, .. } => Some((word.label, word.way)),
            Frame::Invented { label, way, .. } => Some((*label, *way)),
            Frame::Gone { .. } => None,
        };
        let master = master.filter(|(read, _)| read.count == label.count);
        let command = if place == 0 { Command::Play } else { Command::None };
        chase.step(command, master, slip);
    }
    let last = if is_done { chase.last_line() } else { String::new() };
    chase.text + &last
}
