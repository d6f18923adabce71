//! Makes cases at random, reads each by a second reading of the formats, and compares what `tc` says of it.
//!
//! The second reading is written from docs/reference/formats.md alone, and shares no code with the program.
mod cases;
mod cells;
mod chase;
mod draws;
mod fields;
mod frames;
mod held;
mod intervals;
mod labels;
mod lines;
mod luma;
mod made;
mod midi;
mod noisy;
mod path;
mod pictures;
mod run;
mod served;
mod sound;
mod vitc;
mod words;

use cases::{Case, KINDS, case, kind};
use draws::Draws;
use held::Held;
use run::Run;
use std::fs::File;
use std::io::{Read, Write};
use std::path::{Path, PathBuf};
use std::process::{Command, Stdio};
use std::sync::Mutex;
use std::sync::atomic::{AtomicU64, Ordering};
use std::time::{Duration, Instant};

struct Asked {
    program: PathBuf,
    room: PathBuf,
    count: u64,
    first: u64,
    seed: u64,
    jobs: u64,
    /// Which of the numbers are run.
    kinds: Kinds,
    /// What holds the program in memory, or none: then it is loaded for each case.
    runner: Option<PathBuf>,
}

/// All numbers, or those of one kind alone, or all but those.
enum Kinds {
    All,
    Only(&'static str),
    Without(&'static str),
}

impl Kinds {
    /// `all`, `only-KIND` or `without-KIND`.
    fn read(word: &str) -> Option<Kinds> {
        let named = |name: &str| KINDS.iter().map(|kind| kind.1).find(|kind| *kind == name);
        match word.split_once('-') {
            None => (word == "all").then_some(Kinds::All),
            Some(("only", name)) => named(name).map(Kinds::Only),
            Some(("without", name)) => named(name).map(Kinds::Without),
            Some(_) => None,
        }
    }

    fn has(&self, number: u64) -> bool {
        match self {
            Kinds::All => true,
            Kinds::Only(name) => kind(number) == Some(name),
            Kinds::Without(name) => kind(number) != Some(name),
        }
    }
}

const USAGE: &str =
    "cases PROGRAM ROOM COUNT FIRST SEED JOBS KINDS [RUNNER], cases told WORDS.. < INPUT, or cases served";

fn asked() -> Option<Asked> {
    let words: Vec<String> = std::env::args().skip(1).collect();
    let [program, room, count, first, seed, jobs, kinds, runner @ ..] = &words[..] else { return None };
    if runner.len() > 1 {
        return None;
    }
    Some(Asked {
        program: program.into(),
        room: room.into(),
        count: count.parse().ok()?,
        first: first.parse().ok()?,
        seed: seed.parse().ok()?,
        jobs: jobs.parse().ok().filter(|jobs| *jobs > 0)?,
        kinds: Kinds::read(kinds)?,
        runner: runner.first().map(PathBuf::from),
    })
}

/// What a run of the program gave.
struct Given {
    output: Vec<u8>,
    note: Vec<u8>,
    status: Option<i32>,
}

/// Loads the program and runs it on a case: on a file, or now and then through a pipe in pieces of any length.
fn given(asked: &Asked, room: &Path, case: &Case, pieces: Option<&mut Draws>) -> std::io::Result<Given> {
    let (input, output, note) = (room.join("in"), room.join("out"), room.join("note"));
    let mut command = Command::new(&asked.program);
    command.args(&case.words).stdout(File::create(&output)?).stderr(File::create(&note)?);
    let status = match pieces {
        None => {
            std::fs::write(&input, &case.input)?;
            command.stdin(File::open(&input)?).status()?
        }
        Some(draws) => {
            let mut child = command.stdin(Stdio::piped()).spawn()?;
            let mut pipe = child.stdin.take().expect("it was asked for");
            let mut rest = &case.input[..];
            while !rest.is_empty() {
                let most = draws.of_any_size(12) as usize + 1;
                let (piece, more) = rest.split_at(most.min(rest.len()));
                // (a run that was refused reads no further)
                if pipe.write_all(piece).is_err() {
                    break;
                }
                rest = more;
            }
            drop(pipe);
            child.wait()?
        }
    };
    Ok(Given { output: std::fs::read(&output)?, note: std::fs::read(&note)?, status: status.code() })
}

/// What differs, in a few words.
fn difference(wanted: &Run, given: &Given) -> Option<String> {
    if given.status != Some(wanted.end.status()) {
        return Some(format!("status {:?}, wanted {}", given.status, wanted.end.status()));
    }
    if given.note != wanted.end.note().as_bytes() {
        let note = String::from_utf8_lossy(&given.note);
        return Some(format!("note {:?}, wanted {:?}", note, wanted.end.note()));
    }
    if given.output != wanted.output {
        let at = given.output.iter().zip(&wanted.output).take_while(|(a, b)| a == b).count();
        let line = |bytes: &[u8]| {
            let from = bytes[..at].iter().rposition(|b| *b == b'\n').map_or(0, |p| p + 1);
            let text: Vec<u8> = bytes[from..].iter().take(100).take_while(|b| **b != b'\n').copied().collect();
            String::from_utf8_lossy(&text).into_owned()
        };
        let (here, there) = (line(&given.output), line(&wanted.output));
        return Some(format!("output at byte {at}: {here:?}, wanted {there:?}"));
    }
    None
}

/// Works cases until none is left.
fn work(asked: &Asked, lane: u64, next: &AtomicU64, differ: &Mutex<Vec<u64>>) -> std::io::Result<()> {
    let room = asked.room.join(lane.to_string());
    std::fs::create_dir_all(&room)?;
    let mut held = asked.runner.as_ref().map(|runner| Held::begin(&asked.program, runner, &room)).transpose()?;
    loop {
        let number = next.fetch_add(1, Ordering::Relaxed);
        if number >= asked.first + asked.count {
            return Ok(());
        }
        if !asked.kinds.has(number) {
            continue;
        }
        let case = case(asked.seed, number);
        let wanted = words::run(&case.words, &case.input);
        let mut pieces = Draws::of(asked.seed ^ 1, number);
        let is_pieced = pieces.one_in(8);
        let given = match &mut held {
            Some(held) => held.run(&case, is_pieced.then(|| pieces.next() as u32))?,
            None => given(asked, &room, &case, is_pieced.then_some(&mut pieces))?,
        };
        if let Some(what) = difference(&wanted, &given) {
            let mut differ = differ.lock().expect("no lane panics with the list");
            differ.push(number);
            if differ.len() <= 20 {
                eprintln!("case {number}, seed {}: tc {}: {what}", asked.seed, case.words.join(" "));
                std::fs::write(asked.room.join(format!("case{number}")), &case.input)?;
            }
        }
    }
}

/// What a run of these words on the standard input is to write, with its note and status.
fn told(words: &[String]) -> std::io::Result<i32> {
    let mut input = Vec::new();
    std::io::stdin().read_to_end(&mut input)?;
    let wanted = words::run(words, &input);
    std::io::stdout().write_all(&wanted.output)?;
    eprint!("{}", wanted.end.note());
    Ok(wanted.end.status())
}

fn main() {
    let words: Vec<String> = std::env::args().skip(1).collect();
    if let [first, words @ ..] = &words[..] {
        if first == "told" {
            std::process::exit(told(words).unwrap_or(1));
        }
        if first == "served" && words.is_empty() {
            std::process::exit(served::serve().is_err() as i32);
        }
    }
    let Some(asked) = asked() else {
        eprintln!("usage: {USAGE}");
        std::process::exit(2);
    };
    let (next, differ, began) = (AtomicU64::new(asked.first), Mutex::new(Vec::new()), Instant::now());
    std::thread::scope(|scope| {
        for lane in 0..asked.jobs {
            let (asked, next, differ) = (&asked, &next, &differ);
            scope.spawn(move || {
                if let Err(why) = work(asked, lane, next, differ) {
                    eprintln!("lane {lane} stopped: {why}");
                    differ.lock().expect("no lane panics with the list").push(u64::MAX);
                }
            });
        }
    });
    let (differ, took) = (differ.into_inner().expect("all lanes ended"), began.elapsed());
    let count = (asked.first..asked.first + asked.count).filter(|number| asked.kinds.has(*number)).count();
    let each = took.max(Duration::from_millis(1)).as_secs_f64() / count.max(1) as f64;
    println!(
        "{count} cases from {}, seed {}: {} differ; {:.1} s, {:.0} us a case",
        asked.first,
        asked.seed,
        differ.len(),
        took.as_secs_f64(),
        each * 1e6
    );
    std::process::exit(!differ.is_empty() as i32);
}
