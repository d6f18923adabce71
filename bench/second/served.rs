//! Answers one question after another, for bench/guided: what a run is to end with, and what the words and the input of
//! a case are. Numbers have 32 bits, those of a seed and of a case 64, the least significant byte first.
use crate::cases::case;
use crate::words;
use std::io::{Read, Result, Write, stdin, stdout};
use std::panic::catch_unwind;

/// What is asked for.
const TOLD: u32 = 0;

/// The status that says that the reading itself failed.
const FAILED: u32 = 255;

fn number(from: &mut impl Read) -> Result<u32> {
    let mut bytes = [0; 4];
    from.read_exact(&mut bytes)?;
    Ok(u32::from_le_bytes(bytes))
}

fn long_number(from: &mut impl Read) -> Result<u64> {
    let (low, high) = (number(from)?, number(from)?);
    Ok(u64::from(low) | u64::from(high) << 32)
}

fn bytes(from: &mut impl Read) -> Result<Vec<u8>> {
    let mut bytes = vec![0; number(from)? as usize];
    from.read_exact(&mut bytes)?;
    Ok(bytes)
}

fn put(bytes: &[u8], to: &mut impl Write) -> Result<()> {
    to.write_all(&(bytes.len() as u32).to_le_bytes())?;
    to.write_all(bytes)
}

/// A case: its words, their count first, and its input.
fn put_case(seed: u64, number: u64, to: &mut impl Write) -> Result<()> {
    let case = case(seed, number);
    to.write_all(&(case.words.len() as u32).to_le_bytes())?;
    for word in &case.words {
        put(word.as_bytes(), to)?;
    }
    put(&case.input, to)
}

/// A run: its status, its output (of a long one the first `most` bytes) and its note.
fn put_run(words: &[String], input: &[u8], most: usize, to: &mut impl Write) -> Result<()> {
    let (status, output, note) = match catch_unwind(|| words::run(words, input)) {
        Ok(run) => (run.end.status() as u32, run.output, run.end.note()),
        Err(_) => (FAILED, Vec::new(), String::new()),
    };
    to.write_all(&status.to_le_bytes())?;
    put(&output[..output.len().min(most)], to)?;
    put(note.as_bytes(), to)
}

/// Answers until nothing more is asked.
pub fn serve() -> Result<()> {
    let (mut from, mut to) = (stdin().lock(), std::io::BufWriter::new(stdout().lock()));
    while let Ok(asked) = number(&mut from) {
        if asked == TOLD {
            let (most, count) = (number(&mut from)? as usize, number(&mut from)?);
            let words = (0..count).map(|_| Ok(String::from_utf8_lossy(&bytes(&mut from)?).into_owned()));
            let words = words.collect::<Result<Vec<String>>>()?;
            put_run(&words, &bytes(&mut from)?, most, &mut to)?;
        } else {
            put_case(long_number(&mut from)?, long_number(&mut from)?, &mut to)?;
        }
        to.flush()?;
    }
    Ok(())
}
