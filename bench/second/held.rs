//! Runs of a program that is held in memory before its own code begins. Each run is a child of it at this place, so it
//! costs no loading. The runner is bench/guide/runs.c, which says what it is asked and what it tells.
use crate::Given;
use crate::cases::Case;
use std::io::{Error, Read, Result, Write};
use std::path::Path;
use std::process::{Child, Command, Stdio};

/// As many words as a run may have; they stand in memory where its own will.
const MOST_WORDS: usize = 60;
/// The most bytes that a run may write, and the seconds that it may take.
const MOST_OUTPUT: u32 = 1 << 30;
const MOST_SECONDS: u32 = 60;
/// How the runner spells that reads give pieces, and that a run has ended by itself.
const IN_PIECES: u32 = 1;
const EXITED: u32 = 0;

pub struct Held {
    program: Child,
}

impl Held {
    /// Holds the program. Files of the runner lie in the room.
    pub fn begin(program: &Path, runner: &Path, room: &Path) -> Result<Held> {
        // (there are no blocks to look at, and so nothing to map)
        let (blocks, reached) = (room.join("blocks"), room.join("reached"));
        std::fs::write(&blocks, "")?;
        std::fs::write(&reached, [0])?;
        let asked = format!("{} {} {MOST_OUTPUT} {MOST_SECONDS} 0 1", blocks.display(), reached.display());
        let program = Command::new(program)
            .args(["-"; MOST_WORDS])
            .env("LD_PRELOAD", runner)
            .env("GUIDED", asked)
            .stdin(Stdio::piped())
            .stdout(Stdio::piped())
            .spawn()?;
        Ok(Held { program })
    }

    /// Runs a case; its reads give all that they can, or pieces drawn by a number.
    pub fn run(&mut self, case: &Case, pieces: Option<u32>) -> Result<Given> {
        let fault = if pieces.is_some() { IN_PIECES } else { 0 };
        let mut question = Vec::with_capacity(case.input.len() + 400);
        for number in [0, fault, pieces.unwrap_or(0), case.words.len() as u32] {
            question.extend(number.to_le_bytes());
        }
        for part in case.words.iter().map(|word| word.as_bytes()).chain([&case.input[..]]) {
            question.extend((part.len() as u32).to_le_bytes());
            question.extend(part);
        }
        self.program.stdin.as_mut().ok_or(Error::other("no pipe"))?.write_all(&question)?;
        let (how, code) = (self.number()?, self.number()?);
        let (_is_faulted, _new) = (self.number()?, self.number()?);
        let (output, note) = (self.bytes()?, self.bytes()?);
        Ok(Given { output, note, status: (how == EXITED).then_some(code as i32) })
    }

    fn get(&mut self, room: &mut [u8]) -> Result<()> {
        self.program.stdout.as_mut().ok_or(Error::other("no pipe"))?.read_exact(room)
    }

    fn number(&mut self) -> Result<u32> {
        let mut bytes = [0; 4];
        self.get(&mut bytes)?;
        Ok(u32::from_le_bytes(bytes))
    }

    fn bytes(&mut self) -> Result<Vec<u8>> {
        let mut bytes = vec![0; self.number()? as usize];
        self.get(&mut bytes)?;
        Ok(bytes)
    }
}

impl Drop for Held {
    fn drop(&mut self) {
        // (an error would say that it has ended)
        let _ = self.program.kill();
        let _ = self.program.wait();
    }
}
