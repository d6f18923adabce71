//! `cargo run --example words < tape.s16`: the labels of raw samples of 16 bits, at 25 frames a second.
use std::io::{self, Read};
use tc_sys::{tc_settings, Reader, TC_WORD};

fn main() -> io::Result<()> {
    let settings = tc_settings { system: 25, tolerance: 2, follows: 1, threshold: 250, fineness: 16, smooth: 1, pace: 0 };
    let mut reader = Reader::new(&settings).expect("settings that are taken");
    let mut bytes = Vec::new();
    io::stdin().lock().read_to_end(&mut bytes)?;
    let samples: Vec<i16> = bytes.chunks_exact(2).map(|pair| i16::from_le_bytes([pair[0], pair[1]])).collect();
    for event in reader.write(&samples).1.iter().filter(|event| event.kind == TC_WORD) {
        println!("{:02}:{:02}:{:02}:{:02}", event.hours, event.minutes, event.seconds, event.frames);
    }
    Ok(())
}
