//! Cases of `path`: words, and sound of a tape with noise, hum, silence, clicks and cuts.
use crate::cases::{Case, Form, system, tape_bits, wave_of};
use crate::draws::Draws;
use crate::labels::COUNTS;

/// A case of `pcm-ltc .. path`, or of `wav-ltc .. path`.
pub fn case(d: &mut Draws) -> Case {
    let system = system(d);
    let rate = d.pick(&[48_000, 48_000, 44_100, 96_000, 192_000, 8_000, 4_200, 3_000_000]);
    let least = d.pick(&[1, 50, 250, 250, 3_000]).to_string();
    let samples = samples(system.parse().expect("it is a number"), rate, d);
    let mut words: Vec<String> = Vec::new();
    let is_file = d.one_in(3);
    if is_file {
        words.extend(["wav-ltc", system, d.pick(&["1", "1", "1", "2"]), &least].map(String::from));
    } else {
        let fineness = d.pick(&[16, 16, 16, 8, 1, 3, 64]).to_string();
        words.extend(["pcm-ltc", system, &rate.to_string(), &least, &fineness].map(String::from));
    }
    words.push("path".into());
    if d.one_in(20) {
        words.push(d.pick(&["live", "path", "1", ""]).into());
    }
    let input = match is_file {
        true => wave_of(&Form::drawn(d), &samples, Some(rate as u32), d),
        false => samples.iter().flat_map(|s| (*s as i16).to_le_bytes()).collect(),
    };
    Case { words, input }
}

/// Sound of a tape near play speed, of up to 12,000 samples.
fn samples(system: u64, rate: u64, d: &mut Draws) -> Vec<i64> {
    let bits = tape_bits(d.pick(&COUNTS), d.from_to(1, 9), d);
    let play = rate as f64 / (80 * system) as f64;
    let mut cell = play * d.pick(&[1.0, 1.0, 1.0, 0.5, 0.8, 1.3, 2.0]);
    let level = d.pick(&[300i64, 4_000, 12_000, 32_000]);
    let noise = level * d.pick(&[0, 10, 50, 100, 150, 200]) / 100;
    let (soft, hum) = (d.pick(&[1, 1, 2, 4]), level * d.pick(&[0, 0, 50, 200]) / 100);
    let (mut side, mut now, mut made, mut end) = (1i64, 0i64, vec![0; d.pick(&[0, 0, 700])], 0.0);
    for bit in bits {
        cell *= 1.0 + (d.below(5) as f64 - 2.0) / 1_000.0;
        for half in 0..if bit { 2 } else { 1 } {
            side = if half == 0 || bit { -side } else { side };
            end += if bit { cell / 2.0 } else { cell };
            while (made.len() as f64) < end && made.len() < 12_000 {
                now += (side * level - now) / soft;
                let dirt: i64 = (0..3).map(|_| d.below(2 * noise as u64 / 3 + 1) as i64 - noise / 3).sum();
                let slow = hum * ((made.len() as i64 / 480) % 3 - 1);
                made.push((now + dirt + slow).clamp(-32_768, 32_767));
            }
        }
    }
    for _ in 0..d.pick(&[0, 0, 3]) {
        let place = d.below(made.len().max(1) as u64) as usize;
        if let Some(click) = made.get_mut(place) {
            *click = d.pick(&[-32_768, 32_767]);
        }
    }
    for _ in 0..d.pick(&[0, 0, 4]) {
        let first = d.below(made.len() as u64 + 1) as usize;
        let behind = made.len().min(first + 1 + d.below(800) as usize);
        made.drain(first..behind);
    }
    made
}
