//! Cases of `luma-vitc`: fields of pixels, some of whose rows are drawn with words.
use crate::cases::{Case, label};
use crate::draws::Draws;
use crate::labels::COUNTS;
use crate::vitc::line_bits;

/// A case: the words of a raster, nearly always good ones, and fields of it.
pub fn case(d: &mut Draws) -> Case {
    let width = match d.below(4) {
        0 => d.pick(&[360, 720]),
        1 => d.from_to(360, 420),
        _ => d.from_to(360, 800),
    };
    let height = d.from_to(1, 7);
    let first = d.below(height);
    let rows = d.from_to(1, height - first);
    let mut words = vec!["luma-vitc".to_string(), d.pick(&["25", "30"]).to_string()];
    words.extend([width, height, first, rows].map(|n| n.to_string()));
    if d.one_in(30) {
        let place = d.from_to(2, 5) as usize;
        words[place] = d.pick(&[0, 1, 39, 40, 41, 359, 4_096, 4_097]).to_string();
    }
    let mut input = Vec::new();
    for _ in 0..d.below(4) {
        field(width as usize, height, d, &mut input);
    }
    Case { words, input }
}

/// The bits of a line: a word's, now and then any with sync pairs, or any at all.
fn bits(d: &mut Draws) -> [u8; 90] {
    let count = d.pick(&COUNTS[1..]);
    let mut bits = line_bits(&label(count, d), d.below(2) as u8, user_bits(d));
    match d.below(12) {
        0 => bits.iter_mut().for_each(|bit| *bit = d.below(2) as u8),
        1 | 2 => {
            for place in 0..90 {
                bits[place] = if place % 10 < 2 { 1 - (place % 10) as u8 } else { d.below(2) as u8 };
            }
        }
        3 => bits[d.below(90) as usize] ^= 1,
        _ => {}
    }
    bits
}

/// User bits by chance; one time in three they bring a 1 and a 0 again in each ten bits.
fn user_bits(d: &mut Draws) -> u32 {
    let any = d.next() as u32;
    match d.below(9) {
        0 => any & 0xcccc_cccc | 0x1111_1111,
        1 => any & 0x9999_9999 | 0x2222_2222,
        2 => any & 0x3333_3333 | 0x4444_4444,
        _ => any,
    }
}

/// How a word is drawn: where it begins, how wide its cells are, in 1,000ths of a pixel, and its levels.
#[derive(Clone, Copy)]
struct Drawing {
    begin: i64,
    cell: i64,
    dark: i64,
    swing: i64,
    noise: u64,
    slope: i64,
}

impl Drawing {
    fn drawn(width: i64, d: &mut Draws) -> Drawing {
        let cell = 1_000 * width / 96;
        let cell = match d.below(5) {
            0 => cell * 94 / 100 + d.below(cell as u64 * 12 / 100) as i64,
            1 => 1_000 * (width / 96),
            _ => cell * 97 / 100 + d.below(cell as u64 * 6 / 100) as i64,
        };
        let room = (1_000 * width - 90 * cell).max(1) + 4_000;
        let swing = d.pick(&[6, 8, 12, 40, 100, 184, 255]);
        Drawing {
            begin: d.below(room as u64) as i64,
            cell,
            dark: d.below((256 - swing) as u64) as i64,
            swing,
            noise: d.pick(&[0, 0, 1, 6, 24, 60]),
            slope: d.pick(&[0, 0, 0, 40, -100]),
        }
    }

    /// The light of a pixel, the mean of what it covers.
    fn pixel(&self, bits: &[u8; 90], width: i64, x: i64) -> i64 {
        let (mut covered, from, to) = (0, 1_000 * x, 1_000 * x + 1_000);
        for (place, bit) in bits.iter().enumerate() {
            let begin = self.begin + self.cell * place as i64;
            covered += *bit as i64 * ((begin + self.cell).min(to) - begin.max(from)).max(0);
        }
        self.dark + self.swing * covered / 1_000 + self.slope * x / width
    }
}

fn gray(light: i64) -> u8 {
    light.clamp(0, 255) as u8
}

/// A value near 0: the sum of three draws.
fn dirt(noise: u64, d: &mut Draws) -> i64 {
    (0..3).map(|_| d.below(2 * noise + 1) as i64 - noise as i64).sum::<i64>() / 2
}

/// The rows of a field: one drawing, which moves from row to row, and now and then another one or none.
fn field(width: usize, height: u64, d: &mut Draws, input: &mut Vec<u8>) {
    let (mut word, mut drawing) = (bits(d), Drawing::drawn(width as i64, d));
    for _ in 0..height {
        match d.below(8) {
            0 => (word, drawing) = (bits(d), Drawing::drawn(width as i64, d)),
            1 => drawing.begin += d.below(1_000) as i64 - 500,
            2 => drawing.begin += d.below(12_000) as i64 - 6_000,
            _ => {}
        }
        input.extend(if d.one_in(6) { other_row(width, d) } else { row(&word, &drawing, width, d) });
    }
}

/// A row of a drawing, with noise, and now and then a fleck.
fn row(word: &[u8; 90], drawing: &Drawing, width: usize, d: &mut Draws) -> Vec<u8> {
    let wide = width as i64;
    let mut row: Vec<u8> =
        (0..wide).map(|x| gray(drawing.pixel(word, wide, x) + dirt(drawing.noise, d))).collect();
    if d.one_in(5) {
        let (at, light) = (d.below(width as u64) as usize, d.pick(&[0, 255]));
        let end = (at + d.from_to(1, 40) as usize).min(width);
        row[at..end].fill(light);
    }
    row
}

/// A row without a word.
fn other_row(width: usize, d: &mut Draws) -> Vec<u8> {
    let (dark, period) = (d.below(200) as u8, d.from_to(1, 20) as usize);
    match d.below(5) {
        0 => vec![dark; width],
        1 => (0..width).map(|_| d.next() as u8).collect(),
        2 => (0..width).map(|x| (255 * x / width) as u8).collect(),
        3 => (0..width).map(|x| if x / period % 2 == 0 { dark } else { 255 }).collect(),
        _ => (0..width).map(|x| dark + (x % 8) as u8).collect(),
    }
}
