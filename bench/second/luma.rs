//! `luma-vitc`: the code in rows of gray pixels, as lines of a line file.
use crate::run::{End, Run};
use crate::vitc::{file_header, spell_line};

/// How fields lie in bytes, and which of their rows are looked at.
pub struct Raster {
    pub system: u64,
    pub width: usize,
    pub height: usize,
    pub first: usize,
    pub rows: usize,
}

/// Where the 1 of the first sync pair ends, and that of the ninth, in sixteenths of a pixel.
#[derive(Clone, Copy, PartialEq)]
struct Place {
    u: i64,
    v: i64,
}

/// What the cells of a row say: the swing of its sync pairs, and how high each bit is above the threshold.
#[derive(Clone)]
struct Levels {
    swing: i64,
    heights: Vec<i64>,
}

/// A row that carries code.
struct Found {
    row: usize,
    place: Place,
    levels: Levels,
}

/// A row, with the light up to each sixteenth of a pixel.
struct Row {
    light: Vec<i64>,
    width: i64,
    darkest: i64,
}

impl Row {
    fn of(pixels: &[u8]) -> Row {
        let mut light = vec![0];
        for pixel in pixels {
            for _ in 0..16 {
                light.push(light[light.len() - 1] + *pixel as i64);
            }
        }
        let darkest = pixels.iter().min().map_or(0, |pixel| *pixel as i64);
        Row { light, width: pixels.len() as i64, darkest }
    }

    /// The light up to a place: behind the row nothing more comes.
    fn up_to(&self, place: i64) -> i64 {
        self.light[(place.max(0) as usize).min(self.light.len() - 1)]
    }

    fn fall(&self, at: i64, from: i64, to: i64) -> i64 {
        2 * self.up_to(at) - self.up_to(from) - self.up_to(to)
    }

    fn ten_cells(&self) -> i64 {
        5 * self.width / 3
    }

    fn grain(&self) -> i64 {
        16 * self.width / 720
    }

    fn end(&self) -> i64 {
        16 * self.width + 4 * self.grain()
    }

    /// The place whose pairs stand at falling edges, if each of them swings.
    fn sharp(&self, pixels: &[u8], lightest: i64) -> Option<Place> {
        let light = |at: usize| 2 * pixels[at] as i64 >= self.darkest + lightest;
        let edge = |from: usize| (from.max(1)..pixels.len()).find(|at| light(at - 1) && !light(*at));
        let first = edge(0)?;
        let last = (1..9).try_fold(first, |at, _| edge(at + 3 * pixels.len() / 32))?;
        let place = Place { u: 16 * first as i64, v: 16 * last as i64 };
        let (apart, tens) = (place.v - place.u, 8 * self.ten_cells());
        let is_in_reach = 95 * tens / 100 - 2 * self.grain() <= apart && apart <= 105 * tens / 100 + 2 * self.grain();
        let cells = self.cells(place);
        let swings = |pair: usize| 512 * (cells[10 * pair] - cells[10 * pair + 1]).max(0) >= 3 * apart * (lightest - self.darkest);
        (is_in_reach && (0..9).all(swings)).then_some(place)
    }

    /// The place of a word that is sought, if anything falls.
    fn sought(&self) -> Option<Place> {
        Some(self.earliest(self.fine(self.coarse()?)))
    }

    /// The best place at whole pixels, if anything falls there.
    fn coarse(&self) -> Option<Place> {
        let (ten, grain) = (self.ten_cells(), self.grain());
        let mut best: Option<(i64, Place)> = None;
        let mut apart = 95 * (8 * ten) / 100;
        while apart <= 105 * (8 * ten) / 100 {
            let mut u = 95 * ten / 1_000;
            while u + 89 * apart / 80 <= self.end() {
                let sum = (0..9).map(|j| self.fall_at((u + 8) / 16 + (apart * j / 8 + 8) / 16)).sum();
                if best.is_none_or(|(most, _)| sum > most) {
                    best = Some((sum, Place { u, v: u + apart }));
                }
                u += grain;
            }
            apart += 2 * grain;
        }
        best.filter(|(sum, _)| *sum > 0).map(|(_, place)| place)
    }

    fn fall_at(&self, pixel: i64) -> i64 {
        let reach = self.ten_cells() / 10;
        self.fall(16 * pixel, 16 * pixel - reach, 16 * pixel + reach)
    }

    fn pair(&self, place: Place, j: i64) -> i64 {
        self.fall(place.at(80 * j + 8), place.at(80 * j), place.at(80 * j + 16))
    }

    fn sum(&self, place: Place) -> i64 {
        (0..9).map(|j| self.pair(place, j)).sum()
    }

    fn fits(&self, place: Place) -> bool {
        let apart = place.v - place.u;
        apart > 0 && apart <= 80 * place.u && place.u + 89 * apart / 80 <= self.end()
    }

    /// The best of a place and the eight around it; of equal ones the first.
    fn best_around(&self, place: Place, step: i64) -> Place {
        let moves = [0, -step, step];
        let around = moves.iter().flat_map(|du| moves.map(|dv| Place { u: place.u + du, v: place.v + dv }));
        let mut best = (self.sum(place), place);
        for other in around.filter(|other| self.fits(*other)) {
            let sum = self.sum(other);
            if sum > best.0 {
                best = (sum, other);
            }
        }
        best.1
    }

    fn fine(&self, mut place: Place) -> Place {
        let mut step = 2 * self.grain();
        for _ in 0..8 {
            for _ in 0..6 {
                place = self.best_around(place, step);
            }
            step /= 2;
        }
        place
    }

    /// The earliest place from eight cells before this one to eight behind it at which each pair falls half as much as
    /// the nine pairs do here in the mean; or this one.
    fn earliest(&self, place: Place) -> Place {
        let (nine, apart) = (self.sum(place).max(0), place.v - place.u);
        let earlier = |cells: i64| {
            let less = cells * apart / 80 - apart / 10;
            Place { u: (place.u - less).max(0), v: place.v - less }
        };
        let all_fall = |other: &Place| (0..9).all(|j| 18 * self.pair(*other, j).max(0) >= nine);
        (0..=16).rev().map(earlier).find(all_fall).unwrap_or(place)
    }

    /// The light of a part, beyond that of the darkest pixel.
    fn cell(&self, from: i64, to: i64) -> i64 {
        (self.up_to(to) - self.up_to(from) - self.darkest * (to - from)).max(0)
    }

    fn cells(&self, place: Place) -> Vec<i64> {
        (0..90).map(|i| self.cell(place.at(8 * i + 1), place.at(8 * i + 7))).collect()
    }
}

impl Place {
    /// Where so many eighths of a cell of the word end.
    fn at(self, eighths: i64) -> i64 {
        let apart = self.v - self.u;
        (640 * self.u + eighths * apart - 8 * apart).max(0) / 640
    }
}

/// The height of each bit above a threshold between the smoothed middles of two pairs.
fn heights(cells: &[i64]) -> Vec<i64> {
    let middle = |j: usize| cells[10 * j] + cells[10 * j + 1];
    let smooth: Vec<i64> =
        (0..9).map(|j: usize| middle(j.saturating_sub(1)) + 2 * middle(j) + middle((j + 1).min(8))).collect();
    let height = |i: usize| {
        let p = if i == 0 { 0 } else { ((2 * i - 1) / 20).min(7) };
        let (bit, pair) = (2 * i as i64, 20 * p as i64);
        160 * cells[i] - (pair + 21 - bit) * smooth[p] - (bit - pair - 1) * smooth[p + 1]
    };
    (0..90).map(height).collect()
}

/// Where a word lies in a row that carries code, and what its cells say.
fn read_row(pixels: &[u8]) -> Option<(Place, Levels)> {
    let (dark, light) = (pixels.iter().min()?, pixels.iter().max()?);
    if light - dark < 8 {
        return None;
    }
    let row = Row::of(pixels);
    let place = row.sharp(pixels, *light as i64).or_else(|| row.sought())?;
    let cells = row.cells(place);
    let swings: Vec<i64> = (0..9).map(|j| cells[10 * j] - cells[10 * j + 1]).collect();
    let swing: i64 = swings.iter().sum();
    let many = swings.iter().filter(|one| 72 * **one >= swing).count();
    let carries = 160 * swing >= 81 * (place.v - place.u) && many >= 7;
    carries.then(|| (place, Levels { swing, heights: heights(&cells) }))
}

impl Levels {
    /// The bits, if each is clear and the first is 1.
    fn line(&self) -> Option<Vec<bool>> {
        let is_clear = self.heights.iter().all(|height| 9 * height.abs() >= 10 * self.swing);
        (is_clear && self.heights[0] > 0).then(|| self.heights.iter().map(|height| *height > 0).collect())
    }

    fn is_firm(&self, bit: usize) -> bool {
        9 * self.heights[bit].abs() >= 40 * self.swing
    }

    fn contradicts(&self, other: &Levels) -> bool {
        (0..90).any(|bit| {
            let differ = (self.heights[bit] > 0) != (other.heights[bit] > 0);
            differ && self.is_firm(bit) && other.is_firm(bit)
        })
    }

    fn with(&self, other: &Levels) -> Levels {
        let heights = self.heights.iter().zip(&other.heights).map(|(a, b)| a + b).collect();
        Levels { swing: self.swing + other.swing, heights }
    }
}

/// Two rows are read as one.
fn are_one(a: &Found, b: &Found, grain: i64) -> bool {
    let far = (a.place.u - b.place.u).abs().max((a.place.v - b.place.v).abs());
    b.row - a.row <= 4 && far <= 4 * grain && !a.levels.contradicts(&b.levels)
}

/// The lines of a field.
fn lines(raster: &Raster, field: &[u8]) -> Vec<Vec<bool>> {
    let looked_at = field.chunks(raster.width).skip(raster.first).take(raster.rows).enumerate();
    let carrying = looked_at.filter_map(|(row, pixels)| read_row(pixels).map(|(place, levels)| Found { row, place, levels }));
    let found: Vec<Found> = carrying.take(20).collect();
    let grain = 16 * raster.width as i64 / 720;
    let mut lines: Vec<Vec<bool>> = found.iter().filter_map(|one| one.levels.line()).collect();
    for (k, a) in found.iter().enumerate() {
        for b in found[k + 1..].iter().filter(|b| are_one(a, b, grain)) {
            lines.extend(a.levels.with(&b.levels).line());
        }
    }
    lines.truncate(20);
    lines
}

/// The runs of bits up to the last 1, in cells of 16 ticks.
fn runs(bits: &[bool]) -> Vec<u64> {
    let last = bits.iter().rposition(|bit| *bit).expect("bit 0 is 1");
    let mut runs: Vec<u64> = vec![0];
    for at in 0..=last {
        if at > 0 && bits[at] != bits[at - 1] {
            runs.push(0);
        }
        *runs.last_mut().expect("there is one") += 16;
    }
    runs
}

/// The line file of fields.
pub fn read(raster: &Raster, input: &[u8]) -> Run {
    let mut output = file_header(raster.system, 1_840);
    let size = raster.width * raster.height;
    for field in input.chunks_exact(size) {
        let lines = lines(raster, field);
        output.push(lines.len() as u8);
        for line in lines {
            spell_line(&runs(&line), &mut output);
        }
    }
    let is_cut = input.len() % size != 0;
    Run { output, end: if is_cut { End::at_byte("truncated", input.len() as u64) } else { End::Done } }
}
