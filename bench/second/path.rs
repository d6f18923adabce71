//! `path`: the cells of the best path through a sound, the whole sound at once.
use crate::sound::Slicing;

const JUMP: u8 = 3;
const EARLY: i64 = 1 << 28;

/// How many lengths a cell may have, and how far back a cell of the longest one begins.
const LENGTHS: usize = 45;
const LONGEST: usize = 96;

/// The lengths of a cell, in steps.
fn lengths() -> [usize; LENGTHS] {
    let all = (4..25).chain((26..49).step_by(2)).chain((52..97).step_by(4));
    all.collect::<Vec<_>>().try_into().expect("there are so many")
}

/// How many steps a sample has, and how many samples are summed in one step.
#[derive(Clone, Copy)]
pub struct Grid {
    repeats: u64,
    summed: u64,
}

/// The grid of a rate, unless a cell at play speed has too few samples.
pub fn grid(system: u64, rate: u64) -> Option<Grid> {
    let steps = 14..=27;
    let finer = [8, 4, 2, 1].into_iter().map(|repeats| Grid { repeats, summed: 1 });
    let coarser = (1..=12).map(|power| Grid { repeats: 1, summed: 1 << power });
    finer.chain(coarser).find(|it| steps.contains(&(rate * it.repeats / (80 * system * it.summed))))
}

impl Grid {
    /// The ticks of a step, if they are a whole number from 2 to 65,536.
    pub fn ticks(self, fineness: u64) -> Option<u64> {
        let ticks = fineness * self.summed / self.repeats;
        (fineness % self.repeats == 0 && (2..=65_536).contains(&ticks)).then_some(ticks)
    }
}

/// The sum of the latest 512 sizes divided by their number, at each, with a factor before the division.
fn latest_means(sizes: &[i64], factor: i64) -> Vec<i64> {
    let mut sum = 0;
    let mean = |(place, size): (usize, &i64)| {
        sum += size;
        sum -= place.checked_sub(512).map_or(0, |before| sizes[before]);
        factor * sum / (place + 1).min(512) as i64
    };
    sizes.iter().enumerate().map(mean).collect()
}

/// Each sample clipped, and held.
fn held(samples: &[i64], threshold: i64) -> Vec<(i64, i64)> {
    let sizes: Vec<i64> = samples.iter().map(|s| s.abs()).collect();
    let (mut peak, mut sum, mut side) = (0i64, 0i64, 0i64);
    let clip_and_hold = |((sample, mean), most): ((&i64, i64), i64)| {
        let most = most.min(9 * peak / 8).max(mean);
        let clipped = (*sample).clamp(-most, most);
        let size = clipped.abs();
        peak += if size > peak { (size - peak + 3) / 4 } else { -((peak + 1_023) / 1_024) };
        sum += size - sum / 1_024;
        let m = sum / 1_024;
        let is_far = size >= 3 * (peak - m).max(0) / 8 && size >= threshold;
        side = if is_far { clipped.signum() } else { side };
        (clipped, clipped + side * (m / 2))
    };
    samples.iter().zip(latest_means(&sizes, 1)).zip(latest_means(&sizes, 3)).map(clip_and_hold).collect()
}

/// The sound of each step, and the held sound.
fn on_grid(pairs: &[(i64, i64)], grid: Grid) -> Vec<(i64, i64)> {
    if grid.summed == 1 {
        return pairs.iter().flat_map(|pair| (0..grid.repeats).map(|_| *pair)).collect();
    }
    let mean = |of: &[(i64, i64)]| {
        let sum = of.iter().fold((0, 0), |sum, it| (sum.0 + it.0, sum.1 + it.1));
        // (a quotient of numbers with a sign is rounded towards zero)
        (sum.0 / of.len() as i64, sum.1 / of.len() as i64)
    };
    pairs.chunks_exact(grid.summed as usize).map(mean).collect()
}

/// A cell of a path: its end and length in steps, its sign at the end (0 for plus), and whether a jump is before it.
#[derive(Clone, Copy)]
struct Cell {
    end: usize,
    length: usize,
    is_one: bool,
    sign: usize,
    jumps: bool,
}

impl Cell {
    fn begin(&self) -> i64 {
        self.end as i64 - self.length as i64
    }

    /// The sign with which it begins.
    fn first_sign(&self) -> usize {
        if self.is_one { 1 - self.sign } else { self.sign }
    }
}

/// For each length and sign at its end.
type Row<T> = [[T; 2]; LENGTHS];

/// The best paths to each step.
struct Paths {
    lengths: [usize; LENGTHS],
    /// The held sound so far, summed.
    sums: Vec<i64>,
    /// Of the latest steps, by the length and the sign before: the worth of the best that a cell from there can have
    /// before it. The steps stand in a ring.
    starts: Vec<Row<i64>>,
    /// By step, and the length and the sign before: how the cell follows the best before it.
    ways: Vec<Row<u8>>,
    ones: Vec<Row<bool>>,
    best: Vec<(i64, usize, usize)>,
    /// The sizes of the held sound so far, summed.
    whole: Vec<i64>,
}

impl Paths {
    fn of(held: &[i64], sizes: &[i64]) -> Paths {
        let (mut sums, mut whole) = (vec![0], vec![0]);
        for (place, sound) in held.iter().enumerate() {
            sums.push(sums[place] + sound);
            whole.push(whole[place] + sound.abs());
        }
        let mut paths = Paths {
            lengths: lengths(),
            sums,
            starts: vec![[[0; 2]; LENGTHS]; LONGEST + 1],
            ways: vec![[[JUMP; 2]; LENGTHS]],
            ones: vec![[[false; 2]; LENGTHS]],
            best: vec![(0, 0, 0)],
            whole,
        };
        for end in 1..=held.len() {
            paths.step(end, sizes[end - 1]);
        }
        paths
    }

    /// The held sound from one step to another; there is none before the first.
    fn sound(&self, from: i64, to: i64) -> i64 {
        self.sums[to.max(0) as usize] - self.sums[from.max(0) as usize]
    }

    /// What a cell is worth that ends there with plus.
    fn worth(&self, end: i64, length: i64, is_one: bool) -> i64 {
        match is_one {
            false => self.sound(end - length, end),
            true => self.sound(end - length / 2, end) - self.sound(end - length, end - length + length / 2),
        }
    }

    fn step(&mut self, end: usize, size: i64) {
        let (mut scores, mut ones): (Row<i64>, Row<bool>) = ([[0; 2]; LENGTHS], [[false; 2]; LENGTHS]);
        let mut best: Option<(i64, usize, usize)> = None;
        for (place, length) in self.lengths.iter().enumerate() {
            let before = match end.checked_sub(*length) {
                Some(first) => self.starts[first % (LONGEST + 1)][place],
                None => [-EARLY; 2],
            };
            let worth = [false, true].map(|is_one| self.worth(end as i64, *length as i64, is_one));
            for sign in 0..2 {
                let factor = 1 - 2 * sign as i64;
                let (zero, one) = (factor * worth[0] + before[1 - sign], factor * worth[1] + before[sign]);
                (scores[place][sign], ones[place][sign]) = (zero.max(one), one > zero);
                if best.is_none_or(|it| scores[place][sign] > it.0) {
                    best = Some((scores[place][sign], place, sign));
                }
            }
        }
        let best = best.expect("there are lengths");
        let (mut starts, mut ways): (Row<i64>, Row<u8>) = ([[0; 2]; LENGTHS], [[0; 2]; LENGTHS]);
        for place in 0..LENGTHS {
            for sign in 0..2 {
                (starts[place][sign], ways[place][sign]) = self.way(&scores, best.0, place, sign, size);
            }
        }
        self.starts[end % (LONGEST + 1)] = starts;
        self.ways.push(ways);
        self.ones.push(ones);
        self.best.push(best);
    }

    /// The best that a cell of a length can have before it, of a sign: in the same length, behind a shorter one, a
    /// longer one, in a jump.
    fn way(&self, scores: &Row<i64>, best: i64, place: usize, sign: usize, size: i64) -> (i64, u8) {
        let length = |place: usize| self.lengths[place] as i64;
        let neighbour = |other: usize| scores[other][sign] - size * (length(other) - length(place)).abs();
        let shorter = place.checked_sub(1).map(|other| (neighbour(other), 1));
        let longer = (place + 1 < LENGTHS).then(|| (neighbour(place + 1), 2));
        let jump = (best - 3 * length(place) * size, JUMP);
        let others = [shorter, longer, Some(jump)].into_iter().flatten();
        others.fold((scores[place][sign], 0), |a, b| if b.0 > a.0 { b } else { a })
    }

    /// The cells of the best path to a step, in order.
    fn cells(&self, mut end: usize) -> Vec<Cell> {
        let (mut cells, (_, mut place, mut sign)) = (Vec::new(), self.best[end]);
        while end > 0 {
            let (length, is_one) = (self.lengths[place], self.ones[end][place][sign]);
            let before = if is_one { sign } else { 1 - sign };
            let first = end.saturating_sub(length);
            let way = if first > 0 { self.ways[first][place][before] } else { JUMP };
            cells.push(Cell { end, length, is_one, sign, jumps: way == JUMP });
            (place, sign) = match way {
                0 => (place, before),
                1 => (place - 1, before),
                2 => (place + 1, before),
                _ => (self.best[first].1, self.best[first].2),
            };
            end = first;
        }
        cells.reverse();
        cells
    }

    /// Where the best path ends that may leave the latest cell open: of the latest 96 steps, the latest at which the
    /// best path lacks least of the sizes.
    fn unfinished(&self, count: usize) -> usize {
        let lack = |end: &usize| self.whole[*end] - self.best[*end].0;
        // (of equal ones the first is taken)
        (count - 95..=count).rev().min_by_key(lack).expect("there are 96")
    }

    /// The decided cells, each with whether it jumps.
    fn decided(&self, count: usize, is_ended: bool) -> Vec<Cell> {
        let due = (2_048..=count).step_by(1_024);
        let mut turns: Vec<(usize, usize)> = due.map(|step| (self.unfinished(step), step - 800)).collect();
        if is_ended && count > 0 {
            turns.push((count, count));
        }
        let mut cells: Vec<Cell> = Vec::new();
        for (end, limit) in turns {
            let done = cells.last().map_or(0, |it| it.end);
            cells.extend(self.cells(end).iter().filter(|it| it.end > done + it.length / 4 && it.end <= limit));
        }
        for place in (0..cells.len()).rev() {
            let cell = cells[place];
            cells[place].jumps |= match place.checked_sub(1).map(|before| cells[before]) {
                None => true,
                Some(before) => {
                    let apart = (cell.begin() - before.end as i64).unsigned_abs() as usize;
                    apart > cell.length / 4 || cell.first_sign() == before.sign
                }
            };
        }
        cells
    }
}

/// What is measured of a half.
struct Half {
    s: i64,
}

impl Half {
    /// Of the steps without the middle one of an odd cell, and of those with it, both added.
    fn of(sound: &[i64], sign: usize, parts: [(i64, i64); 2]) -> Half {
        let steps = parts.iter().flat_map(|(from, to)| &sound[from.max(&0).unsigned_abs() as usize..*to.max(&0) as usize]);
        let factor = 1 - 2 * sign as i64;
        Half { s: factor * steps.sum::<i64>() }
    }

    /// How far its mean sound lies from a level on its side.
    fn far(&self, length: i64, level: i64) -> i64 {
        (self.s - length * level).abs() / length
    }
}

struct Measured {
    cell: Cell,
    first: Half,
    second: Half,
    level: i64,
}

fn measured(sound: &[i64], cell: &Cell) -> Measured {
    let (begin, end, length) = (cell.begin(), cell.end as i64, cell.length as i64);
    let (less, more) = (length / 2, length - length / 2);
    let first = Half::of(sound, cell.first_sign(), [(begin, begin + less), (begin, begin + more)]);
    let second = Half::of(sound, cell.sign, [(end - less, end), (end - more, end)]);
    let level = (first.s + second.s).max(0) / (2 * length);
    Measured { cell: *cell, first, second, level }
}

impl Measured {
    fn length(&self) -> i64 {
        self.cell.length as i64
    }

    /// How far each half lies from a level.
    fn halves_far(&self, level: i64) -> [i64; 2] {
        [&self.first, &self.second].map(|half| half.far(self.length(), level))
    }
}

fn mean(of: &[Measured]) -> i64 {
    of.iter().map(|it| it.level).sum::<i64>() / of.len() as i64
}

/// Whether the path bends at a cell: it is longer, or shorter, than most of the sixteen around it.
fn bends(cells: &[Measured], place: usize, grid: Grid) -> bool {
    if place < 8 || cells.len() < place + 9 {
        return false;
    }
    let grain = grid.repeats as i64;
    let length = |far: isize| cells[(place as isize + far) as usize].length();
    let usual = length(-8);
    let strays = |far: std::ops::RangeInclusive<isize>| far.filter(|it| (length(*it) - usual).abs() >= grain).count();
    let side = if length(0) > usual { 1 } else { -1 };
    let off = |far: isize| (side * (length(far) - usual)).max(0) / grain;
    strays(-8..=-3) <= 1
        && strays(3..=8) <= 1
        && off(-1).min(off(1)) >= 1
        && off(-1).max(off(-2)) < off(0)
        && off(1).max(off(2)) <= off(0)
}

/// Whether code breaks in front of a cell.
fn breaks(cells: &[Measured], place: usize, threshold: i64, grid: Grid) -> bool {
    let it = &cells[place];
    let before = &cells[place.saturating_sub(8)..place];
    let Some(last) = before.last() else { return true };
    let behind = &cells[place + 1..cells.len().min(place + 9)];
    let near = mean(before);
    let far = if behind.is_empty() { near } else { mean(behind) };
    let (low, high) = (near.min(far), near.max(far));
    let eighths = if last.cell.is_one && it.cell.is_one { 1 } else { 2 };
    let heard = 8 * (last.second.s + it.first.s).max(0);
    let is_faint = heard < (eighths * low).max(2 * threshold) * (last.length() + it.length());
    let around = || before.iter().chain(behind);
    let all: i64 = around().flat_map(|other| other.halves_far(high)).map(|far| far.min(high).pow(2)).sum();
    let usual = all / (2 * around().count() as i64);
    let is_misfit = it.halves_far(high).into_iter().any(|far| far * far > 12 * usual + 2 * high * high);
    it.cell.jumps || is_faint || is_misfit || bends(cells, place, grid)
}

/// The intervals of the best path, or, if more samples may come, those that are written so far.
pub fn intervals(s: &Slicing, grid: Grid, samples: &[i64], is_ended: bool) -> Vec<u64> {
    let ticks = grid.ticks(s.fineness).expect("the words were read");
    let threshold = s.least as i64;
    let steps = on_grid(&held(samples, threshold), grid);
    let (sound, held): (Vec<i64>, Vec<i64>) = steps.into_iter().unzip();
    let sizes = latest_means(&sound.iter().map(|it| it.abs()).collect::<Vec<_>>(), 1);
    let decided = Paths::of(&held, &sizes).decided(sound.len(), is_ended);
    let cells: Vec<Measured> = decided.iter().map(|cell| measured(&sound, cell)).collect();
    let written = if is_ended { cells.len() } else { cells.len().saturating_sub(8) };
    let (mut done, mut intervals) = (0, Vec::new());
    for (place, it) in cells[..written].iter().enumerate() {
        let is_broken = breaks(&cells, place, threshold, grid);
        write(&it.cell, (it.cell.end - done) as u64 * ticks, ticks, is_broken, &mut intervals);
        done = it.cell.end;
    }
    intervals
}

/// A cell that lasts `whole` ticks.
fn write(cell: &Cell, whole: u64, ticks: u64, is_broken: bool, intervals: &mut Vec<u64>) {
    let half = (cell.length as u64 * ticks).div_ceil(2);
    let (second, is_short) = match cell.is_one {
        true => (half.min(whole - 2), whole < half + 2),
        false => (0, false),
    };
    let first = whole - second;
    match is_broken || is_short {
        true => intervals.extend([1, first - 1]),
        false => intervals.push(first),
    }
    if cell.is_one {
        intervals.push(second);
    }
}
