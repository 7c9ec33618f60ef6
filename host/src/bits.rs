//! The competitor: a bit-parallel sequential planner in Rust, a word a row, written for speed and without any check.
//! Forward sets of cells from the start give the least arrival, at whichever dock can be held from then on; going back from there each set
//! keeps the cells that still lead to such a dock; the route takes the smallest of them, beat for beat. What is open at each beat is kept as
//! rows for the whole plan, so that a planned route is taken out of it once, each of its cells at its beat and the beats beside it; no move
//! needs a test.

use crate::paper::Floor;

/// Rows of a set, with an empty row before and after them, so that a row's neighbours need no test.
type Rows = [u32; 34];

pub struct Planner {
    width: usize,
    blocks: usize,
    horizon: usize,
    carriers: usize,
    starts: [u16; 8],
    counts: [u16; 8],
    docks: [u16; 32],
    /// No wall, and no carrier above at that beat or beside it, by beat.
    open: [Rows; 64],
    /// Forward sets, and then in their place the sets that lead to a dock.
    sets: [Rows; 64],
}

/// A dock as a row and a bit, with the first beat from which it is open through the horizon.
#[derive(Clone, Copy, Default)]
struct Dock {
    row: usize,
    bit: u32,
    held: usize,
}

impl Dock {
    /// Whether a set of a beat has the dock, and it can be held from then on.
    #[inline(always)]
    fn arrives(&self, set: &Rows, t: usize) -> bool {
        t >= self.held && set[self.row] & self.bit != 0
    }
}

/// A block of eight rows after one beat, where nothing is in the way but what is not open.
#[inline(always)]
fn spread(set: &Rows, open: &[u32; 8], block: usize) -> [u32; 8] {
    let s: &[u32; 10] = set[8 * block..8 * block + 10].try_into().unwrap();
    std::array::from_fn(|k| (s[k + 1] | s[k + 1] << 1 | s[k + 1] >> 1 | s[k] | s[k + 2]) & open[k])
}

/// The eight rows of a block.
#[inline(always)]
fn block_of(rows: &Rows, block: usize) -> &[u32; 8] {
    rows[8 * block + 1..8 * block + 9].try_into().unwrap()
}

#[inline(always)]
fn block_mut(rows: &mut Rows, block: usize) -> &mut [u32; 8] {
    (&mut rows[8 * block + 1..8 * block + 9]).try_into().unwrap()
}

impl Planner {
    /// A planner for a floor, with its walls as rows.
    pub fn new(record: &[u16], walls: &[u16]) -> Planner {
        let (width, height) = (record[0] as usize, record[1] as usize);
        let mut free: Rows = [0; 34];
        let full = if width == 32 { u32::MAX } else { (1 << width) - 1 };
        free[1..=height].fill(full);
        // Walls rise, so rows are found without a division.
        let (mut row, mut first) = (1, 0);
        for &wall in walls {
            let wall = wall as usize;
            while wall >= first + width {
                first += width;
                row += 1;
            }
            free[row] &= !(1 << (wall - first));
        }
        let mut starts = [0; 8];
        let (mut counts, mut docks) = ([0; 8], [0; 32]);
        starts.copy_from_slice(&record[6..14]);
        counts.copy_from_slice(&record[14..22]);
        docks.copy_from_slice(&record[22..54]);
        Planner {
            width,
            blocks: height.div_ceil(8),
            horizon: record[2] as usize,
            carriers: record[4] as usize,
            starts,
            counts,
            docks,
            open: [free; 64],
            sets: [[0; 34]; 64],
        }
    }

    /// The docks of a carrier that are open at the horizon, in front, and how many these are.
    fn held_docks(&self, carrier: usize) -> ([Dock; 4], usize) {
        let (mut docks, mut count) = ([Dock::default(); 4], 0);
        for k in 0..self.counts[carrier] as usize {
            let cell = self.docks[4 * carrier + k] as usize;
            let (row, bit) = (cell / self.width + 1, 1u32 << (cell % self.width));
            let mut held = self.horizon + 1;
            while held > 0 && self.open[held - 1][row] & bit != 0 {
                held -= 1;
            }
            if held <= self.horizon {
                docks[count] = Dock { row, bit, held };
                count += 1;
            }
        }
        (docks, count)
    }

    /// Fills the forward sets up to the first beat at which a route may end: that beat.
    #[inline(always)]
    fn forward(&mut self, arrives: impl Fn(&Rows, usize) -> bool) -> Option<usize> {
        let (h, blocks) = (self.horizon, self.blocks);
        let mut t = 0;
        while !arrives(&self.sets[t], t) {
            if t == h {
                return None;
            }
            let (before, after) = self.sets.split_at_mut(t + 1);
            let (now, next) = (&before[t], &mut after[0]);
            for b in 0..blocks {
                *block_mut(next, b) = spread(now, block_of(&self.open[t + 1], b), b);
            }
            t += 1;
        }
        Some(t)
    }

    /// The best route of a carrier against those above it, and its arrival.
    pub fn search(&mut self, carrier: usize, route: &mut [u16]) -> Option<usize> {
        let (w, h, blocks) = (self.width, self.horizon, self.blocks);
        let start = self.starts[carrier] as usize;
        let (start_row, start_bit) = (start / w + 1, 1u32 << (start % w));
        let (docks, count) = self.held_docks(carrier);
        let docks = &docks[..count];
        if count == 0 || self.open[0][start_row] & start_bit == 0 {
            return None;
        }
        self.sets[0] = [0; 34];
        self.sets[0][start_row] = start_bit;
        let arrival = match docks {
            [dock] => self.forward(|set, t| dock.arrives(set, t)),
            _ => self.forward(|set, t| docks.iter().any(|dock| dock.arrives(set, t))),
        }?;
        self.sets[arrival] = [0; 34];
        for dock in docks.iter().filter(|dock| dock.held <= arrival) {
            self.sets[arrival][dock.row] |= dock.bit;
        }
        for t in (0..arrival).rev() {
            let (before, after) = self.sets.split_at_mut(t + 1);
            let (now, next) = (&mut before[t], &after[0]);
            for b in 0..blocks {
                let rows = block_mut(now, b);
                *rows = spread(next, rows, b);
            }
        }
        let last = self.walk(start, arrival, route);
        route[arrival..=h].fill(last as u16);
        Some(arrival)
    }

    /// The smallest cell that leads to a dock, beat for beat; the last of them.
    fn walk(&self, start: usize, arrival: usize, route: &mut [u16]) -> usize {
        let w = self.width;
        let (mut row, mut bit, mut cell) = (start / w + 1, 1u32 << (start % w), start);
        route[0] = start as u16;
        for t in 0..arrival {
            let set = &self.sets[t + 1];
            let level = set[row] & (bit >> 1 | bit | bit << 1);
            let side = level & level.wrapping_neg();
            if set[row - 1] & bit != 0 {
                (row, cell) = (row - 1, cell - w);
            } else if side != 0 {
                cell = cell + side.trailing_zeros() as usize - bit.trailing_zeros() as usize;
                bit = side;
            } else {
                (row, cell) = (row + 1, cell + w);
            }
            route[t + 1] = cell as u16;
        }
        cell
    }

    /// Takes a carrier's route out of what is open: each cell at its beat and at those beside it, from 0 to the horizon.
    fn reserve(&mut self, route: &[u16]) {
        let (w, h) = (self.width, self.horizon);
        let (mut row, mut column, mut cell) = (route[0] as usize / w + 1, route[0] as usize % w, route[0] as usize);
        for t in 0..=h {
            let next = route[t] as usize;
            // One beat goes one cell at most.
            if next == cell + w && next != cell + 1 || w == 1 && next > cell {
                row += 1;
            } else if next + w == cell && next + 1 != cell || w == 1 && next < cell {
                row -= 1;
            } else {
                column = (column + next) - cell;
            }
            cell = next;
            let others = !(1 << column);
            self.open[t.saturating_sub(1)][row] &= others;
            self.open[t][row] &= others;
            self.open[(t + 1).min(h)][row] &= others;
        }
    }

    /// The sequential plan: answers as 65 numbers a carrier, one with none staying at its start; the failing carrier.
    pub fn plan(&mut self, answers: &mut [u16]) -> usize {
        let mut failing = 0;
        for (i, record) in answers.chunks_exact_mut(65).take(self.carriers).enumerate() {
            let (tag, route) = record.split_first_mut().unwrap();
            route.fill(0);
            if self.search(i, route).is_some() {
                *tag = 2;
                if i + 1 < self.carriers {
                    self.reserve(route);
                }
            } else {
                *tag = 1;
                if failing == 0 {
                    failing = i + 1;
                }
                if i + 1 < self.carriers {
                    self.reserve(&[self.starts[i]; 64]);
                }
            }
        }
        failing
    }
}

/// One sequential plan from a record and walls.
pub fn plan(record: &[u16], walls: &[u16], answers: &mut [u16]) -> usize {
    Planner::new(record, walls).plan(answers)
}

/// The record and walls of a floor.
pub fn numbers(floor: &Floor) -> ([u16; crate::paper::RECORD], Vec<u16>) {
    (crate::paper::record_of(floor), floor.walls.iter().map(|&c| c as u16).collect())
}
