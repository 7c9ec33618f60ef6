//! The library's search written again in Rust, each of its devices with a switch: what a device buys is the plan's time without it. It has the
//! same tables, passes and walk as crates `layers`, `passes` and `search`; answers are held to the library's before anything is timed.

/// Words of a beat: 32 rows; where the rows stand in order an empty row before them and three behind.
const STRIPED_BEAT: usize = 32;
const ORDERED_BEAT: usize = 36;
type Table = [u32; ORDERED_BEAT * 64];

/// What can be left out.
#[derive(Clone, Copy, PartialEq)]
pub enum Device {
    /// None at once where no dock is free at the horizon.
    NoneAtOnce,
    /// Rows eight apart side by side, a step four rows at a time; without it rows in order, a step from memory to memory.
    Stripes,
    /// The forward sets up to the nearest dock are made at once, then four at a time; without it four at a time from the first.
    Nearest,
    /// Of the forward sets made together only the last is looked at until it is an arrival; without it each is.
    LastOnly,
    /// A view that stays is taken out of all beats at once; without it each beat takes out three.
    Parked,
    /// No route is taken out after the last carrier.
    LastKept,
    /// Walls are taken out from both ends; without it one after the other.
    BothEnds,
    /// The walk goes from place to place; without it each cell's row is looked for.
    Places,
    /// A cell's row by a product and a shift, not by a division.
    Product,
    /// One table of sets for the whole plan, not an empty one for each search.
    OneTable,
    /// The forward pass ends at the least arrival, not at the horizon.
    EarlyEnd,
}

pub const DEVICES: [(Device, &str); 11] = [
    (Device::NoneAtOnce, "none at once where no dock is free at the horizon"),
    (Device::Stripes, "rows eight apart side by side"),
    (Device::Nearest, "to the nearest dock at once"),
    (Device::LastOnly, "only the last of some sets looked at"),
    (Device::Parked, "a view that stays taken out at once"),
    (Device::LastKept, "the last route not taken out"),
    (Device::BothEnds, "walls from both ends"),
    (Device::Places, "the walk from place to place"),
    (Device::Product, "a cell's row by a product"),
    (Device::OneTable, "one table of sets for the plan"),
    (Device::EarlyEnd, "forward ends at the arrival"),
];

macro_rules! at {
    ($s:expr, $i:expr) => {
        unsafe { *$s.get_unchecked($i) }
    };
}
macro_rules! set {
    ($s:expr, $i:expr, $v:expr) => {{
        let v = $v;
        unsafe { *$s.get_unchecked_mut($i) = v }
    }};
}

/// Four rows, and the rows of a beat.
type Stripe = [u32; 4];
type Stripes = [Stripe; 8];

#[inline(always)]
fn stripe(s: &Table, i: usize) -> Stripe {
    [at!(s, i), at!(s, i + 1), at!(s, i + 2), at!(s, i + 3)]
}

#[inline(always)]
fn put_stripe(s: &mut Table, i: usize, x: Stripe) {
    for k in 0..4 {
        set!(s, i + k, x[k]);
    }
}

#[inline(always)]
fn lanes(over: Stripe, here: Stripe, under: Stripe, mask: Stripe) -> Stripe {
    std::array::from_fn(|k| (here[k] | here[k] << 1 | here[k] >> 1 | over[k] | under[k]) & mask[k])
}

#[inline(always)]
fn load(s: &Table, i: usize) -> Stripes {
    std::array::from_fn(|k| stripe(s, i + 4 * k))
}

#[inline(always)]
fn save(s: &mut Table, i: usize, x: Stripes) {
    for (k, part) in x.into_iter().enumerate() {
        put_stripe(s, i + 4 * k, part);
    }
}

/// One step of a set into masks; `none` is the empty row above the first and below the last.
#[inline(always)]
fn advance(x: Stripes, masks: Stripes, none: u32) -> Stripes {
    let above = [none, x[7][0], x[7][1], x[7][2]];
    let below = [x[0][1], x[0][2], x[0][3], none];
    [
        lanes(above, x[0], x[1], masks[0]),
        lanes(x[0], x[1], x[2], masks[1]),
        lanes(x[1], x[2], x[3], masks[2]),
        lanes(x[2], x[3], x[4], masks[3]),
        lanes(x[3], x[4], x[5], masks[4]),
        lanes(x[4], x[5], x[6], masks[5]),
        lanes(x[5], x[6], x[7], masks[6]),
        lanes(x[6], x[7], below, masks[7]),
    ]
}

/// The grid, with the devices that are left out as constants, so that each form is compiled for itself.
#[derive(Clone, Copy)]
struct Grid<const PRODUCT: bool, const STRIPED: bool> {
    width: usize,
    scale: usize,
    cells: usize,
    horizon: usize,
}

impl<const PRODUCT: bool, const STRIPED: bool> Grid<PRODUCT, STRIPED> {
    #[inline(always)]
    fn place(self, c: usize) -> (usize, usize) {
        let row = if PRODUCT { (c * self.scale) >> 16 } else { c / self.width };
        (row, c - row * self.width)
    }

    /// The word of a row at a beat.
    #[inline(always)]
    fn word(self, t: usize, row: usize) -> usize {
        if STRIPED { t * STRIPED_BEAT + row % 8 * 4 + row / 8 } else { t * ORDERED_BEAT + 1 + row }
    }

    #[inline(always)]
    fn has(self, s: &Table, t: usize, row: usize, k: usize) -> bool {
        (at!(s, self.word(t, row)) >> k) & 1 == 1
    }

    #[inline(always)]
    fn member(self, s: &Table, t: usize, c: usize) -> bool {
        let (row, column) = self.place(c);
        self.has(s, t, row, column)
    }

    #[inline(always)]
    fn put(self, s: &mut Table, t: usize, c: usize) {
        let (row, column) = self.place(c);
        let i = self.word(t, row);
        set!(s, i, at!(s, i) | 1 << column);
    }

    /// Takes a cell out of the beats from one to before another.
    #[inline(always)]
    fn drop(self, s: &mut Table, from: usize, end: usize, c: usize) {
        if c < self.cells {
            let (row, column) = self.place(c);
            for t in from..end {
                let i = self.word(t, row);
                set!(s, i, at!(s, i) & !(1 << column));
            }
        }
    }

    #[inline(always)]
    fn empty(self, s: &mut Table, t: usize) {
        for row in 0..32 {
            set!(s, self.word(t, row), 0);
        }
    }

    /// So many steps from the set of a beat on, to later beats or back to earlier ones.
    #[inline(never)]
    fn propagate(self, sets: &mut Table, table: &Table, from: usize, n: usize, back: bool) {
        let next = |t: usize| if back { t - 1 } else { t + 1 };
        let mut t = from;
        if STRIPED {
            let none = at!(table, STRIPED_BEAT * 64);
            let mut x = load(sets, from * STRIPED_BEAT);
            for _ in 0..n {
                t = next(t);
                x = advance(x, load(table, t * STRIPED_BEAT), none);
                save(sets, t * STRIPED_BEAT, x);
            }
            return;
        }
        for _ in 0..n {
            let (a, b) = (t * ORDERED_BEAT, next(t) * ORDERED_BEAT + 1);
            let mut r = 0;
            while r < 32 {
                let (over, here, under) = (at!(sets, a + r), at!(sets, a + r + 1), at!(sets, a + r + 2));
                set!(sets, b + r, (here | here << 1 | here >> 1 | over | under) & at!(table, b + r));
                r += 1;
            }
            t = next(t);
        }
    }

    fn hold_from(self, table: &Table, dock: usize) -> usize {
        let mut n = self.horizon + 1;
        while 0 < n && self.member(table, n - 1, dock) {
            n -= 1;
        }
        n
    }

    #[inline(always)]
    fn next(self, sets: &Table, t: usize, (row, k): (usize, usize)) -> (usize, usize) {
        if 0 < row && self.has(sets, t, row - 1, k) {
            return (row - 1, k);
        }
        if 0 < k && self.has(sets, t, row, k - 1) {
            return (row, k - 1);
        }
        if self.has(sets, t, row, k) {
            return (row, k);
        }
        if k + 1 < self.width && self.has(sets, t, row, k + 1) {
            return (row, k + 1);
        }
        (row + 1, k)
    }

    /// The beats from one cell to another where nothing is in the way.
    #[inline(always)]
    fn distance(self, c: usize, d: usize) -> usize {
        let ((row, column), (other_row, other_column)) = (self.place(c), self.place(d));
        row.abs_diff(other_row) + column.abs_diff(other_column)
    }

    fn take(self, table: &mut Table, route: &[u16; 64], parked: bool) {
        let h = self.horizon;
        let mut a = if parked { h } else { h + 1 };
        while parked && 0 < a && at!(route, a - 1) == at!(route, h) {
            a -= 1;
        }
        for t in 0..a {
            self.drop(table, t.saturating_sub(1), (t + 2).min(h + 1), at!(route, t) as usize);
        }
        if parked {
            self.drop(table, a.saturating_sub(1), h + 1, at!(route, h) as usize);
        }
    }

    fn search(self, sets: &mut Table, table: &Table, start: usize, docks: &[u16], without: Option<Device>) -> Option<[u16; 64]> {
        if !self.member(table, 0, start) {
            return None;
        }
        let (h, count) = (self.horizon, docks.len());
        let mut holds = [0; 4];
        for k in 0..count {
            holds[k] = self.hold_from(table, docks[k] as usize);
        }
        if without != Some(Device::NoneAtOnce) && holds[..count].iter().all(|&hold| h < hold) {
            return None;
        }
        self.empty(sets, 0);
        self.put(sets, 0, start);
        let arrives = |sets: &Table, t: usize| (0..count).any(|k| holds[k] <= t && self.member(sets, t, docks[k] as usize));
        let nearest = || docks.iter().fold(h, |near, &dock| near.min(self.distance(start, dock as usize)));
        let near = if without == Some(Device::Nearest) { 0 } else { nearest() };
        let mut t = 0;
        let arrival = loop {
            if arrives(sets, t) {
                let mut first = t;
                while 0 < first && arrives(sets, first - 1) {
                    first -= 1;
                }
                break first;
            }
            if t == h {
                return None;
            }
            let n = if t < near { near - t } else { 4.min(h - t) };
            self.propagate(sets, table, t, n, false);
            if without == Some(Device::LastOnly) {
                if let Some(first) = (t + 1..t + n).find(|&u| arrives(sets, u)) {
                    break first;
                }
            }
            t += n;
        };
        if without == Some(Device::EarlyEnd) {
            self.propagate(sets, table, t, h - t, false);
        }
        self.empty(sets, arrival);
        for k in (0..count).filter(|&k| holds[k] <= arrival) {
            self.put(sets, arrival, docks[k] as usize);
        }
        self.propagate(sets, table, arrival, arrival, true);
        let (mut route, mut place) = ([0; 64], self.place(start));
        route[0] = start as u16;
        for t in 0..arrival {
            if without == Some(Device::Places) {
                place = self.place(at!(route, t) as usize);
            }
            place = self.next(sets, t + 1, place);
            set!(route, t + 1, (place.0 * self.width + place.1) as u16);
        }
        let last = at!(route, arrival);
        route[arrival..=h].fill(last);
        Some(route)
    }

    fn plan(self, record: &[u16], walls: &[u16], answers: &mut [u16], without: Option<Device>) {
        let (mut table, mut sets): (Table, Table) = ([0; ORDERED_BEAT * 64], [0; ORDERED_BEAT * 64]);
        for row in 0..self.cells / self.width {
            set!(table, self.word(0, row), ((1u64 << self.width) - 1) as u32);
        }
        let n = walls.len();
        if without == Some(Device::BothEnds) {
            for &wall in walls {
                self.drop(&mut table, 0, 1, wall as usize);
            }
        } else {
            for j in 0..n.div_ceil(2) {
                self.drop(&mut table, 0, 1, at!(walls, j) as usize);
                self.drop(&mut table, 0, 1, at!(walls, n - 1 - j) as usize);
            }
        }
        let first = if STRIPED { 0 } else { 1 };
        for t in 1..=self.horizon {
            let beat = if STRIPED { STRIPED_BEAT } else { ORDERED_BEAT };
            table.copy_within(first..first + 32, t * beat + first);
        }
        let carriers = record[4] as usize;
        for i in 0..carriers {
            if without == Some(Device::OneTable) {
                sets = [0; ORDERED_BEAT * 64];
            }
            let docks = &record[22 + 4 * i..22 + 4 * i + record[14 + i] as usize];
            let found = self.search(&mut sets, &table, record[6 + i] as usize, docks, without);
            answers[65 * i] = if found.is_some() { 2 } else { 1 };
            answers[65 * i + 1..65 * i + 65].copy_from_slice(&found.unwrap_or([0; 64]));
            if i + 1 < carriers || without == Some(Device::LastKept) {
                self.take(&mut table, &found.unwrap_or([record[6 + i]; 64]), without != Some(Device::Parked));
            }
        }
    }
}

/// One sequential plan, without one of the devices or with all.
pub fn plan(record: &[u16], walls: &[u16], answers: &mut [u16], without: Option<Device>) {
    let (width, horizon) = (record[0] as usize, record[2] as usize);
    let (scale, cells) = (65536 / width + 1, width * record[1] as usize);
    match without {
        Some(Device::Product) => Grid::<false, true> { width, scale, cells, horizon }.plan(record, walls, answers, without),
        Some(Device::Stripes) => Grid::<true, false> { width, scale, cells, horizon }.plan(record, walls, answers, without),
        _ => Grid::<true, true> { width, scale, cells, horizon }.plan(record, walls, answers, without),
    }
}
