//! Compares the library with `paper.rs`, an independent implementation of document 01: answer words, and every number of lent memory,
//! also outside the part that is lent. Seeds are fixed; a case that fails is printed with the command that replays it.
//!
//!     compare                          everything: 100,000 sheets, 20,000 lists of calls, 10,000 trials, runs of 400 floors,
//!                                      100,000 pairs of routes, 100,000 records
//!     compare sheets FROM COUNT        some of the sheets, by their seeds
//!     compare lists FROM COUNT         some of the lists
//!     compare trials FROM COUNT        some of the trials
//!     compare ranks FROM COUNT         some of the floors whose runs are listed
//!     compare pairs FROM COUNT         some of the pairs
//!     compare records FROM COUNT       some of the records
//!     compare sheet SEED               one case, each call printed with its answer
//!     compare list SEED
//!     compare trial SEED
//!     compare rank SEED
//!     compare pair SEED
//!     compare record SEED

#[path = "../draw.rs"]
mod draw;
#[path = "../paper.rs"]
mod paper;
#[path = "../sheets.rs"]
mod sheets;

use draw::Draw;
use paper::Floor;
use sheets::{draw_floor, draw_sheet, odd};
use std::collections::BTreeMap;
use std::process::exit;
use std::time::Instant;

const SHEETS: u64 = 100_000;
const LISTS: u64 = 20_000;
const TRIALS: u64 = 10_000;
/// The floors whose runs are listed.
const RANKS: u64 = 400;
const PAIRS: u64 = 100_000;
const RECORDS: u64 = 100_000;

// ---- Lent memory and calls ----

/// Memory of which a part is lent; the rest must stay as it is.
#[derive(Clone, PartialEq, Debug)]
struct Lent<T> {
    all: Vec<T>,
    from: usize,
    length: usize,
}

impl<T: Copy> Lent<T> {
    /// Memory whose lent part is the contents, with a margin on both sides.
    fn of(contents: &[T], margin: T) -> Lent<T> {
        let all = [&[margin; 3], contents, &[margin; 3]].concat();
        Lent { all, from: 3, length: contents.len() }
    }

    fn part(&self) -> &[T] {
        &self.all[self.from..self.from + self.length]
    }

    fn part_mut(&mut self) -> &mut [T] {
        &mut self.all[self.from..self.from + self.length]
    }

    /// The same memory with only the first places lent.
    fn cut(mut self, length: usize) -> Lent<T> {
        self.length = self.length.min(length);
        self
    }
}

/// Numbers to write over, different in each place.
fn junk(draw: &mut Draw, length: usize) -> Lent<u16> {
    let first = draw.next() as u16;
    let contents: Vec<u16> = (0..length).map(|k| first.wrapping_add(k as u16) | 0x8000).collect();
    Lent::of(&contents, first)
}

fn junk_bytes(draw: &mut Draw, length: usize) -> Lent<u8> {
    let first = draw.next() as u8;
    let contents: Vec<u8> = (0..length).map(|k| first.wrapping_add(k as u8)).collect();
    Lent::of(&contents, first)
}

/// A call with all that is lent to it.
#[derive(Clone, PartialEq, Debug)]
enum Call {
    ReadSheet { text: Lent<u8>, floor: Lent<u16>, walls: Lent<u16> },
    WriteSheet { floor: Lent<u16>, walls: Lent<u16>, out: Lent<u8> },
    CheckFloor { floor: Lent<u16>, walls: Lent<u16> },
    NeededLengths { floor: Lent<u16>, out: Lent<u64> },
    Search { floor: Lent<u16>, walls: Lent<u16>, carrier: u16, views: Lent<u16>, route: Lent<u16> },
    Plan { floor: Lent<u16>, walls: Lent<u16>, answers: Lent<u16> },
    Blockers { floor: Lent<u16>, walls: Lent<u16>, carrier: u16, answers: Lent<u16> },
    PrintRoutes { text: Lent<u8>, out: Lent<u8> },
    Fresh { floor: Lent<u16>, walls: Lent<u16>, state: Lent<u16> },
    Step { floor: Lent<u16>, walls: Lent<u16>, state: Lent<u16>, step: u16 },
    Run { floor: Lent<u16>, walls: Lent<u16>, state: Lent<u16>, steps: Lent<u16>, budget: u16 },
    Trial { floor: Lent<u16>, walls: Lent<u16>, order: u16, seed: u32, state: Lent<u16>, report: Lent<u16> },
    RunOfRank { floor: Lent<u16>, walls: Lent<u16>, rank: u64, report: Lent<u16> },
    Conflict { a: Lent<u16>, b: Lent<u16>, horizon: u16 },
    CheckRecord { floor: Lent<u16>, walls: Lent<u16>, carrier: u16, record: Lent<u16> },
    Arrival { route: Lent<u16>, horizon: u16 },
    Ceiling { carriers: u16 },
}

#[derive(Clone, Copy, PartialEq)]
enum Who {
    Library,
    Paper,
}

macro_rules! entry {
    ($who:expr, $name:ident($($argument:expr),*)) => {
        match $who {
            Who::Library => kalomivund::calls::$name($($argument),*),
            Who::Paper => paper::calls::$name($($argument),*),
        }
    };
}

impl Call {
    /// Makes the call by the library or by the paper; its answer word.
    fn make(&mut self, who: Who) -> u64 {
        match self {
            Call::ReadSheet { text, floor, walls } => {
                entry!(who, read_sheet(text.part(), floor.part_mut(), walls.part_mut()))
            }
            Call::WriteSheet { floor, walls, out } => {
                entry!(who, write_sheet(floor.part(), walls.part(), out.part_mut()))
            }
            Call::CheckFloor { floor, walls } => entry!(who, check_floor(floor.part(), walls.part())),
            Call::NeededLengths { floor, out } => entry!(who, needed_lengths(floor.part(), out.part_mut())),
            Call::Search { floor, walls, carrier, views, route } => {
                entry!(who, search(floor.part(), walls.part(), *carrier, views.part(), route.part_mut()))
            }
            Call::Plan { floor, walls, answers } => entry!(who, plan(floor.part(), walls.part(), answers.part_mut())),
            Call::Blockers { floor, walls, carrier, answers } => {
                entry!(who, blockers(floor.part(), walls.part(), *carrier, answers.part_mut()))
            }
            Call::PrintRoutes { text, out } => entry!(who, print_routes(text.part(), out.part_mut())),
            Call::Fresh { floor, walls, state } => entry!(who, fresh(floor.part(), walls.part(), state.part_mut())),
            Call::Step { floor, walls, state, step } => {
                entry!(who, step(floor.part(), walls.part(), state.part_mut(), *step))
            }
            Call::Run { floor, walls, state, steps, budget } => {
                entry!(who, run(floor.part(), walls.part(), state.part_mut(), steps.part(), *budget))
            }
            Call::Trial { floor, walls, order, seed, state, report } => {
                entry!(who, trial(floor.part(), walls.part(), *order, *seed, state.part_mut(), report.part_mut()))
            }
            Call::RunOfRank { floor, walls, rank, report } => {
                entry!(who, run_of_rank(floor.part(), walls.part(), *rank, report.part_mut()))
            }
            Call::Conflict { a, b, horizon } => entry!(who, conflict(a.part(), b.part(), *horizon)),
            Call::CheckRecord { floor, walls, carrier, record } => {
                entry!(who, check_record(floor.part(), walls.part(), *carrier, record.part()))
            }
            Call::Arrival { route, horizon } => entry!(who, arrival(route.part(), *horizon)),
            Call::Ceiling { carriers } => entry!(who, ceiling(*carriers)),
        }
    }

    fn name(&self) -> &'static str {
        match self {
            Call::ReadSheet { .. } => "read_sheet",
            Call::WriteSheet { .. } => "write_sheet",
            Call::CheckFloor { .. } => "check_floor",
            Call::NeededLengths { .. } => "needed_lengths",
            Call::Search { .. } => "search",
            Call::Plan { .. } => "plan",
            Call::Blockers { .. } => "blockers",
            Call::PrintRoutes { .. } => "print_routes",
            Call::Fresh { .. } => "fresh",
            Call::Step { .. } => "step",
            Call::Run { .. } => "run",
            Call::Trial { .. } => "trial",
            Call::RunOfRank { .. } => "run_of_rank",
            Call::Conflict { .. } => "conflict",
            Call::CheckRecord { .. } => "check_record",
            Call::Arrival { .. } => "arrival",
            Call::Ceiling { .. } => "ceiling",
        }
    }

    /// The call in few words, for a replay.
    fn short(&self) -> String {
        let floor = |floor: &Lent<u16>, walls: &Lent<u16>| format!("floor {:?} walls {:?}", floor.part(), walls.part());
        let text = |text: &Lent<u8>| format!("{:?}", String::from_utf8_lossy(text.part()));
        match self {
            Call::ReadSheet { text: t, floor: f, walls: w } => {
                format!("{} floor of {} walls of {}", text(t), f.length, w.length)
            }
            Call::WriteSheet { floor: f, walls: w, out } => format!("{} out of {}", floor(f, w), out.length),
            Call::CheckFloor { floor: f, walls: w } => floor(f, w),
            Call::NeededLengths { floor: f, out } => format!("floor {:?} out of {}", f.part(), out.length),
            Call::Search { floor: f, walls: w, carrier, views, route } => {
                format!("{} carrier {carrier} views {:?} route of {}", floor(f, w), views.part(), route.length)
            }
            Call::Plan { floor: f, walls: w, answers } => format!("{} answers of {}", floor(f, w), answers.length),
            Call::Blockers { floor: f, walls: w, carrier, answers } => {
                format!("{} carrier {carrier} answers of {}", floor(f, w), answers.length)
            }
            Call::PrintRoutes { text: t, out } => format!("{} out of {}", text(t), out.length),
            Call::Fresh { floor: f, walls: w, state } => format!("{} state of {}", floor(f, w), state.length),
            Call::Step { floor: f, walls: w, state, step } => {
                format!("{} state of {} step {step}", floor(f, w), state.length)
            }
            Call::Run { floor: f, walls: w, state, steps, budget } => {
                format!("{} state of {} steps {:?} budget {budget}", floor(f, w), state.length, steps.part())
            }
            Call::Trial { floor: f, walls: w, order, seed, state, report } => {
                format!("{} order {order} seed {seed} state of {} report of {}", floor(f, w), state.length, report.length)
            }
            Call::RunOfRank { floor: f, walls: w, rank, report } => {
                format!("{} rank {rank} report of {}", floor(f, w), report.length)
            }
            Call::Conflict { a, b, horizon } => format!("{:?} {:?} horizon {horizon}", a.part(), b.part()),
            Call::CheckRecord { floor: f, walls: w, carrier, record } => {
                format!("{} carrier {carrier} record {:?}", floor(f, w), record.part())
            }
            Call::Arrival { route, horizon } => format!("{:?} horizon {horizon}", route.part()),
            Call::Ceiling { carriers } => format!("{carriers}"),
        }
    }
}

/// An answer word in words.
fn in_words(word: u64) -> String {
    let (second, third) = (word >> 8 & 255, word >> 16);
    match word & 255 {
        0 => format!("done, case {second}, number {third}"),
        1 => format!("refused {second}, place {third}"),
        _ => format!("no answer word: {word:#x}"),
    }
}

// ---- The comparison ----

/// What has been seen: for each entry how often each case and each refusal came up.
#[derive(Default)]
struct Tally {
    seen: BTreeMap<(&'static str, bool, u64), u64>,
    calls: u64,
    verbose: bool,
    replay: String,
}

impl Tally {
    /// Makes a call by both, compares, and gives back the answer word with the call as it was left.
    fn compare(&mut self, call: Call) -> (u64, Call) {
        let (mut ours, mut theirs) = (call.clone(), call.clone());
        let library = ours.make(Who::Library);
        let paper = theirs.make(Who::Paper);
        if self.verbose {
            println!("{} {}\n    {}", call.name(), call.short(), in_words(paper));
        }
        if library != paper || ours != theirs {
            println!("DIFFERENT: {} {}", call.name(), call.short());
            println!("    library: {}\n    paper:   {}", in_words(library), in_words(paper));
            for (place, (a, b)) in numbers(&ours).iter().zip(&numbers(&theirs)).enumerate().filter(|(_, (a, b))| a != b).take(20)
            {
                println!("    number {place} of all that is lent, margins included: library {a}, paper {b}");
            }
            println!("replay: compare {}", self.replay);
            exit(1);
        }
        if paper & 255 == 1 && theirs != call {
            self.fault("the paper's own refused call wrote memory");
        }
        self.calls += 1;
        *self.seen.entry((call.name(), paper & 255 == 1, paper >> 8 & 255)).or_default() += 1;
        (library, ours)
    }

    fn fault(&self, what: &str) -> ! {
        println!("FAULT: {what}\nreplay: compare {}", self.replay);
        exit(1);
    }

    /// Every outcome that must have come up did.
    fn complete(&self) -> bool {
        let floor = [2, 3, 4, 5, 6, 9, 17];
        let with = |more: &[u64]| [&floor[..], more].concat();
        let wanted: Vec<(&'static str, Vec<u64>, Vec<u64>)> = vec![
            ("read_sheet", vec![0], with(&[1])),
            ("write_sheet", vec![0], with(&[])),
            ("check_floor", vec![0], with(&[])),
            ("needed_lengths", vec![0], vec![2, 9]),
            ("search", vec![0, 1], with(&[7])),
            ("plan", vec![0], with(&[])),
            ("blockers", vec![0], with(&[7, 16])),
            ("print_routes", vec![0], with(&[1])),
            ("fresh", vec![0], with(&[])),
            ("step", vec![0, 1, 2], with(&[7, 8, 10, 12, 13])),
            ("run", vec![0, 1, 2], with(&[7, 10])),
            ("trial", vec![0], with(&[11])),
            ("run_of_rank", vec![1, 3, 4, 6, 7, 8, 9, 10, 11], with(&[14, 15])),
            ("conflict", vec![0, 1, 2, 3], vec![9]),
            ("check_record", vec![0, 1, 2, 3, 4, 5, 6, 7, 8], with(&[7])),
            ("arrival", vec![0], vec![9]),
            ("ceiling", vec![0], vec![2]),
        ];
        let mut keys = Vec::new();
        for (name, done, refused) in wanted {
            keys.extend(done.iter().map(|&case| (name, false, case)));
            keys.extend(refused.iter().map(|&number| (name, true, number)));
        }
        let missing: Vec<_> = keys.iter().filter(|key| !self.seen.contains_key(key)).collect();
        let beyond: Vec<_> = self.seen.keys().filter(|key| !keys.contains(key)).collect();
        if !missing.is_empty() || !beyond.is_empty() {
            println!("never came up: {missing:?}\nshould not come up: {beyond:?}");
        }
        missing.is_empty() && beyond.is_empty()
    }

    fn print(&self) {
        let mut lines: BTreeMap<&str, String> = BTreeMap::new();
        for (&(name, refused, second), count) in &self.seen {
            let kind = if refused { "refusal" } else { "case" };
            *lines.entry(name).or_default() += &format!("  {kind} {second}: {count}");
        }
        for (name, line) in lines {
            println!("{name:>15}{line}");
        }
    }
}

/// All numbers of a call's memory, in one row.
fn numbers(call: &Call) -> Vec<u64> {
    fn wide<T: Copy + Into<u64>>(lent: &Lent<T>) -> Vec<u64> {
        lent.all.iter().map(|&x| x.into()).collect()
    }
    match call {
        Call::ReadSheet { text, floor, walls } => [wide(text), wide(floor), wide(walls)].concat(),
        Call::WriteSheet { floor, walls, out } => [wide(floor), wide(walls), wide(out)].concat(),
        Call::CheckFloor { floor, walls } => [wide(floor), wide(walls)].concat(),
        Call::NeededLengths { floor, out } => [wide(floor), out.all.clone()].concat(),
        Call::Search { floor, walls, views, route, .. } => [wide(floor), wide(walls), wide(views), wide(route)].concat(),
        Call::Plan { floor, walls, answers } => [wide(floor), wide(walls), wide(answers)].concat(),
        Call::Blockers { floor, walls, answers, .. } => [wide(floor), wide(walls), wide(answers)].concat(),
        Call::PrintRoutes { text, out } => [wide(text), wide(out)].concat(),
        Call::Fresh { floor, walls, state } => [wide(floor), wide(walls), wide(state)].concat(),
        Call::Step { floor, walls, state, .. } => [wide(floor), wide(walls), wide(state)].concat(),
        Call::Run { floor, walls, state, steps, .. } => [wide(floor), wide(walls), wide(state), wide(steps)].concat(),
        Call::Trial { floor, walls, state, report, .. } => [wide(floor), wide(walls), wide(state), wide(report)].concat(),
        Call::RunOfRank { floor, walls, report, .. } => [wide(floor), wide(walls), wide(report)].concat(),
        Call::Conflict { a, b, .. } => [wide(a), wide(b)].concat(),
        Call::CheckRecord { floor, walls, record, .. } => [wide(floor), wide(walls), wide(record)].concat(),
        Call::Arrival { route, .. } => wide(route),
        Call::Ceiling { .. } => Vec::new(),
    }
}

// ---- Drawn records and views ----

/// The place of a start (0) or of a dock (from 1) of a carrier (from 0) in a record.
fn place_of(i: usize, k: usize) -> usize {
    if k == 0 { 6 + i } else { 22 + 4 * i + k - 1 }
}

/// A floor as a lent record and lent walls, with junk in the places that are no part of it.
fn draw_record(draw: &mut Draw, floor: &Floor) -> (Vec<u16>, Vec<u16>) {
    let mut record = paper::record_of(floor).to_vec();
    for i in 0..8 {
        let docks = floor.docks.get(i).map_or(0, |docks| docks.len());
        if docks == 0 {
            record[6 + i] = draw.next() as u16;
            record[14 + i] = draw.next() as u16;
        }
        (docks + 1..=4).for_each(|k| record[place_of(i, k)] = draw.next() as u16);
    }
    let mut walls: Vec<u16> = floor.walls.iter().map(|&c| c as u16).collect();
    for _ in 0..draw.below(4) {
        record.push(draw.next() as u16);
        walls.push(draw.next() as u16);
    }
    (record, walls)
}

/// Spoils a record or its walls in one way.
fn spoil_record(draw: &mut Draw, record: &mut Vec<u16>, walls: &mut Vec<u16>, floor: &Floor) {
    let (n, count) = (floor.carriers(), floor.walls.len());
    let i = draw.below(n);
    let docks = floor.docks[i].len();
    match draw.below(11) {
        0 => record[draw.below(6)] = odd(draw, floor.cells()) as u16,
        1 => record[place_of(i, draw.below(1 + docks))] = odd(draw, floor.cells()) as u16,
        2 if count > 0 => walls[draw.below(count)] = odd(draw, floor.cells()) as u16,
        3 if count > 1 => walls.swap(draw.below(count), draw.below(count)),
        4 if count > 1 => walls[draw.below(count)] = walls[draw.below(count)],
        5 if count > 0 => record[place_of(i, draw.below(1 + docks))] = walls[draw.below(count)],
        6 => record[6 + i] = record[6 + draw.below(n)],
        7 => walls.truncate(draw.below(walls.len() + 1)),
        8 if draw.percent(30) => record.truncate(draw.below(paper::RECORD)),
        9 => {
            // A dock twice: behind the others, or in place of one.
            let twice = record[place_of(i, 1 + draw.below(docks))];
            let to = if docks < 4 { docks + 1 } else { 1 + draw.below(docks) };
            record[14 + i] = docks.max(to) as u16;
            record[place_of(i, to)] = twice;
        }
        10 => record[14 + i] = draw.of(&[0, 1, 2, 3, 4, 5, 65535]),
        _ => record[5] = record[5].wrapping_add(1),
    }
}

/// Views lent to a search: answers as they come, none, not heard, and numbers that are no route.
fn draw_views(draw: &mut Draw, floor: &Floor) -> Vec<u16> {
    let (w, cells) = (floor.width, floor.cells());
    let mut views = Vec::new();
    for i in 0..floor.carriers() {
        let tag = draw.of(&[2, 2, 2, 2, 2, 1, 0, 3, 65535]);
        views.push(tag);
        let wild = draw.percent(10);
        let dock = draw.of(&floor.docks[draw.0 as usize % floor.carriers()]);
        let mut c = draw.of(&[floor.starts[i], draw.0 as usize % cells, dock]);
        let parked = draw.percent(20);
        for _ in 0..64 {
            views.push(if wild { draw.of(&[c as u16, cells as u16, 65535]) } else { c as u16 });
            let near = draw.of(&[c.wrapping_sub(w), c.wrapping_sub(1), c, c + 1, c + w]);
            if near < cells && !parked && draw.percent(80) {
                c = near;
            }
        }
    }
    views
}

/// A length that is mostly enough, at times longer, seldom too short.
fn about(draw: &mut Draw, needed: usize) -> usize {
    match draw.below(100) {
        0..=3 => needed.saturating_sub(1),
        4 => draw.below(needed + 1),
        5..=60 => needed,
        _ => needed + draw.between(1, 9),
    }
}

// ---- The cases ----

/// One sheet: read, printed, and written again; then its floor as a record, at times spoilt, through the entries over records.
fn sheet_case(seed: u64, tally: &mut Tally) -> bool {
    let draw = &mut Draw(seed.wrapping_mul(0x5851_f42d_4c95_7f2d));
    let (bytes, floor) = draw_sheet(draw);
    let text = Lent::of(&bytes, draw.next() as u8);

    let room = if draw.percent(50) { floor.walls.len() } else { 1023 };
    let record_length = about(draw, paper::RECORD);
    let wall_length = about(draw, room);
    let call = Call::ReadSheet { text: text.clone(), floor: junk(draw, record_length), walls: junk(draw, wall_length) };
    let (word, call) = tally.compare(call);
    let accepted = word == 0;
    if let (true, Call::ReadSheet { floor, walls, .. }) = (accepted, call) {
        let length = about(draw, bytes.len());
        let (word, call) = tally.compare(Call::WriteSheet { floor, walls, out: junk_bytes(draw, length) });
        if let (true, Call::WriteSheet { out, .. }) = (word & 255 == 0, call) {
            if word >> 16 != bytes.len() as u64 || out.part()[..bytes.len()] != bytes[..] {
                tally.fault("a sheet that is read and written is another");
            }
        }
    }

    let needed = draw.of(&[16, 11 + 331 * floor.carriers(), 2659]);
    let length = about(draw, needed);
    let call = Call::PrintRoutes { text, out: junk_bytes(draw, length) };
    tally.compare(call);

    let (mut record, mut walls) = draw_record(draw, &floor);
    for _ in 0..draw.of(&[0, 0, 1, 1, 2, 3]) {
        if record.len() >= paper::RECORD && walls.len() >= floor.walls.len() {
            spoil_record(draw, &mut record, &mut walls, &floor);
        }
    }
    let margin = draw.next() as u16;
    let (record, walls) = (Lent::of(&record, margin), Lent::of(&walls, margin));
    tally.compare(Call::CheckFloor { floor: record.clone(), walls: walls.clone() });
    let length = about(draw, 9);
    let out = Lent::of(&vec![draw.next(); length], 77);
    tally.compare(Call::NeededLengths { floor: record.clone(), out });
    let length = about(draw, bytes.len());
    tally.compare(Call::WriteSheet { floor: record.clone(), walls: walls.clone(), out: junk_bytes(draw, length) });

    let answers_length = about(draw, 65 * floor.carriers());
    let answers = junk(draw, answers_length);
    let (word, call) = tally.compare(Call::Plan { floor: record.clone(), walls: walls.clone(), answers });
    blockers_cases(draw, &floor, (word, call), &record, &walls, tally);
    for _ in 0..3 {
        let mut views = draw_views(draw, &floor);
        views.resize(answers_length, 2);
        let views = Lent::of(&views, margin);
        let n = floor.carriers();
        let carrier = draw.of(&[n, n, n, 1, 1 + n / 2, draw.0 as usize % n + 1, 0, n + 1, 65535]) as u16;
        let length = about(draw, 64);
        let route = junk(draw, length);
        tally.compare(Call::Search { floor: record.clone(), walls: walls.clone(), carrier, views, route });
    }
    accepted
}

/// Who shuts in every stranded carrier of a floor that was planned, and one carrier more: with a route, not there, or on a refused floor.
fn blockers_cases(
    draw: &mut Draw,
    floor: &Floor,
    planned: (u64, Call),
    record: &Lent<u16>,
    walls: &Lent<u16>,
    tally: &mut Tally,
) {
    let n = floor.carriers();
    let mut carriers: Vec<u16> = Vec::new();
    if let (0, Call::Plan { answers, .. }) = (planned.0 & 255, planned.1) {
        carriers.extend((0..n).filter(|i| answers.part()[65 * i] == 1).map(|i| i as u16 + 1));
    }
    carriers.push(draw.of(&[n, n, 1, 0, n + 1, 65535]) as u16);
    for carrier in carriers {
        let length = about(draw, 65 * n);
        let answers = junk(draw, length);
        tally.compare(Call::Blockers { floor: record.clone(), walls: walls.clone(), carrier, answers });
    }
}

/// A number for a step: open, named, or naming nothing.
fn draw_step(draw: &mut Draw, floor: &Floor, state: Option<&paper::State>, odd: usize) -> u16 {
    let named = paper::steps_of(floor.carriers());
    if draw.percent(odd) {
        let any = draw.next() as u16;
        let near = draw.below(300) as u16;
        return draw.of(&[0, 1, 99, 100, 109, 110, 112, 200, 201, 210, 211, 221, 222, 289, 301, any, near, near]);
    }
    let open: Vec<u16> = match state {
        Some(state) => named.iter().filter(|(_, step)| state.is_open(floor, *step)).map(|(number, _)| *number).collect(),
        None => Vec::new(),
    };
    if !open.is_empty() && draw.percent(70) {
        draw.of(&open)
    } else {
        draw.of(&named).0
    }
}

/// Changes a number of a state.
fn spoil_state(draw: &mut Draw, state: &mut Lent<u16>, floor: &Floor) {
    let n = floor.carriers();
    let pairs = n * (n - 1) / 2;
    let (views, channels) = (2 + 67 * n, 2 + 67 * n + 65 * pairs);
    // The head of each part more often than its 64 cells.
    let mut places = vec![draw.below(2), 2 + 67 * draw.below(n) + draw.below(4), draw.below(paper::state_length(n))];
    if pairs > 0 {
        places.push(views + 65 * draw.below(pairs) + draw.below(2));
        places.push(channels + 261 * draw.below(pairs));
        places.push(channels + 261 * draw.below(pairs) + 1 + 65 * draw.below(4) + draw.below(2));
        let beat = draw.of(&[0, floor.horizon, floor.horizon + 1, 63]);
        places.push(views + 65 * draw.below(pairs) + 1 + beat.min(63));
        places.push(channels + 261 * draw.below(pairs) + 2 + 65 * draw.below(4) + beat.min(63));
    }
    let place = draw.of(&places);
    let value = match place {
        0 | 1 => draw.of(&[0, 1, 998, 999, 1000, 1001, 65535]),
        _ => odd(draw, floor.cells()) as u16,
    };
    match draw.below(10) {
        0 => {
            // The count at its end.
            state.part_mut()[0] = 999;
            state.part_mut()[1] = draw.of(&[997, 998, 999]);
        }
        1 if pairs > 0 => {
            // A channel of nones: as many as it holds, one too many, or one less than it says.
            let at = channels + 261 * draw.below(pairs);
            let length = draw.of(&[1, floor.depth, floor.depth + 1]).min(4);
            let messages = length - draw.below(4) / 3;
            let channel = &mut state.part_mut()[at..at + 261];
            channel.fill(0);
            channel[0] = length as u16;
            (0..messages).for_each(|k| channel[1 + 65 * k] = 1);
        }
        _ => state.part_mut()[place] = value,
    }
}

/// A list of calls on one state: steps and runs, refused ones included, memory too short, spoilt floors and spoilt states.
fn list_case(seed: u64, tally: &mut Tally) {
    let draw = &mut Draw(seed.wrapping_mul(0x2545_f491_4f6c_dd1d) ^ 0xface);
    let most = draw.of(&[5, 5, 10, 10, 10, 32]);
    let floor = draw_floor(draw, most);
    let n = floor.carriers();
    let needed = paper::state_length(n);
    let (record, walls) = draw_record(draw, &floor);
    let margin = draw.next() as u16;
    let (good_record, good_walls) = (Lent::of(&record, margin), Lent::of(&walls, margin));
    let extra = draw.of(&[0, 0, 1, 7, 70]);
    let mut state = junk(draw, needed + extra);
    if draw.percent(5) {
        state.part_mut().fill(0);
    }
    if draw.percent(95) {
        let call = Call::Fresh { floor: good_record.clone(), walls: good_walls.clone(), state };
        let (_, call) = tally.compare(call);
        let Call::Fresh { state: left, .. } = call else { unreachable!() };
        state = left;
    }
    for _ in 0..draw.between(4, 24) {
        let (mut record, mut walls, mut length) = (good_record.clone(), good_walls.clone(), state.length);
        let before = state.clone();
        let mut spoilt = false;
        match draw.below(100) {
            0..=3 => {
                let (mut r, mut w) = (record.part().to_vec(), walls.part().to_vec());
                spoil_record(draw, &mut r, &mut w, &floor);
                (record, walls) = (Lent::of(&r, margin), Lent::of(&w, margin));
            }
            4..=5 => length = if draw.percent(60) { needed - 1 } else { draw.below(needed) },
            6 => length = needed,
            7..=14 => {
                spoilt = true;
                for _ in 0..draw.of(&[1, 1, 1, 2]) {
                    spoil_state(draw, &mut state, &floor);
                }
            }
            _ => {}
        }
        let lent = state.clone().cut(length);
        let now = paper::decode(&floor, &state.part()[..needed]);
        let again = if now.as_ref().is_some_and(|now| now.is_silent(&floor)) { 25 } else { 2 };
        let call = match draw.below(100) {
            kind if kind < again => Call::Fresh { floor: record, walls, state: lent },
            0..=64 => {
                let step = draw_step(draw, &floor, now.as_ref(), 8);
                Call::Step { floor: record, walls, state: lent, step }
            }
            _ => {
                let count = draw.of(&[0, 1, 2, 3, 5, 8, 13, 30]);
                let odd = if draw.percent(15) { 10 } else { 0 };
                let steps: Vec<u16> = (0..count).map(|_| draw_step(draw, &floor, now.as_ref(), odd)).collect();
                let drawn = draw.below(40) as u16;
                let budget = draw.of(&[0, 1, 2, 3, 5, 100, 65535, drawn, count, count]);
                Call::Run { floor: record, walls, state: lent, steps: Lent::of(&steps, margin), budget }
            }
        };
        let (_, call) = tally.compare(call);
        let (Call::Fresh { state: left, .. } | Call::Step { state: left, .. } | Call::Run { state: left, .. }) = call else {
            unreachable!()
        };
        state.all = left.all;
        // A state that is no longer one would be refused by every later call.
        let valid = paper::decode(&floor, &state.part()[..needed]).is_some();
        if spoilt && (!valid || draw.percent(40)) {
            state = before;
        }
    }
    if draw.percent(30) {
        // To silence, in an order of its own: what is left is the planner's, as long as nobody spoilt the state.
        let named: Vec<u16> = paper::steps_of(n).iter().map(|(number, _)| *number).collect();
        let order = draw.different(named.len(), named.len());
        let steps: Vec<u16> = (0..(1 << n) + 4).flat_map(|_| order.iter().map(|&k| named[k])).collect();
        let call = Call::Run { floor: good_record, walls: good_walls, state, steps: Lent::of(&steps, margin), budget: 65535 };
        tally.compare(call);
    }
}

/// A trial of a floor with every order, 0, 4 and 65535 among them: memory too short and spoilt floors included.
fn trial_case(seed: u64, tally: &mut Tally) {
    let draw = &mut Draw(seed.wrapping_mul(0x9e37_79b9_7f4a_7c15) ^ 0x7a1a);
    let most = draw.of(&[4, 5, 5, 8, 10]);
    let floor = draw_floor(draw, most);
    let (mut record, mut walls) = draw_record(draw, &floor);
    if draw.percent(10) && record.len() >= paper::RECORD && walls.len() >= floor.walls.len() {
        spoil_record(draw, &mut record, &mut walls, &floor);
    }
    let margin = draw.next() as u16;
    let n = floor.carriers();
    let steps = (2 << n) - n - 2;
    let (state_length, report_length) = (about(draw, paper::state_length(n)), about(draw, 2 * steps));
    let (state, report) = (junk(draw, state_length), junk(draw, report_length));
    let order = draw.of(&[1, 1, 1, 2, 2, 2, 2, 3, 3, 3, 3, 3, 3, 3, 0, 4, 65535]);
    let any = draw.next() as u32;
    let seed = draw.of(&[any, any, any, any, 0, 1, u32::MAX]);
    let (record, walls) = (Lent::of(&record, margin), Lent::of(&walls, margin));
    tally.compare(Call::Trial { floor: record, walls, order, seed, state, report });
}

/// The runs of a floor, at most three carriers as a rule: every rank of a small total and 40 of a large one, ranks not below the total,
/// memory too short and spoilt floors included.
fn rank_case(seed: u64, tally: &mut Tally) {
    let draw = &mut Draw(seed.wrapping_mul(0x9e37_79b9_7f4a_7c15) ^ 0x6a6e);
    let mut floor = draw_floor(draw, 5);
    let most = draw.of(&[1, 2, 2, 3, 3, 3, 3, 3, 3, 8]);
    floor.starts.truncate(most);
    floor.docks.truncate(most);
    let n = floor.carriers();
    let (mut record, mut walls) = draw_record(draw, &floor);
    if draw.percent(10) && record.len() >= paper::RECORD && walls.len() >= floor.walls.len() {
        spoil_record(draw, &mut record, &mut walls, &floor);
    }
    let margin = draw.next() as u16;
    let needed = 2 * ((2 << n) - n - 2);
    let (record, walls) = (Lent::of(&record, margin), Lent::of(&walls, margin));
    let call = |rank: u64, report: Lent<u16>| Call::RunOfRank { floor: record.clone(), walls: walls.clone(), rank, report };
    let length = about(draw, needed);
    let short = junk(draw, length);
    let any = draw.next();
    tally.compare(call(any, short));
    let (word, _) = tally.compare(call(0, Lent::of(&vec![7; needed], margin)));
    if word & 255 != 0 {
        return;
    }
    let total = word >> 16;
    let step = 1 + total / 40;
    for rank in (0..total).step_by(step as usize).chain([total - 1, total, total + 1, u64::MAX]) {
        let report = junk(draw, needed);
        tally.compare(call(rank, report));
    }
}

/// Every rank of a floor of three carriers, the shortest run of six steps and the first rank that is refused among them.
fn all_ranks(tally: &mut Tally) {
    tally.replay = "".into();
    let (starts, docks) = (vec![0, 8, 16], vec![vec![7], vec![15], vec![23]]);
    let floor = Floor { width: 8, height: 3, horizon: 10, depth: 1, starts, docks, walls: Vec::new() };
    let (record, walls) = (Lent::of(&paper::record_of(&floor), 7), Lent::of(&[0u16; 0], 7));
    for rank in 0..=495u64 {
        let report = Lent::of(&[9u16; 22], 7);
        tally.compare(Call::RunOfRank { floor: record.clone(), walls: walls.clone(), rank, report });
    }
}

/// So many cells of a walk on a grid, with jumps and numbers outside it in so many of a hundred moves.
fn draw_walk(draw: &mut Draw, length: usize, width: usize, cells: usize, wild: usize) -> Vec<u16> {
    let mut c = draw.below(cells);
    let mut walk = Vec::new();
    for _ in 0..length {
        walk.push(c as u16);
        let near = draw.of(&[c.wrapping_sub(width), c.wrapping_sub(1), c, c + 1, c + width]);
        let jump = draw.below(cells);
        if draw.percent(wild) {
            c = draw.of(&[jump, cells, 65535]);
        } else if near < cells {
            c = near;
        }
    }
    walk
}

/// Two routes and a horizon: walks that cross, or walks far apart that are made to meet at one beat in one way, around the horizon too.
fn pair_case(seed: u64, tally: &mut Tally) {
    let draw = &mut Draw(seed.wrapping_mul(0x2545_f491_4f6c_dd1d) ^ 0x9a1c);
    let (cells, wild) = (draw.of(&[2, 3, 4, 6, 9, 30, 1024]), draw.of(&[0, 0, 2, 30]));
    let width = draw.between(1, cells.min(32));
    let any = draw.below(66);
    let horizon = draw.of(&[0, 1, 2, 3, 8, 31, 62, 63, 64, 65535, any, any, any]);
    let (first, second) = (about(draw, 64), about(draw, 64));
    let mut a = draw_walk(draw, first, width, cells, wild);
    let mut b = draw_walk(draw, second, width, cells, wild);
    if draw.percent(60) {
        b.iter_mut().for_each(|c| *c = c.wrapping_add(3000));
        let last = horizon.min(63);
        let beat = draw.of(&[draw.0 as usize % 64, last.saturating_sub(1), last, last + 1]);
        if beat + 1 < a.len().min(b.len()) {
            let way = draw.below(6);
            if way == 0 || way == 2 || way == 3 {
                b[beat] = a[beat];
            }
            if way == 1 || way == 2 {
                (b[beat], b[beat + 1]) = (a[beat + 1], a[beat]);
            }
            if way == 3 {
                a[beat + 1] = a[beat];
                b[beat + 1] = a[beat];
            }
            if way == 4 {
                b[beat + 1] = a[beat];
            }
            if way == 5 {
                b[beat] = a[beat + 1];
            }
        }
    }
    let margin = draw.next() as u16;
    let (a, b) = (Lent::of(&a, margin), Lent::of(&b, margin));
    tally.compare(Call::Conflict { a: a.clone(), b: b.clone(), horizon: horizon as u16 });
    tally.compare(Call::Conflict { a: b, b: a, horizon: horizon as u16 });
}

/// A route of a carrier (from 0), if one is found: a walk off the walls for some beats, and from there the best way on.
fn draw_route(draw: &mut Draw, floor: &Floor, carrier: usize) -> Option<paper::Route> {
    let (width, cells) = (floor.width, floor.cells());
    let walked = draw.of(&[0, 0, draw.0 as usize % 8, draw.0 as usize % floor.horizon]).min(floor.horizon);
    let mut c = floor.starts[carrier];
    let mut route = [0; 64];
    for cell in route.iter_mut().take(walked) {
        *cell = c as u16;
        let near = draw.of(&[c.wrapping_sub(width), c.wrapping_sub(1), c, c + 1, c + width]);
        let beside = near < cells && (near % width).abs_diff(c % width) + (near / width).abs_diff(c / width) <= 1;
        if beside && !floor.walls.contains(&near) {
            c = near;
        }
    }
    let rest = Floor { horizon: floor.horizon - walked, ..floor.clone() };
    let way = paper::best_route(&rest, c, &floor.docks[carrier], &[])?;
    route[walked..].copy_from_slice(&way[..64 - walked]);
    Some(route)
}

/// Damages a record in one way.
fn damage(draw: &mut Draw, record: &mut [u16], floor: &Floor) {
    let (width, cells, horizon) = (floor.width, floor.cells(), floor.horizon);
    let any = draw.below(64);
    let used = draw.below(horizon + 1);
    let place = 1 + draw.of(&[used, used, used, 0, horizon, any, (horizon + 1).min(63), 63]);
    let c = record[place] as usize;
    let corner = draw.of(&[c + width + 1, c.wrapping_sub(width + 1), (c + width).wrapping_sub(1), (c + 1).wrapping_sub(width)]);
    let wall = if floor.walls.is_empty() { cells } else { draw.of(&floor.walls) };
    let other = draw.below(cells);
    match draw.below(9) {
        0 => record[place] = draw.of(&[other, other, cells, cells - 1, 1024, 65535]) as u16,
        1 => record[place] = wall as u16,
        2 => record[place] = corner as u16,
        3 => record[place] = draw.of(&[c + 1, c.wrapping_sub(1), c + width, c.wrapping_sub(width)]) as u16,
        4 => record.swap(place, 1 + draw.below(64)),
        5 => record[0] = draw.of(&[0, 1, 2, 3, 65535]),
        6 => record[place..].fill(draw.of(&[other, c, 0]) as u16),
        7 => record[1..].rotate_left(1),
        _ => record[1..].copy_within(..63, 1),
    }
}

/// A record for a carrier, and a route with a horizon: routes of the carrier and of another one, none, not heard, walks; whole or damaged.
fn record_case(seed: u64, tally: &mut Tally) {
    let draw = &mut Draw(seed.wrapping_mul(0x9e6c_63d0_876a_3f35) ^ 0x7e11);
    let floor = draw_floor(draw, 32);
    let n = floor.carriers();
    let carrier = draw.below(n);
    let whose = if draw.percent(90) { carrier } else { draw.below(n) };
    let mut record = vec![0; 65];
    match draw.below(20) {
        0 => record[0] = 1,
        1 => {}
        2 => {
            record = draw_walk(draw, 65, floor.width, floor.cells(), 5);
            record[0] = 2;
        }
        _ => {
            if let Some(route) = draw_route(draw, &floor, whose) {
                record[0] = 2;
                record[1..].copy_from_slice(&route);
            }
        }
    }
    for _ in 0..draw.of(&[0, 0, 1, 1, 1, 2, 3]) {
        damage(draw, &mut record, &floor);
    }
    let length = about(draw, 65);
    record.truncate(length);
    (record.len()..length).for_each(|_| record.push(draw.next() as u16));
    let (mut numbers, mut walls) = draw_record(draw, &floor);
    if draw.percent(8) {
        spoil_record(draw, &mut numbers, &mut walls, &floor);
    }
    let asked = if draw.percent(3) { draw.of(&[0, n + 1, 9, 65535]) } else { carrier + 1 } as u16;
    let margin = draw.next() as u16;
    let (lent, lent_walls, lent_record) = (Lent::of(&numbers, margin), Lent::of(&walls, margin), Lent::of(&record, margin));
    tally.compare(Call::CheckRecord { floor: lent, walls: lent_walls, carrier: asked, record: lent_record });
    let any = draw.below(66);
    let horizon = draw.of(&[floor.horizon, floor.horizon, any, 63, 64, 65535]) as u16;
    tally.compare(Call::Arrival { route: Lent::of(record.get(1..).unwrap_or(&[]), margin), horizon });
}

/// The ceiling of every number of carriers.
fn ceilings(tally: &mut Tally) {
    tally.replay = "".into();
    for carriers in 0..=u16::MAX {
        tally.compare(Call::Ceiling { carriers });
    }
}

fn main() {
    let words: Vec<String> = std::env::args().skip(1).collect();
    let words: Vec<&str> = words.iter().map(String::as_str).collect();
    let number = |word: &str| {
        word.parse::<u64>().unwrap_or_else(|_| {
            eprintln!("compare: {word} is no number");
            exit(2);
        })
    };
    let whole = words.is_empty();
    let mut tally = Tally::default();
    let none = (1, 0);
    let kinds = ["sheet", "list", "trial", "rank", "pair", "record"];
    let all = [SHEETS, LISTS, TRIALS, RANKS, PAIRS, RECORDS].map(|count| (1, count));
    let only = |kind: &str, from: &str, count: u64| kinds.map(|k| if k == kind { (number(from), count) } else { none });
    let [sheets, lists, trials, ranks, pairs, records] = match words[..] {
        [] => all,
        [many, from, count] if kinds.iter().any(|kind| many.strip_suffix('s') == Some(kind)) => {
            only(&many[..many.len() - 1], from, number(count))
        }
        [one, seed] if kinds.contains(&one) => only(one, seed, 1),
        _ => {
            eprintln!("usage: compare [sheets | lists | trials | ranks | pairs | records FROM COUNT] | [sheet | list | trial | rank | pair | record SEED]");
            exit(2);
        }
    };
    tally.verbose = words.len() == 2;
    let begin = Instant::now();
    let mut accepted = 0;
    for seed in sheets.0..sheets.0 + sheets.1 {
        tally.replay = format!("sheet {seed}");
        accepted += sheet_case(seed, &mut tally) as u64;
    }
    let by_sheets = tally.calls;
    for seed in lists.0..lists.0 + lists.1 {
        tally.replay = format!("list {seed}");
        list_case(seed, &mut tally);
    }
    let by_lists = tally.calls - by_sheets;
    for seed in trials.0..trials.0 + trials.1 {
        tally.replay = format!("trial {seed}");
        trial_case(seed, &mut tally);
    }
    let by_trials = tally.calls;
    for seed in ranks.0..ranks.0 + ranks.1 {
        tally.replay = format!("rank {seed}");
        rank_case(seed, &mut tally);
    }
    let by_ranks = tally.calls - by_trials;
    for seed in pairs.0..pairs.0 + pairs.1 {
        tally.replay = format!("pair {seed}");
        pair_case(seed, &mut tally);
    }
    for seed in records.0..records.0 + records.1 {
        tally.replay = format!("record {seed}");
        record_case(seed, &mut tally);
    }
    if whole {
        all_ranks(&mut tally);
        ceilings(&mut tally);
    }
    tally.print();
    println!(
        "compare: {} sheets ({accepted} read, {by_sheets} calls), {} lists ({by_lists} calls), {} trials, the runs of {} floors \
         ({by_ranks} calls), {} pairs of routes, {} records, {} calls in all: library and paper agree, in {:.1} s",
        sheets.1,
        lists.1,
        trials.1,
        ranks.1,
        pairs.1,
        records.1,
        tally.calls,
        begin.elapsed().as_secs_f64()
    );
    if whole && !tally.complete() {
        exit(1);
    }
}
