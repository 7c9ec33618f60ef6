//! The script of the program `cases` replayed on `paper.rs`, the independent implementation of document 01: every answer of
//! `crates/cases/stdout` is computed anew, the counted figures among them. Without the archive and cargo, from the repository's root:
//!
//!     rustc --edition 2021 -O --test host/tests/cases.rs -o host/target/cases_test && host/target/cases_test
//!
//! A line's first letter is its command and its numbers are the arguments, as in the program; nothing else is shared with it.

#[path = "../src/paper.rs"]
mod paper;

use std::collections::VecDeque;

use paper::{calls, Answer, End, Floor, Kind, Route, State, Step, View};

const SCRIPT: &str = include_str!("../../crates/cases/stdin");
const EXPECTED: &str = include_str!("../../crates/cases/stdout");

/// What lent memory holds before anything is written into it.
const LENT: u16 = 777;

/// A number of a line, and whether a colon follows it.
struct Number {
    value: usize,
    named: bool,
}

/// The numbers of a line in front of its arrow.
fn numbers_of(line: &str) -> Vec<Number> {
    let mut rest = line.split("->").next().unwrap();
    let mut numbers = Vec::new();
    while let Some(start) = rest.find(|c: char| c.is_ascii_digit()) {
        rest = &rest[start..];
        let end = rest.find(|c: char| !c.is_ascii_digit()).unwrap_or(rest.len());
        numbers.push(Number { value: rest[..end].parse().unwrap(), named: rest[end..].starts_with(':') });
        rest = &rest[end..];
    }
    numbers
}

/// What a line finds: the numbers that lines set (a floor's line 1, each carrier's start and first dock; how many numbers of memory are
/// lent, at 90; how many steps there are to choose among, at 100, and these; each carrier's dock count, from 140 on, at first 1; its docks
/// behind the first, from 151, 155, 159 on and so forth; how many walls are lent, at 200, and these), and the memory that is lent.
struct Desk {
    set: [u16; 1224],
    lent: Vec<u16>,
}

// ---- The words of answers ----

fn refusal(word: u64) -> Option<String> {
    (word as u8 == 1).then(|| format!("refused {} {}", word >> 8 & 255, word >> 16))
}

fn passed(word: u64) -> String {
    refusal(word).unwrap_or("passed".into())
}

fn stepped(word: u64) -> String {
    refusal(word).unwrap_or_else(|| ["kept", "sent", "delivered"][(word >> 8) as usize & 255].into())
}

fn ran(word: u64) -> String {
    refusal(word).unwrap_or_else(|| format!("{} {}", ["silent", "spent", "ended"][(word >> 8) as usize & 255], word >> 16))
}

/// A number with a word before it.
fn told(label: &str, word: u64) -> String {
    refusal(word).unwrap_or_else(|| format!("{label} {}", word >> 16))
}

/// One of two texts.
fn either(good: bool, yes: &str, no: &str) -> String {
    if good { yes } else { no }.into()
}

// ---- Floors and memory ----

/// Writes the numbers of a line into memory; one with a colon behind it is the place of the next.
fn write(numbers: &[Number], memory: &mut [u16]) {
    let mut place = 0;
    for number in numbers {
        if number.named {
            place = number.value;
        } else {
            memory[place] = number.value as u16;
            place += 1;
        }
    }
}

/// The memory that a line writes out: the first so many numbers are 0 where no other is written, those behind are as lent.
fn written_out(numbers: &[Number], length: usize) -> Vec<u16> {
    let mut memory = vec![LENT; length];
    memory[..numbers[0].value].fill(0);
    write(&numbers[1..], &mut memory);
    memory
}

// ---- Conflicts ----

/// The pairs of carriers that both have a route.
fn pairs_of(answers: &[Answer]) -> Vec<(Route, Route)> {
    let routes: Vec<Route> = answers.iter().flatten().copied().collect();
    let above = |i: usize| routes[..i].iter().map(move |&r| r);
    (0..routes.len()).flat_map(|i| above(i).map(|r| (routes[i], r)).collect::<Vec<_>>()).collect()
}

/// How many pairs are in conflict.
fn conflicts_of(answers: &[Answer], horizon: usize) -> usize {
    pairs_of(answers).iter().filter(|(a, b)| paper::first_conflict(a, b, horizon).is_some()).count()
}

// ---- Orders ----

/// Of how many orders each thing holds.
#[derive(Default)]
struct Tally {
    orders: usize,
    right: usize,
    full: usize,
    failing: usize,
    steps: usize,
}

impl Tally {
    /// An order that came to silence after so many steps.
    fn note(&mut self, floor: &Floor, state: &State, taken: usize) {
        let (planned, failing) = paper::plan(floor);
        let most = (1 << (floor.carriers() + 1)) - floor.carriers() - 2;
        let answers: Vec<Answer> = state.carriers.iter().map(|carrier| carrier.answer).collect();
        let rests = state.carriers.iter().all(|carrier| !carrier.due && carrier.channels.iter().all(VecDeque::is_empty));
        let free = conflicts_of(&planned, floor.horizon) == 0;
        let right = answers == planned && free && state.taken as usize == taken && taken <= most && rests;
        self.orders += 1;
        self.right += right as usize;
        self.full += (taken == most) as usize;
        self.failing += (failing != 0) as usize;
        self.steps += taken;
    }

    fn told(&self) -> String {
        let Tally { orders, right, full, failing, steps } = self;
        format!("{orders} {right} {full} {failing} {steps} 0")
    }
}

/// Every sequence of open steps from a state to silence, depth first.
fn follow(floor: &Floor, state: &State, taken: usize, tally: &mut Tally) {
    if state.is_silent(floor) {
        return tally.note(floor, state, taken);
    }
    for (_, step) in paper::steps_of(floor.carriers()) {
        if state.is_open(floor, step) {
            let mut next = state.clone();
            next.take(floor, step);
            follow(floor, &next, taken + 1, tally);
        }
    }
}

fn all_orders(floor: &Floor) -> String {
    let mut tally = Tally::default();
    follow(floor, &paper::fresh(floor.carriers()), 0, &mut tally);
    tally.told()
}

// ---- Drawn orders ----

/// The number after another: times 16807 modulo 2^31 - 1.
fn next(seed: u64) -> u64 {
    seed % 2147483647 * 16807 % 2147483647
}

/// A seed for another thing that is drawn from the same number.
fn beside(seed: u64, k: u64) -> u64 {
    seed % 65000 + k + 1
}

/// All cells shuffled: cell i takes a drawn place among the first i + 1, whose cell moves to place i. The first eight are used.
fn shuffled(cells: usize, mut seed: u64) -> Vec<usize> {
    let mut order = Vec::new();
    for i in 0..cells {
        seed = next(seed);
        order.push(i);
        order.swap(i, (seed % (i as u64 + 1)) as usize);
    }
    order.truncate(8);
    order
}

/// A floor with drawn starts and docks, and one in six of the other cells a wall. Eight starts and eight docks are drawn, whatever the number
/// of carriers; a carrier's first dock is the one in its own place, its others are those behind it, round the eight.
fn draw_floor(like: &Floor, seed: u64) -> Floor {
    let c = next(next(seed));
    let (starts, ends) = (shuffled(like.cells(), beside(c, 1)), shuffled(like.cells(), beside(c, 2)));
    let mut draw = beside(c, 3);
    let mut walls = Vec::new();
    for cell in 0..like.cells() {
        draw = next(draw);
        if !starts.contains(&cell) && !ends.contains(&cell) && draw % 6 == 0 {
            walls.push(cell);
        }
    }
    let docks = |i: usize| (0..like.docks[i].len()).map(|k| ends[(i + k) % 8]).collect();
    let n = like.carriers();
    Floor { starts: starts[..n].to_vec(), docks: (0..n).map(docks).collect(), walls, ..like.clone() }
}

/// A step drawn from all that there are, by rising number.
fn draw_step(n: usize, seed: u64) -> Step {
    let mut steps = paper::steps_of(n);
    steps.sort_by_key(|&(number, _)| number);
    steps[(seed % steps.len() as u64) as usize].1
}

/// 32 drawn steps.
fn draw_list(n: usize, mut seed: u64) -> Vec<Step> {
    let mut list = Vec::new();
    for _ in 0..32 {
        seed = next(seed);
        list.push(draw_step(n, seed));
    }
    list
}

/// One drawn order to silence: by runs where the seed is even (0 to 31 listed steps, budget 0 to 15), by single steps where it is odd.
fn draw_order(floor: &Floor, seed: u64, tally: &mut Tally) {
    let n = floor.carriers();
    let (mut state, mut taken, mut draw) = (paper::fresh(n), 0, seed);
    while !state.is_silent(floor) {
        draw = next(draw);
        if seed % 2 == 0 {
            let drawn = beside(draw, 4);
            let list = &draw_list(n, drawn)[..(drawn / 16 % 32) as usize];
            let (more, end) = state.run(floor, list, (drawn % 16) as usize);
            taken += more;
            assert_eq!(end == End::Silent, state.is_silent(floor));
        } else if state.is_open(floor, draw_step(n, draw)) {
            state.take(floor, draw_step(n, draw));
            taken += 1;
        }
    }
    tally.note(floor, &state, taken);
}

/// So many drawn orders, with seeds from one on.
fn drawn_orders(like: &Floor, count: usize, first: usize) -> String {
    let mut tally = Tally::default();
    for seed in first..first + count {
        draw_order(&draw_floor(like, seed as u64), seed as u64, &mut tally);
    }
    tally.told()
}

// ---- Spoilt states ----

/// The largest numbers of a record: its tag's, then its cells', which are used in a route through the horizon.
fn record_tops(floor: &Floor, record: View, tag: u16) -> Vec<u16> {
    let mut tops = vec![tag];
    for t in 0..64 {
        let used = matches!(record, View::Heard(Some(_))) && t <= floor.horizon;
        tops.push(if used { floor.cells() as u16 - 1 } else { 0 });
    }
    tops
}

/// The largest number of each place of a state, as refusal 10 says it.
fn tops_of(floor: &Floor, state: &State) -> Vec<u16> {
    let mut tops = vec![999, 999];
    for carrier in &state.carriers {
        tops.extend([1, 1]);
        tops.extend(record_tops(floor, View::Heard(carrier.answer), 2));
    }
    for view in state.carriers.iter().flat_map(|carrier| &carrier.views) {
        tops.extend(record_tops(floor, *view, 2));
    }
    for channel in state.carriers.iter().flat_map(|carrier| &carrier.channels) {
        tops.push(floor.depth as u16);
        for k in 0..4 {
            let message = channel.get(k).map_or(View::Unheard, |&answer| View::Heard(answer));
            tops.extend(record_tops(floor, message, if k < channel.len() { 2 } else { 0 }));
        }
    }
    tops
}

/// The number to try in each place: of the first so many places, unless a later pair says otherwise.
fn spread(pairs: &[Number], length: usize) -> Vec<u16> {
    let mut with = vec![LENT; length];
    for pair in pairs.chunks(2) {
        with[..pair[0].value].fill(pair[1].value as u16);
    }
    with
}

/// At how many places the number to try makes the step and a run of it be refused so, the state left as it was. The numbers to try must be
/// far above the range of each place, just above it, or the largest of it.
fn unfit(desk: &Desk, numbers: &[Number]) -> usize {
    let (record, walls, floor) = (desk.record(), desk.walls(), desk.floor());
    let (step, refused) = (numbers[0].value as u16, 1 | (numbers[1].value as u64) << 8);
    let with = spread(&numbers[2..], desk.lent.len());
    let tops = tops_of(&floor, &paper::decode(&floor, &desk.lent).expect("a state"));
    let told: Vec<u16> = tops.iter().map(|&top| if numbers[1].value == 10 { top + 1 } else { top }).collect();
    assert!(with == told || with.iter().all(|&value| value == 65535), "the ranges of {} places", with.len());
    let is_refused = |place: &usize| {
        let mut spoilt = desk.lent.clone();
        spoilt[*place] = with[*place];
        let mut after = spoilt.clone();
        let stepped = calls::step(&record, &walls, &mut after, step);
        let ran = calls::run(&record, &walls, &mut after, &[step], 5);
        stepped == refused && ran == refused && after == spoilt
    };
    (0..with.len()).filter(is_refused).count()
}

/// How many numbers get an answer as a step on the fresh state: 40 is sent, 7 a number that names no step, 12 with the addressee a delivery.
fn kinds(floor: &Floor, numbers: &[Number]) -> usize {
    let state = paper::fresh(floor.carriers());
    let answer = |number: u16| match paper::step_named(number, floor.carriers()) {
        None => (7, 0),
        Some(Step::Deliver { to, .. }) => (12, to + 1),
        Some(step) => (39 + state.clone().take(floor, step) as usize, 0),
    };
    let wanted = (numbers[0].value, numbers.get(1).map_or(0, |number| number.value));
    (0..=65535).filter(|&number| answer(number) == wanted).count()
}

// ---- Sheets ----

/// The record of the fresh floor: one cell, one beat, one message, one carrier that is at its dock, no wall.
fn smallest() -> [u16; paper::RECORD] {
    let mut record = [0; paper::RECORD];
    record[..5].fill(1);
    record[14..22].fill(1);
    record
}

/// What is printed for the sheet below, which must be the text behind it: its length.
fn printed(numbers: &[Number], rest: &str) -> String {
    let (sheet, behind) = rest.split_at(numbers[0].value);
    let text = paper::print_routes(sheet.as_bytes());
    either(text == behind[..numbers[1].value], &format!("printed {}", text.len()), "OTHERWISE")
}

// ---- The lines ----

impl Desk {
    /// The record of the floor.
    fn record(&self) -> [u16; paper::RECORD] {
        let mut record = [0; paper::RECORD];
        record[..6].copy_from_slice(&self.set[..6]);
        for i in 0..8 {
            record[6 + i] = self.set[6 + 2 * i];
            record[14 + i] = self.set[140 + i];
            (0..4).for_each(|k| record[22 + 4 * i + k] = self.dock(i, k));
        }
        record
    }

    /// Dock k of carrier i, both from 0.
    fn dock(&self, i: usize, k: usize) -> u16 {
        self.set[if k == 0 { 7 + 2 * i } else { 150 + 4 * i + k }]
    }

    /// The walls that are lent.
    fn walls(&self) -> Vec<u16> {
        self.set[201..201 + self.set[200] as usize].to_vec()
    }

    /// The floor of a record that is accepted, or would be with other starts and docks.
    fn floor(&self) -> Floor {
        let at = |k: usize| self.set[k] as usize;
        let docks = |i: usize| (0..at(140 + i)).map(|k| self.dock(i, k) as usize).collect();
        Floor {
            width: at(0),
            height: at(1),
            horizon: at(2),
            depth: at(3),
            starts: (0..at(4)).map(|i| at(6 + 2 * i)).collect(),
            docks: (0..at(4)).map(docks).collect(),
            walls: Vec::new(),
        }
    }

    /// All steps of a floor are those to choose among.
    fn has_all_steps(&self, floor: &Floor) {
        let mut steps: Vec<u16> = paper::steps_of(floor.carriers()).iter().map(|&(number, _)| number).collect();
        steps.sort();
        assert_eq!(self.set[101..101 + self.set[100] as usize], steps);
    }

    fn run(&mut self, numbers: &[Number]) -> String {
        let list: Vec<u16> = numbers[1..].iter().map(|number| number.value as u16).collect();
        ran(calls::run(&self.record(), &self.walls(), &mut self.lent, &list, numbers[0].value as u16))
    }

    /// A trial whose report is lent memory. Its state is left alone, or is silent with the planner's answers and the count of the steps.
    fn trial(&mut self, numbers: &[Number]) -> String {
        let at = |k: usize| numbers[k].value;
        let (mut state, seed) = (vec![LENT; at(3)], (at(1) << 16 | at(2)) as u32);
        let word = calls::trial(&self.record(), &self.walls(), at(0) as u16, seed, &mut state, &mut self.lent);
        if word as u8 == 1 {
            assert!(state.iter().all(|&number| number == LENT));
        } else {
            let floor = self.floor();
            let last = paper::decode(&floor, &state[..paper::state_length(floor.carriers())]).expect("a trial leaves a state");
            let answers: Vec<Answer> = last.carriers.iter().map(|carrier| carrier.answer).collect();
            assert!(last.is_silent(&floor) && answers == paper::plan(&floor).0 && last.taken as u64 == word >> 16);
        }
        told("steps", word)
    }

    /// The run of a rank, whose report is lent memory; the line gives the total too.
    fn listed(&mut self, numbers: &[Number]) -> String {
        let word = calls::run_of_rank(&self.record(), &self.walls(), numbers[0].value as u64, &mut self.lent);
        refusal(word).unwrap_or_else(|| either(word >> 16 == numbers[1].value as u64, &format!("steps {}", word >> 8 & 255), "OTHERWISE"))
    }

    /// Whether the answers in lent memory are the planner's.
    fn is_planned(&self) -> bool {
        let mut answers = vec![LENT; self.lent.len()];
        calls::plan(&self.record(), &self.walls(), &mut answers);
        answers == self.lent
    }

    /// The answers in lent memory: a route where the tag is 2.
    fn answers(&self) -> Vec<Answer> {
        let record = |i: usize| self.lent[65 * i] == 2;
        let cells = |i: usize| self.lent[65 * i + 1..65 * i + 65].try_into().unwrap();
        (0..self.set[4] as usize).map(|i| record(i).then(|| cells(i))).collect()
    }

    /// How many pairs of routes there are in lent memory, and how many of them are in conflict.
    fn conflicts(&self) -> String {
        let answers = self.answers();
        format!("pairs {} conflicts {}", pairs_of(&answers).len(), conflicts_of(&answers, self.set[2] as usize))
    }

    /// The first conflict of two carriers' routes in lent memory.
    fn first_conflict(&self, numbers: &[Number]) -> String {
        let cells = |k: usize| &self.lent[65 * numbers[k].value - 64..65 * numbers[k].value];
        match paper::first_conflict(cells(0), cells(1), (self.set[2] as usize).min(63)) {
            None => "free".into(),
            Some((beat, Kind::SameCell)) => format!("same cell at beat {beat}"),
            Some((beat, Kind::ChangeOfPlaces)) => format!("change of places after beat {beat}"),
            Some((beat, Kind::Following)) => format!("following after beat {beat}"),
        }
    }

    /// A route's arrival and its first cells, at most eight; or none.
    fn route_told(&self, answer: Answer) -> String {
        let floor = self.floor();
        let Some(route) = answer else { return "none".into() };
        let arrival = paper::arrival_of(&route, floor.horizon);
        let cells: Vec<String> = route[..=floor.horizon].iter().take(8).map(u16::to_string).collect();
        format!("arrival {arrival} cells {}", cells.join(" "))
    }

    /// The best route of a carrier against the views in lent memory. What the program's second planner says must be the same.
    fn search(&self, carrier: usize) -> String {
        let mut route = [LENT; 64];
        let word = calls::search(&self.record(), &self.walls(), carrier as u16, &self.lent, &mut route);
        refusal(word).unwrap_or_else(|| format!("{} the same", self.route_told((word >> 8 & 255 == 1).then_some(route))))
    }

    /// A sheet read into lent wall memory. One that is accepted is the text of its floor.
    fn sheet(&mut self, text: &[u8]) -> String {
        let before = self.lent.clone();
        let read = refusal(calls::read_sheet(text, &mut [0; paper::RECORD], &mut self.lent));
        if let Some(refused) = read {
            assert!(self.lent == before);
            return refused;
        }
        let floor = paper::floor_of_sheet(text).expect("it was read");
        either(paper::sheet_of(&floor).as_bytes() == text, "passed, written the same", "OTHERWISE")
    }

    /// The sheet of the floor written into so many lent bytes, of which so many are then those of the text below.
    fn writing(&self, numbers: &[Number], rest: &str) -> String {
        let (lent, written) = (numbers[0].value, &rest.as_bytes()[..numbers[1].value]);
        let mut page = vec![b'~'; lent];
        let word = calls::write_sheet(&self.record(), &self.walls(), &mut page);
        let wanted: Vec<u8> = (0..lent).map(|k| *written.get(k).unwrap_or(&b'~')).collect();
        either(page == wanted, &passed(word), "OTHERWISE")
    }

    /// Commands that set something and answer nothing.
    fn set(&mut self, command: u8, numbers: &[Number]) {
        match command {
            b'f' | b'w' | b'c' | b'g' => write(numbers, &mut self.set),
            b'e' => write(numbers, &mut self.lent),
            b'R' => {
                self.set[200] = numbers[0].value as u16;
                (0..numbers[0].value).for_each(|cell| self.set[201 + cell] = cell as u16);
            }
            _ => {}
        }
        if command == b'g' {
            self.lent = vec![LENT; self.set[90] as usize];
        }
    }

    /// What a command that calls an entry or compares answers; `rest` is the script from the next line on.
    fn answer(&mut self, command: u8, numbers: &[Number], rest: &str) -> String {
        let (record, walls) = (self.record(), self.walls());
        let first = numbers.first().map_or(0, |number| number.value);
        match command {
            b'n' => passed(calls::fresh(&record, &walls, &mut self.lent)),
            b's' => stepped(calls::step(&record, &walls, &mut self.lent, first as u16)),
            b'r' => self.run(numbers),
            b'p' => told("failing carrier", calls::plan(&record, &walls, &mut self.lent)),
            b'B' => told("set", calls::blockers(&record, &walls, first as u16, &mut self.lent)),
            b'T' => self.trial(numbers),
            b'L' => self.listed(numbers),
            b'h' => told("steps", calls::ceiling(first as u16)),
            b'm' => either(self.lent == written_out(numbers, self.lent.len()), "the same", "OTHERWISE"),
            b'a' => either(self.is_planned(), "the same", "OTHERWISE"),
            b'v' => self.conflicts(),
            b'V' => self.first_conflict(numbers),
            b'S' => self.search(first),
            b't' => self.sheet(&rest.as_bytes()[..first]),
            b'C' => passed(calls::check_floor(&record, &walls)),
            b'F' => passed(calls::check_floor(&smallest(), &walls)),
            b'W' => self.writing(numbers, rest),
            b'P' => printed(numbers, rest),
            _ => self.figures(command, numbers),
        }
    }

    /// What a command that counts answers.
    fn figures(&mut self, command: u8, numbers: &[Number]) -> String {
        let floor = self.floor();
        match command {
            b'l' => paper::state_length(floor.carriers()).to_string(),
            b'u' => unfit(self, numbers).to_string(),
            b'k' => kinds(&floor, numbers).to_string(),
            b'o' => {
                self.has_all_steps(&floor);
                all_orders(&floor)
            }
            b'd' => {
                self.has_all_steps(&floor);
                assert_eq!(numbers[1].value, floor.cells());
                drawn_orders(&floor, numbers[0].value, numbers[2].value)
            }
            _ => panic!("a line that answers has a command"),
        }
    }
}

/// Each line of the script with its answer from `paper.rs` is the line of the program's output.
#[test]
fn every_line_of_the_program_cases() {
    let mut desk = Desk { set: [0; 1224], lent: Vec::new() };
    desk.set[140..148].fill(1);
    let (mut rest, mut wrong) = (SCRIPT, Vec::new());
    let mut expected = EXPECTED.strip_suffix('\n').unwrap().split('\n');
    while let Some((line, behind)) = rest.split_once('\n') {
        rest = behind;
        let mut came = line.to_string();
        let command = line.bytes().next().unwrap_or(b' ');
        desk.set(command, &numbers_of(line));
        if line.ends_with("->") {
            came += &format!(" {}", desk.answer(command, &numbers_of(line), rest));
        }
        let wanted = expected.next();
        if wanted != Some(came.as_str()) {
            wrong.push(format!("the program: {}\n   paper.rs: {came}", wanted.unwrap_or("no line")));
        }
    }
    assert!(wrong.is_empty(), "{}", wrong.join("\n"));
    assert_eq!(expected.next(), None);
}
