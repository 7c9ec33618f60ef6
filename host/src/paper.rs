//! Document 01, 'Routes for tote carriers on a cell floor', with the change requests of document 02, in plain Rust, written from the papers
//! and not from the proved code.
//! It is what the library is compared with, so it prefers the obvious way to the fast one: a floor is vectors of cells, a search is a
//! table over (beat, cell), a state is a struct that is decoded from its numbers before each call and encoded after it.
//! `calls`, at the end, has the library's entries over the same lent memory.
#![allow(dead_code)]

use std::cell::RefCell;
use std::collections::VecDeque;

/// A route, whole: a cell for each beat, 0 after the horizon.
pub type Route = [u16; 64];

/// What a carrier has planned: a route, or none.
pub type Answer = Option<Route>;

/// A refusal of document 01's table.
#[derive(Clone, Copy, PartialEq, Eq, Debug)]
pub struct Refusal {
    pub number: u8,
    pub place: usize,
}

fn refuse<T>(number: u8, place: usize) -> Result<T, Refusal> {
    Err(Refusal { number, place })
}

// ---- The floor ----

/// An accepted floor: cells are cell numbers, carriers count from 0.
#[derive(Clone, PartialEq, Eq, Debug)]
pub struct Floor {
    pub width: usize,
    pub height: usize,
    pub horizon: usize,
    pub depth: usize,
    pub starts: Vec<usize>,
    /// Of each carrier, the cells at any of which its route may end (document 02, slip 10).
    pub docks: Vec<Vec<usize>>,
    pub walls: Vec<usize>,
}

impl Floor {
    pub fn carriers(&self) -> usize {
        self.starts.len()
    }

    pub fn cells(&self) -> usize {
        self.width * self.height
    }
}

/// Refusal 2: line 1 in its limits, field by field.
fn limits(line: &[usize; 6]) -> Result<(), Refusal> {
    let most = [(1, 32), (1, 32), (1, 63), (1, 4), (1, 8), (0, 1023)];
    for (field, &(least, largest)) in most.iter().enumerate() {
        if line[field] < least || line[field] > largest {
            return refuse(2, field + 1);
        }
    }
    Ok(())
}

/// Whether a list has a dock twice.
fn has_twice(docks: &[usize]) -> bool {
    (0..docks.len()).any(|k| docks[..k].contains(&docks[k]))
}

/// Refusals 4, 5, 6 and 17 of a floor whose cells all lie in the grid.
fn apart(floor: &Floor) -> Result<(), Refusal> {
    let n = floor.carriers();
    for k in 1..floor.walls.len() {
        if floor.walls[k] <= floor.walls[k - 1] {
            return refuse(4, n + k + 1);
        }
    }
    for i in 0..n {
        if floor.walls.contains(&floor.starts[i]) || floor.docks[i].iter().any(|dock| floor.walls.contains(dock)) {
            return refuse(5, i + 1);
        }
    }
    for i in 0..n {
        if floor.starts[..i].contains(&floor.starts[i]) {
            return refuse(6, i + 1);
        }
    }
    for i in 0..n {
        if has_twice(&floor.docks[i]) {
            return refuse(17, i + 1);
        }
    }
    Ok(())
}

/// The numbers of a record: line 1, eight starts, eight dock counts, four docks of each of eight carriers.
pub const RECORD: usize = 6 + 8 + 8 + 4 * 8;

/// The floor that the numbers of a record and its walls are: refusals 2, 9 (walls), 3, 4, 5, 6, 17. A dock count outside 1 to 4 gets 3 with
/// the carrier's item; docks past the count are no part of the floor.
pub fn floor_of_record(record: &[u16], walls: &[u16]) -> Result<Floor, Refusal> {
    let at = |k: usize| record[k] as usize;
    let line = [at(0), at(1), at(2), at(3), at(4), at(5)];
    limits(&line)?;
    let [width, height, horizon, depth, n, count] = line;
    if walls.len() < count {
        return refuse(9, 0);
    }
    let mut floor = Floor {
        width,
        height,
        horizon,
        depth,
        starts: (0..n).map(|i| at(6 + i)).collect(),
        docks: Vec::new(),
        walls: walls[..count].iter().map(|&c| c as usize).collect(),
    };
    for i in 0..n {
        let docks = at(14 + i);
        if !(1..=4).contains(&docks) {
            return refuse(3, i + 1);
        }
        floor.docks.push((0..docks).map(|k| at(22 + 4 * i + k)).collect());
        if floor.starts[i] >= floor.cells() || floor.docks[i].iter().any(|&dock| dock >= floor.cells()) {
            return refuse(3, i + 1);
        }
    }
    for k in 0..count {
        if floor.walls[k] >= floor.cells() {
            return refuse(3, n + k + 1);
        }
    }
    apart(&floor)?;
    Ok(floor)
}

/// The record of a floor; places past its carriers, and past a carrier's docks, are 0. `Floor::record` of the library does the same and is
/// apart on purpose: this file shares no code with the library.
pub fn record_of(floor: &Floor) -> [u16; RECORD] {
    let mut record = [0; RECORD];
    let n = floor.carriers();
    let line = [floor.width, floor.height, floor.horizon, floor.depth, n, floor.walls.len()];
    for k in 0..6 {
        record[k] = line[k] as u16;
    }
    for i in 0..n {
        record[6 + i] = floor.starts[i] as u16;
        record[14 + i] = floor.docks[i].len() as u16;
        for (k, &dock) in floor.docks[i].iter().enumerate() {
            record[22 + 4 * i + k] = dock as u16;
        }
    }
    record
}

// ---- The sheet ----

/// The text with the next column.
struct Reader<'a> {
    text: &'a [u8],
    next: usize,
}

impl Reader<'_> {
    /// A field: five columns, spaces and then a decimal number without leading zeros.
    fn field(&mut self) -> Result<usize, Refusal> {
        let here = self.next;
        if self.text.len() - here < 5 {
            return refuse(1, self.text.len());
        }
        let columns = &self.text[here..here + 5];
        let spaces = columns.iter().take_while(|&&b| b == b' ').count();
        let digits = &columns[spaces..];
        let decimal = !digits.is_empty() && digits.iter().all(u8::is_ascii_digit);
        let leading_zero = digits.len() > 1 && digits[0] == b'0';
        if !decimal || leading_zero {
            return refuse(1, here);
        }
        self.next = here + 5;
        Ok(digits.iter().fold(0, |value, &b| value * 10 + (b - b'0') as usize))
    }

    fn newline(&mut self) -> Result<(), Refusal> {
        match self.text.get(self.next) {
            None => return refuse(1, self.text.len()),
            Some(b'\n') => self.next += 1,
            Some(_) => return refuse(1, self.next),
        }
        Ok(())
    }

    /// A line: its fields and one newline.
    fn line<const N: usize>(&mut self) -> Result<[usize; N], Refusal> {
        let mut fields = [0; N];
        for field in fields.iter_mut() {
            *field = self.field()?;
        }
        self.newline()?;
        Ok(fields)
    }

    /// A column and a row.
    fn pair(&mut self) -> Result<(usize, usize), Refusal> {
        Ok((self.field()?, self.field()?))
    }

    /// A carrier's line: its start, its dock count, which is a bad field outside 1 to 4, and its docks.
    fn carrier(&mut self) -> Result<((usize, usize), Vec<(usize, usize)>), Refusal> {
        let start = self.pair()?;
        let here = self.next;
        let count = self.field()?;
        if !(1..=4).contains(&count) {
            return refuse(1, here);
        }
        let docks = (0..count).map(|_| self.pair()).collect::<Result<Vec<_>, Refusal>>()?;
        self.newline()?;
        Ok((start, docks))
    }
}

/// The floor that a sheet is: line 1's form, 2, the other lines' form, 3, 4, 5, 6, 17.
pub fn floor_of_sheet(text: &[u8]) -> Result<Floor, Refusal> {
    let mut reader = Reader { text, next: 0 };
    let line = reader.line::<6>()?;
    limits(&line)?;
    let [width, height, horizon, depth, n, count] = line;
    let mut carriers = Vec::new();
    for _ in 0..n {
        carriers.push(reader.carrier()?);
    }
    let mut walls = Vec::new();
    for _ in 0..count {
        walls.push(reader.line::<2>()?);
    }
    if reader.next < text.len() {
        return refuse(1, reader.next);
    }
    let outside = |(column, row): (usize, usize)| column >= width || row >= height;
    for (i, (start, docks)) in carriers.iter().enumerate() {
        if outside(*start) || docks.iter().any(|&dock| outside(dock)) {
            return refuse(3, i + 1);
        }
    }
    for k in 0..count {
        if outside((walls[k][0], walls[k][1])) {
            return refuse(3, n + k + 1);
        }
    }
    let cell = |(column, row): (usize, usize)| row * width + column;
    let floor = Floor {
        width,
        height,
        horizon,
        depth,
        starts: carriers.iter().map(|carrier| cell(carrier.0)).collect(),
        docks: carriers.iter().map(|carrier| carrier.1.iter().map(|&dock| cell(dock)).collect()).collect(),
        walls: walls.iter().map(|c| c[1] * width + c[0]).collect(),
    };
    apart(&floor)?;
    Ok(floor)
}

/// A line of fields as text.
pub fn text_line(fields: &[usize]) -> String {
    let mut line: String = fields.iter().map(|value| format!("{value:5}")).collect();
    line.push('\n');
    line
}

/// The sheet of a floor.
pub fn sheet_of(floor: &Floor) -> String {
    let w = floor.width;
    let mut text = text_line(&[w, floor.height, floor.horizon, floor.depth, floor.carriers(), floor.walls.len()]);
    for i in 0..floor.carriers() {
        let start = floor.starts[i];
        let mut fields = vec![start % w, start / w, floor.docks[i].len()];
        fields.extend(floor.docks[i].iter().flat_map(|&dock| [dock % w, dock / w]));
        text += &text_line(&fields);
    }
    for &c in &floor.walls {
        text += &text_line(&[c % w, c / w]);
    }
    text
}

// ---- Routes and the best route ----

/// The least beat from which a route stays, through the horizon, at the cell where it ends.
pub fn arrival_of(route: &Route, horizon: usize) -> usize {
    let mut arrival = horizon;
    while arrival > 0 && route[arrival - 1] == route[horizon] {
        arrival -= 1;
    }
    arrival
}

/// Two moves, each from a cell to a cell between the same two beats, that change places.
fn change_places(a: (usize, usize), b: (usize, usize)) -> bool {
    a.0 == b.1 && a.1 == b.0
}

/// The first move enters a cell in the beat in which the second leaves it (document 02, slip 9).
fn enters_left(a: (usize, usize), b: (usize, usize)) -> bool {
    let enters = a.0 != a.1;
    let leaves = b.0 != b.1;
    enters && leaves && a.1 == b.0
}

fn follow(a: (usize, usize), b: (usize, usize)) -> bool {
    enters_left(a, b) || enters_left(b, a)
}

fn moves_conflict(a: (usize, usize), b: (usize, usize)) -> bool {
    change_places(a, b) || follow(a, b)
}

/// The best route from a start to any of the docks against a set of routes.
///
/// `reached[t][c]`: some legal path from the start is in c at beat t. The arrival is the least beat at which a dock is reached that stays free
/// from then on. `leads[t][c]`: some legal path from c at beat t is at one such dock from the arrival on. The route takes the smallest cell
/// that still leads there, beat for beat, and stays in the one where it is at the arrival.
pub fn best_route(floor: &Floor, start: usize, docks: &[usize], against: &[Route]) -> Answer {
    let (w, cells, horizon) = (floor.width, floor.cells(), floor.horizon);
    let mut free = vec![vec![true; cells]; horizon + 1];
    for beat in free.iter_mut() {
        for &c in &floor.walls {
            beat[c] = false;
        }
    }
    for route in against {
        for t in 0..=horizon {
            if (route[t] as usize) < cells {
                free[t][route[t] as usize] = false;
            }
        }
    }
    // Going from c at beat t to d at the next is a conflict with a route: they change places, or one enters what the other leaves.
    let barred = |t: usize, c: usize, d: usize| against.iter().any(|r| moves_conflict((c, d), (r[t] as usize, r[t + 1] as usize)));
    // The cells to which one may stay or go from c, by rising cell number.
    let beside: Vec<Vec<usize>> = (0..cells)
        .map(|c| {
            let mut near = Vec::new();
            if c >= w {
                near.push(c - w);
            }
            if c % w > 0 {
                near.push(c - 1);
            }
            near.push(c);
            if c % w + 1 < w {
                near.push(c + 1);
            }
            if c + w < cells {
                near.push(c + w);
            }
            near
        })
        .collect();

    let mut reached = vec![vec![false; cells]; horizon + 1];
    reached[0][start] = free[0][start];
    for t in 0..horizon {
        for c in 0..cells {
            if reached[t][c] {
                for &d in &beside[c] {
                    if free[t + 1][d] && !barred(t, c, d) {
                        reached[t + 1][d] = true;
                    }
                }
            }
        }
    }
    let stays_free = |from: usize, dock: usize| (from..=horizon).all(|t| free[t][dock]);
    let arrival = (0..=horizon).find(|&t| docks.iter().any(|&dock| reached[t][dock] && stays_free(t, dock)))?;

    let mut leads = vec![vec![false; cells]; arrival + 1];
    for &dock in docks {
        leads[arrival][dock] = stays_free(arrival, dock);
    }
    for t in (0..arrival).rev() {
        for c in 0..cells {
            leads[t][c] = free[t][c] && beside[c].iter().any(|&d| leads[t + 1][d] && !barred(t, c, d));
        }
    }
    let mut route = [0; 64];
    let mut c = start;
    route[0] = c as u16;
    for t in 0..arrival {
        c = *beside[c].iter().find(|&&d| leads[t + 1][d] && !barred(t, c, d)).expect("a reached dock is led to");
        route[t + 1] = c as u16;
    }
    for t in arrival..=horizon {
        route[t] = c as u16;
    }
    Some(route)
}

/// A kind of conflict, in the order of those at one beat.
#[derive(Clone, Copy, PartialEq, Eq, PartialOrd, Ord, Debug)]
pub enum Kind {
    SameCell,
    ChangeOfPlaces,
    Following,
}

/// The first conflict of two routes over beats 0 to the horizon (document 02, slips 7 and 9): the least of all that there are, by beat and
/// kind.
pub fn first_conflict(a: &[u16], b: &[u16], horizon: usize) -> Option<(usize, Kind)> {
    let same = (0..=horizon).filter(|&t| a[t] == b[t]).map(|t| (t, Kind::SameCell));
    let moves = |t: usize| ((a[t] as usize, a[t + 1] as usize), (b[t] as usize, b[t + 1] as usize));
    let change = (0..horizon).filter(|&t| change_places(moves(t).0, moves(t).1)).map(|t| (t, Kind::ChangeOfPlaces));
    let following = (0..horizon).filter(|&t| follow(moves(t).0, moves(t).1)).map(|t| (t, Kind::Following));
    same.chain(change).chain(following).min()
}

/// What a record is for a carrier.
#[derive(Clone, Copy, PartialEq, Eq, Debug)]
pub enum Told {
    Route {
        arrival: usize,
    },
    None,
    NotHeard,
    /// The number of the first cause, and its first beat.
    Wrong(u64, usize),
}

/// What a record, a tag and 64 numbers, is for a carrier (from 0) of a floor: of all that is wrong with it the least by cause and beat.
pub fn told_by(floor: &Floor, carrier: usize, tag: u16, cells: &Route) -> Told {
    let horizon = floor.horizon;
    let at = |t: usize| cells[t] as usize;
    let mut wrong = Vec::new();
    if tag > 2 {
        return Told::Wrong(8, 0);
    }
    let first_unused = if tag == 2 { horizon + 1 } else { 0 };
    if tag == 2 {
        if at(0) != floor.starts[carrier] {
            wrong.push((3, 0));
        }
        let stands = |t: &usize| at(*t) < floor.cells() && !floor.walls.contains(&at(*t));
        wrong.extend((0..=horizon).filter(|t| !stands(t)).map(|t| (4, t)));
        // A stay or a move by one column or by one row.
        let (column, row) = (|t: usize| at(t) % floor.width, |t: usize| at(t) / floor.width);
        let far = |t: &usize| column(*t).abs_diff(column(t + 1)) + row(*t).abs_diff(row(t + 1));
        wrong.extend((0..horizon).filter(|t| far(t) > 1).map(|t| (5, t)));
        if !floor.docks[carrier].contains(&at(horizon)) {
            wrong.push((6, horizon));
        }
    }
    wrong.extend((first_unused..64).filter(|&t| at(t) != 0).map(|t| (7, t)));
    match (wrong.into_iter().min(), tag) {
        (Some((cause, beat)), _) => Told::Wrong(cause, beat),
        (None, 2) => Told::Route { arrival: arrival_of(cells, horizon) },
        (None, 1) => Told::None,
        (None, _) => Told::NotHeard,
    }
}

/// Where a carrier (from 0) is for those below it, by its answer: on its route, or at its start at every beat if it has none.
pub fn occupied(floor: &Floor, carrier: usize, answer: Answer) -> Route {
    answer.unwrap_or([floor.starts[carrier] as u16; 64])
}

/// The sequential planner: each carrier best against the answers above it, one with none staying at its start; with it the failing carrier.
pub fn plan(floor: &Floor) -> (Vec<Answer>, usize) {
    let mut answers: Vec<Answer> = Vec::new();
    for i in 0..floor.carriers() {
        let above: Vec<Route> = answers.iter().enumerate().map(|(j, &answer)| occupied(floor, j, answer)).collect();
        answers.push(best_route(floor, floor.starts[i], &floor.docks[i], &above));
    }
    let failing = answers.iter().position(|a| a.is_none()).map_or(0, |i| i + 1);
    (answers, failing)
}

/// Who shuts in a carrier (from 0) that has none among these sequential answers: begin with all above it and, from the first downwards in
/// rank, leave out each without whom there is still no route against those that are left.
pub fn blockers(floor: &Floor, answers: &[Answer], carrier: usize) -> Vec<usize> {
    let mut left: Vec<usize> = (0..carrier).collect();
    for tried in 0..carrier {
        let without: Vec<usize> = left.iter().copied().filter(|&j| j != tried).collect();
        let against: Vec<Route> = without.iter().map(|&j| occupied(floor, j, answers[j])).collect();
        if best_route(floor, floor.starts[carrier], &floor.docks[carrier], &against).is_none() {
            left = without;
        }
    }
    left
}

/// What `desk blockers` prints for a sheet: who shuts each stranded carrier in, and the floor with these at their starts.
pub fn print_blockers(text: &[u8]) -> String {
    let floor = match floor_of_sheet(text) {
        Ok(floor) => floor,
        Err(r) => return text_line(&[0, r.number as usize, r.place]),
    };
    let (answers, _) = plan(&floor);
    let stranded: Vec<usize> = (0..answers.len()).filter(|&i| answers[i].is_none()).collect();
    let mut out = String::new();
    for &i in &stranded {
        let names: Vec<String> = blockers(&floor, &answers, i).iter().map(|j| (j + 1).to_string()).collect();
        let cause = if names.is_empty() { "walls or the horizon".into() } else { names.join(" ") };
        out += &format!("carrier {} is shut in by {cause}\n", i + 1);
    }
    if stranded.is_empty() {
        out += "no carrier is stranded\n";
    }
    for row in 0..floor.height {
        for column in 0..floor.width {
            let c = row * floor.width + column;
            out += &match stranded.iter().find(|&&i| floor.starts[i] == c) {
                _ if floor.walls.contains(&c) => "#".into(),
                Some(i) => (i + 1).to_string(),
                None => ".".to_string(),
            };
        }
        out.push('\n');
    }
    out
}

/// What the routes program prints for a sheet.
pub fn print_routes(text: &[u8]) -> String {
    let floor = match floor_of_sheet(text) {
        Ok(floor) => floor,
        Err(r) => return text_line(&[0, r.number as usize, r.place]),
    };
    let (answers, failing) = plan(&floor);
    let mut out = text_line(&[floor.carriers(), failing]);
    for (i, answer) in answers.iter().enumerate() {
        match answer {
            None => out += &format!("{:5} none\n", i + 1),
            Some(route) => {
                let mut fields = vec![i + 1, arrival_of(route, floor.horizon)];
                fields.extend(route[..=floor.horizon].iter().map(|&c| c as usize));
                out += &text_line(&fields);
            }
        }
    }
    out
}

/// What `desk meeting I J` prints for a sheet: where the best routes of two carriers, each against nobody, meet, and the floor then.
pub fn print_meeting(text: &[u8], i: u64, j: u64) -> String {
    let floor = match floor_of_sheet(text) {
        Ok(floor) => floor,
        Err(r) => return text_line(&[0, r.number as usize, r.place]),
    };
    let there = 1..=floor.carriers() as u64;
    if !there.contains(&i) || !there.contains(&j) {
        return text_line(&[0, 7, 0]);
    }
    let alone = |k: u64| best_route(&floor, floor.starts[k as usize - 1], &floor.docks[k as usize - 1], &[]);
    let Some(a) = alone(i) else { return format!("carrier {i} has no route\n") };
    let Some(b) = alone(j) else { return format!("carrier {j} has no route\n") };
    let (mut out, beat) = match first_conflict(&a, &b, floor.horizon) {
        None => return "free\n".into(),
        Some((beat, Kind::SameCell)) => (format!("same cell at beat {beat}\n"), beat),
        Some((beat, Kind::ChangeOfPlaces)) => (format!("change of places after beat {beat}\n"), beat),
        Some((beat, Kind::Following)) => (format!("following after beat {beat}\n"), beat),
    };
    for row in 0..floor.height {
        for column in 0..floor.width {
            let c = row * floor.width + column;
            out += &match (a[beat] as usize == c, b[beat] as usize == c) {
                _ if floor.walls.contains(&c) => "#".into(),
                (true, true) => "*".into(),
                (true, false) => i.to_string(),
                (false, true) => j.to_string(),
                (false, false) => ".".to_string(),
            };
        }
        out.push('\n');
    }
    out
}

// ---- The machine ----

/// What a carrier has heard of a carrier above it.
#[derive(Clone, Copy, PartialEq, Eq, Debug)]
pub enum View {
    Unheard,
    Heard(Answer),
}

#[derive(Clone, PartialEq, Eq, Debug)]
pub struct Carrier {
    pub planned: bool,
    pub due: bool,
    pub answer: Answer,
    /// Of each carrier above.
    pub views: Vec<View>,
    /// From each carrier above, the oldest message in front.
    pub channels: Vec<VecDeque<Answer>>,
}

#[derive(Clone, PartialEq, Eq, Debug)]
pub struct State {
    pub taken: u32,
    pub carriers: Vec<Carrier>,
}

/// A step, its carriers counted from 0.
#[derive(Clone, Copy, PartialEq, Eq, Debug)]
pub enum Step {
    Plan(usize),
    Deliver { from: usize, to: usize },
}

/// What a step was, once taken.
#[derive(Clone, Copy, PartialEq, Eq, Debug)]
pub enum Stepped {
    Kept,
    Sent,
    Delivered,
}

/// How a run ended.
#[derive(Clone, Copy, PartialEq, Eq, Debug)]
pub enum End {
    Silent,
    Spent,
    Ended,
}

/// Every step that n carriers can name, by its number.
pub fn steps_of(n: usize) -> Vec<(u16, Step)> {
    let mut steps = Vec::new();
    for i in 0..n {
        steps.push((100 + (i + 1) as u16, Step::Plan(i)));
    }
    for to in 0..n {
        for from in 0..to {
            steps.push((200 + 10 * (from + 1) as u16 + (to + 1) as u16, Step::Deliver { from, to }));
        }
    }
    steps
}

/// The step that a number names among n carriers.
pub fn step_named(number: u16, n: usize) -> Option<Step> {
    steps_of(n).into_iter().find(|&(name, _)| name == number).map(|(_, step)| step)
}

/// The fresh state of n carriers.
pub fn fresh(n: usize) -> State {
    let carrier = |i: usize| Carrier {
        planned: false,
        due: true,
        answer: None,
        views: vec![View::Unheard; i],
        channels: vec![VecDeque::new(); i],
    };
    State { taken: 0, carriers: (0..n).map(carrier).collect() }
}

impl State {
    /// Whether a step is open.
    pub fn is_open(&self, floor: &Floor, step: Step) -> bool {
        match step {
            Step::Plan(i) => {
                let space = |below: &Carrier| below.channels[i].len() < floor.depth;
                self.carriers[i].due && self.carriers[i + 1..].iter().all(space)
            }
            Step::Deliver { from, to } => !self.carriers[to].channels[from].is_empty(),
        }
    }

    /// The refusal that says what a step waits for (document 02, slip 3): 8 for a plan that is not due, 13 with the smallest receiver whose
    /// channel is full, 12 with the addressee of a delivery without a message.
    pub fn waits(&self, floor: &Floor, step: Step) -> Result<(), Refusal> {
        match step {
            Step::Plan(i) if !self.carriers[i].due => refuse(8, 0),
            Step::Plan(i) => match (i + 1..self.carriers.len()).find(|&k| self.carriers[k].channels[i].len() == floor.depth) {
                Some(k) => refuse(13, k + 1),
                None => Ok(()),
            },
            Step::Deliver { from, to } if self.carriers[to].channels[from].is_empty() => refuse(12, to + 1),
            Step::Deliver { .. } => Ok(()),
        }
    }

    /// Whether no step is open.
    pub fn is_silent(&self, floor: &Floor) -> bool {
        steps_of(floor.carriers()).iter().all(|&(_, step)| !self.is_open(floor, step))
    }

    /// Takes an open step.
    pub fn take(&mut self, floor: &Floor, step: Step) -> Stepped {
        self.taken = (self.taken + 1).min(999_999);
        match step {
            Step::Deliver { from, to } => {
                let carrier = &mut self.carriers[to];
                let message = carrier.channels[from].pop_front().expect("an open delivery has a message");
                carrier.views[from] = View::Heard(message);
                carrier.due = true;
                Stepped::Delivered
            }
            Step::Plan(i) => {
                let mut against: Vec<Route> = Vec::new();
                for (j, view) in self.carriers[i].views.iter().enumerate() {
                    if let View::Heard(answer) = view {
                        against.push(occupied(floor, j, *answer));
                    }
                }
                let answer = best_route(floor, floor.starts[i], &floor.docks[i], &against);
                let carrier = &mut self.carriers[i];
                let sends = !carrier.planned || carrier.answer != answer;
                carrier.answer = answer;
                carrier.due = false;
                carrier.planned = true;
                if !sends {
                    return Stepped::Kept;
                }
                for below in self.carriers[i + 1..].iter_mut() {
                    below.channels[i].push_back(answer);
                }
                Stepped::Sent
            }
        }
    }

    /// A run over steps that all are named: the number taken, and how it ended.
    pub fn run(&mut self, floor: &Floor, steps: &[Step], budget: usize) -> (usize, End) {
        let (mut taken, mut read) = (0, 0);
        while read < steps.len() && taken < budget {
            if self.is_open(floor, steps[read]) {
                self.take(floor, steps[read]);
                taken += 1;
            }
            read += 1;
        }
        if self.is_silent(floor) {
            (taken, End::Silent)
        } else if taken == budget && read < steps.len() {
            (taken, End::Spent)
        } else {
            (taken, End::Ended)
        }
    }
}

// ---- The trial (document 02, slip 1) ----

/// The place that an order takes, of the open places of the ranking (none is empty): `last` is the place taken before, `number` the
/// generator's last number, which order 3 moves on.
fn chosen(order: u16, open: &[usize], last: Option<usize>, number: &mut u32) -> usize {
    match order {
        1 => open[0],
        2 => {
            let onward = last.and_then(|p| open.iter().copied().find(|&q| q > p));
            onward.unwrap_or(open[0])
        }
        _ => {
            *number = ((*number as u64 * 1_664_525 + 1_013_904_223) % (1 << 32)) as u32;
            open[(*number / 65_536) as usize % open.len()]
        }
    }
}

/// A whole run from fresh to silent in an order, 1 to 3: each step taken, by its number, with its answer.
pub fn trial(floor: &Floor, order: u16, seed: u32) -> Vec<(u16, Stepped)> {
    let mut ranking = steps_of(floor.carriers());
    ranking.sort_by_key(|&(number, _)| number);
    let mut state = fresh(floor.carriers());
    let (mut report, mut last, mut number) = (Vec::new(), None, seed);
    loop {
        let open: Vec<usize> = (0..ranking.len()).filter(|&p| state.is_open(floor, ranking[p].1)).collect();
        if open.is_empty() {
            return report;
        }
        let place = chosen(order, &open, last, &mut number);
        report.push((ranking[place].0, state.take(floor, ranking[place].1)));
        last = Some(place);
    }
}

// ---- Every run of a small floor (document 02, slip 6) ----

/// A run: each step by its number, with its answer.
pub type Run = Vec<(u16, Stepped)>;

/// The complete runs from a state, with what was taken before them.
fn runs_from(floor: &Floor, state: &State, before: &[(u16, Stepped)], runs: &mut Vec<Run>) {
    let mut ranking = steps_of(floor.carriers());
    ranking.sort_by_key(|&(number, _)| number);
    let open: Vec<(u16, Step)> = ranking.into_iter().filter(|&(_, step)| state.is_open(floor, step)).collect();
    if open.is_empty() {
        runs.push(before.to_vec());
    }
    for (number, step) in open {
        let mut next = state.clone();
        let answer = next.take(floor, step);
        runs_from(floor, &next, &[before, &[(number, answer)]].concat(), runs);
    }
}

/// All complete runs, from fresh to silent, in the order of their first differing step.
pub fn runs(floor: &Floor) -> Vec<Run> {
    let mut runs = Vec::new();
    runs_from(floor, &fresh(floor.carriers()), &[], &mut runs);
    runs
}

/// The number of runs and the run of a rank. The runs of the floor asked for last are kept, since many ranks of one floor are asked for.
fn run_at(floor: &Floor, rank: u64) -> (usize, Option<Run>) {
    thread_local!(static LAST: RefCell<Option<(Floor, Vec<Run>)>> = const { RefCell::new(None) });
    LAST.with_borrow_mut(|last| {
        if last.as_ref().is_none_or(|(known, _)| known != floor) {
            *last = Some((floor.clone(), runs(floor)));
        }
        let runs = &last.as_ref().expect("runs are kept").1;
        (runs.len(), usize::try_from(rank).ok().and_then(|rank| runs.get(rank).cloned()))
    })
}

/// What `desk runs [RANK]` prints for a sheet.
pub fn print_runs(text: &[u8], rank: Option<u64>) -> String {
    let floor = match floor_of_sheet(text) {
        Ok(floor) => floor,
        Err(r) => return text_line(&[0, r.number as usize, r.place]),
    };
    if floor.carriers() > 3 {
        return text_line(&[0, 14, 0]);
    }
    let runs = runs(&floor);
    if rank.is_some_and(|rank| rank >= runs.len() as u64) {
        return text_line(&[0, 15, 0]);
    }
    let mut out = format!("{}\n", runs.len());
    for (k, run) in runs.iter().enumerate().filter(|&(k, _)| rank.is_none_or(|rank| rank == k as u64)) {
        out += &k.to_string();
        for (number, _) in run {
            out += &format!(" {number}");
        }
        out += "\n";
    }
    out
}

/// What `desk trial ORDER SEED` prints for a sheet.
pub fn print_trial(text: &[u8], order: u64, seed: u32) -> String {
    let floor = match floor_of_sheet(text) {
        Ok(floor) => floor,
        Err(r) => return text_line(&[0, r.number as usize, r.place]),
    };
    if !(1..=3).contains(&order) {
        return text_line(&[0, 11, 0]);
    }
    let report = trial(&floor, order as u16, seed);
    let mut out = text_line(&[floor.carriers(), order as usize, report.len()]);
    for (k, &(number, answer)) in report.iter().enumerate() {
        let word = match answer {
            Stepped::Kept => "kept",
            Stepped::Sent => "sent",
            Stepped::Delivered => "delivered",
        };
        out += &format!("{:5}{:5} {}\n", k + 1, number, word);
    }
    out + &print_routes(text)
}

// ---- The state in numbers ----

/// The pairs of a receiver and a sender above it, in the order of memory.
fn pairs(n: usize) -> Vec<(usize, usize)> {
    (0..n).flat_map(|to| (0..to).map(move |from| (to, from))).collect()
}

fn record_of_view(view: &View) -> [u16; 65] {
    let mut record = [0; 65];
    match view {
        View::Unheard => {}
        View::Heard(None) => record[0] = 1,
        View::Heard(Some(route)) => {
            record[0] = 2;
            record[1..].copy_from_slice(route);
        }
    }
    record
}

/// The needed length of the state of n carriers.
pub fn state_length(n: usize) -> usize {
    2 + 67 * n + (65 + 261) * pairs(n).len()
}

/// The numbers of a state.
pub fn encode(state: &State) -> Vec<u16> {
    let mut numbers = vec![(state.taken / 1000) as u16, (state.taken % 1000) as u16];
    for carrier in &state.carriers {
        numbers.push(carrier.planned as u16);
        numbers.push(carrier.due as u16);
        numbers.extend(record_of_view(&View::Heard(carrier.answer)));
    }
    for (to, from) in pairs(state.carriers.len()) {
        numbers.extend(record_of_view(&state.carriers[to].views[from]));
    }
    for (to, from) in pairs(state.carriers.len()) {
        let channel = &state.carriers[to].channels[from];
        numbers.push(channel.len() as u16);
        for k in 0..4 {
            let place = channel.get(k).map_or(View::Unheard, |&message| View::Heard(message));
            numbers.extend(record_of_view(&place));
        }
    }
    numbers
}

/// A reader of a state's numbers; `None` is refusal 10.
struct Numbers<'a> {
    rest: &'a [u16],
}

impl Numbers<'_> {
    fn below(&mut self, bound: u16) -> Option<u16> {
        let (&number, rest) = self.rest.split_first().expect("the length has been checked");
        self.rest = rest;
        (number < bound).then_some(number)
    }

    fn truth(&mut self) -> Option<bool> {
        self.below(2).map(|number| number == 1)
    }

    fn view(&mut self, floor: &Floor) -> Option<View> {
        let tag = self.below(3)?;
        let mut route = [0; 64];
        for (t, cell) in route.iter_mut().enumerate() {
            let used = tag == 2 && t <= floor.horizon;
            *cell = self.below(if used { floor.cells() as u16 } else { 1 })?;
        }
        Some(match tag {
            0 => View::Unheard,
            1 => View::Heard(None),
            _ => View::Heard(Some(route)),
        })
    }

    fn answer(&mut self, floor: &Floor) -> Option<Answer> {
        match self.view(floor)? {
            View::Unheard => None,
            View::Heard(answer) => Some(answer),
        }
    }
}

/// The state that numbers encode on a floor; `None` is refusal 10.
pub fn decode(floor: &Floor, numbers: &[u16]) -> Option<State> {
    let n = floor.carriers();
    let mut numbers = Numbers { rest: numbers };
    let mut state = fresh(n);
    state.taken = numbers.below(1000)? as u32 * 1000 + numbers.below(1000)? as u32;
    for carrier in state.carriers.iter_mut() {
        carrier.planned = numbers.truth()?;
        carrier.due = numbers.truth()?;
        carrier.answer = numbers.answer(floor)?;
    }
    for (to, from) in pairs(n) {
        state.carriers[to].views[from] = numbers.view(floor)?;
    }
    for (to, from) in pairs(n) {
        let length = numbers.below(floor.depth as u16 + 1)?;
        for k in 0..4 {
            if k < length {
                let message = numbers.answer(floor)?;
                state.carriers[to].channels[from].push_back(message);
            } else {
                for _ in 0..65 {
                    numbers.below(1)?;
                }
            }
        }
    }
    Some(state)
}

/// The library's entries over lent memory: the same arguments, the same answer words.
pub mod calls {
    use super::*;

    fn done(case: u64, number: usize) -> u64 {
        case << 8 | (number as u64) << 16
    }

    fn refused(refusal: Refusal) -> u64 {
        let place = (refusal.place as u64).min((1 << 48) - 1);
        1 | (refusal.number as u64) << 8 | place << 16
    }

    fn word(answer: Result<u64, Refusal>) -> u64 {
        answer.unwrap_or_else(refused)
    }

    fn whole_record(floor: &[u16]) -> Result<(), Refusal> {
        if floor.len() < RECORD {
            refuse(9, 0)
        } else {
            Ok(())
        }
    }

    fn lent(floor: &[u16], walls: &[u16]) -> Result<Floor, Refusal> {
        whole_record(floor)?;
        floor_of_record(floor, walls)
    }

    fn long_enough(short: bool) -> Result<(), Refusal> {
        if short {
            refuse(9, 0)
        } else {
            Ok(())
        }
    }

    fn store_answers(answers: &[Answer], memory: &mut [u16]) {
        for (i, &answer) in answers.iter().enumerate() {
            memory[65 * i..65 * i + 65].copy_from_slice(&record_of_view(&View::Heard(answer)));
        }
    }

    pub fn read_sheet(text: &[u8], floor: &mut [u16], walls: &mut [u16]) -> u64 {
        word((|| {
            let read = floor_of_sheet(text)?;
            long_enough(walls.len() < read.walls.len() || floor.len() < RECORD)?;
            floor[..RECORD].copy_from_slice(&record_of(&read));
            for (k, &c) in read.walls.iter().enumerate() {
                walls[k] = c as u16;
            }
            Ok(done(0, 0))
        })())
    }

    pub fn write_sheet(floor: &[u16], walls: &[u16], out: &mut [u8]) -> u64 {
        word((|| {
            let text = sheet_of(&lent(floor, walls)?);
            long_enough(out.len() < text.len())?;
            out[..text.len()].copy_from_slice(text.as_bytes());
            Ok(done(0, text.len()))
        })())
    }

    pub fn check_floor(floor: &[u16], walls: &[u16]) -> u64 {
        word(lent(floor, walls).map(|_| done(0, 0)))
    }

    pub fn needed_lengths(floor: &[u16], out: &mut [u64]) -> u64 {
        word((|| {
            whole_record(floor)?;
            let at = |k: usize| floor[k] as usize;
            limits(&[at(0), at(1), at(2), at(3), at(4), at(5)])?;
            long_enough(out.len() < 9)?;
            let (n, count) = (at(4), at(5));
            let sheet = 31 + (0..n).map(|i| 16 + 10 * at(14 + i)).sum::<usize>() + 11 * count;
            let lengths = [count, sheet, 65 * n, text_length(n), state_length(n), 64, RECORD, 9, report_length(n)];
            for k in 0..9 {
                out[k] = lengths[k] as u64;
            }
            Ok(done(0, 0))
        })())
    }

    pub fn search(floor: &[u16], walls: &[u16], carrier: u16, views: &[u16], route: &mut [u16]) -> u64 {
        word((|| {
            let floor = lent(floor, walls)?;
            long_enough(views.len() < 65 * floor.carriers() || route.len() < 64)?;
            let carrier = carrier as usize;
            if carrier < 1 || carrier > floor.carriers() {
                return refuse(7, 0);
            }
            let mut against: Vec<Route> = Vec::new();
            for (j, record) in views.chunks(65).take(carrier - 1).enumerate() {
                match record[0] {
                    1 => against.push(super::occupied(&floor, j, None)),
                    2 => against.push(record[1..].try_into().expect("a record has 64 cells")),
                    _ => {}
                }
            }
            let best = best_route(&floor, floor.starts[carrier - 1], &floor.docks[carrier - 1], &against);
            route[..64].copy_from_slice(&best.unwrap_or([0; 64]));
            Ok(done(best.is_some() as u64, 0))
        })())
    }

    pub fn plan(floor: &[u16], walls: &[u16], answers: &mut [u16]) -> u64 {
        word((|| {
            let floor = lent(floor, walls)?;
            long_enough(answers.len() < 65 * floor.carriers())?;
            let (planned, failing) = super::plan(&floor);
            store_answers(&planned, answers);
            Ok(done(0, failing))
        })())
    }

    pub fn blockers(floor: &[u16], walls: &[u16], carrier: u16, answers: &mut [u16]) -> u64 {
        word((|| {
            let floor = lent(floor, walls)?;
            long_enough(answers.len() < 65 * floor.carriers())?;
            let carrier = carrier as usize;
            if carrier < 1 || carrier > floor.carriers() {
                return refuse(7, 0);
            }
            let (planned, _) = super::plan(&floor);
            if planned[carrier - 1].is_some() {
                return refuse(16, 0);
            }
            store_answers(&planned, answers);
            Ok(done(0, super::blockers(&floor, &planned, carrier - 1).iter().map(|j| 1 << j).sum()))
        })())
    }

    /// The needed length of a trial's report: two numbers for each of the most steps, of which each carrier has twice as many as the one
    /// above it and one more.
    fn report_length(n: usize) -> usize {
        2 * (0..n).map(|i| (2 << i) - 1).sum::<usize>()
    }

    /// The needed length of text memory for n carriers: two fields and a newline, and for each carrier 66 fields and a newline.
    fn text_length(n: usize) -> usize {
        11 + 331 * n
    }

    /// Too little memory gets the first refusal of the order: the sheet's own, and 9 if it has none.
    pub fn print_routes(text: &[u8], out: &mut [u8]) -> u64 {
        word((|| {
            match floor_of_sheet(text) {
                Ok(floor) => long_enough(out.len() < text_length(floor.carriers()))?,
                Err(refusal) if out.len() < 16 => return Err(refusal),
                Err(_) => {}
            }
            let printed = super::print_routes(text);
            out[..printed.len()].copy_from_slice(printed.as_bytes());
            Ok(done(0, printed.len()))
        })())
    }

    pub fn fresh(floor: &[u16], walls: &[u16], state: &mut [u16]) -> u64 {
        word((|| {
            let floor = lent(floor, walls)?;
            let needed = state_length(floor.carriers());
            long_enough(state.len() < needed)?;
            state[..needed].copy_from_slice(&encode(&super::fresh(floor.carriers())));
            Ok(done(0, 0))
        })())
    }

    /// The floor and the state that are lent: refusals to 10.
    fn lent_state(floor: &[u16], walls: &[u16], state: &[u16]) -> Result<(Floor, State), Refusal> {
        let floor = lent(floor, walls)?;
        let needed = state_length(floor.carriers());
        long_enough(state.len() < needed)?;
        match decode(&floor, &state[..needed]) {
            None => refuse(10, 0),
            Some(decoded) => Ok((floor, decoded)),
        }
    }

    pub fn step(floor: &[u16], walls: &[u16], state: &mut [u16], step: u16) -> u64 {
        word((|| {
            let (floor, mut now) = lent_state(floor, walls, state)?;
            let Some(step) = step_named(step, floor.carriers()) else {
                return refuse(7, 0);
            };
            now.waits(&floor, step)?;
            let stepped = now.take(&floor, step);
            state[..state_length(floor.carriers())].copy_from_slice(&encode(&now));
            Ok(done(stepped as u64, 0))
        })())
    }

    pub fn run(floor: &[u16], walls: &[u16], state: &mut [u16], steps: &[u16], budget: u16) -> u64 {
        word((|| {
            let (floor, mut now) = lent_state(floor, walls, state)?;
            let mut named = Vec::new();
            for (position, &number) in steps.iter().enumerate() {
                match step_named(number, floor.carriers()) {
                    None => return refuse(7, position),
                    Some(step) => named.push(step),
                }
            }
            let (taken, end) = now.run(&floor, &named, budget as usize);
            state[..state_length(floor.carriers())].copy_from_slice(&encode(&now));
            Ok(done(end as u64, taken))
        })())
    }

    /// The state after a trial is the one after its steps.
    pub fn trial(floor: &[u16], walls: &[u16], order: u16, seed: u32, state: &mut [u16], report: &mut [u16]) -> u64 {
        word((|| {
            let floor = lent(floor, walls)?;
            let n = floor.carriers();
            long_enough(state.len() < state_length(n) || report.len() < report_length(n))?;
            if order == 0 || order > 3 {
                return refuse(11, 0);
            }
            let lines = super::trial(&floor, order, seed);
            let mut now = super::fresh(n);
            for (k, &(number, answer)) in lines.iter().enumerate() {
                now.take(&floor, step_named(number, n).expect("a reported step is named"));
                report[2 * k] = number;
                report[2 * k + 1] = answer as u16;
            }
            state[..state_length(n)].copy_from_slice(&encode(&now));
            Ok(done(0, lines.len()))
        })())
    }

    /// A run of a rank: the case is how many steps it has.
    pub fn run_of_rank(floor: &[u16], walls: &[u16], rank: u64, report: &mut [u16]) -> u64 {
        word((|| {
            let floor = lent(floor, walls)?;
            long_enough(report.len() < report_length(floor.carriers()))?;
            if floor.carriers() > 3 {
                return refuse(14, 0);
            }
            let (total, run) = super::run_at(&floor, rank);
            let Some(run) = run else {
                return refuse(15, 0);
            };
            for (k, &(number, answer)) in run.iter().enumerate() {
                report[2 * k] = number;
                report[2 * k + 1] = answer as u16;
            }
            Ok(done(run.len() as u64, total))
        })())
    }

    pub fn conflict(a: &[u16], b: &[u16], horizon: u16) -> u64 {
        word((|| {
            long_enough(a.len() < 64 || b.len() < 64)?;
            Ok(match first_conflict(a, b, (horizon as usize).min(63)) {
                None => done(0, 0),
                Some((beat, Kind::SameCell)) => done(1, beat),
                Some((beat, Kind::ChangeOfPlaces)) => done(2, beat),
                Some((beat, Kind::Following)) => done(3, beat),
            })
        })())
    }

    pub fn check_record(floor: &[u16], walls: &[u16], carrier: u16, record: &[u16]) -> u64 {
        word((|| {
            let floor = lent(floor, walls)?;
            long_enough(record.len() < 65)?;
            let carrier = carrier as usize;
            if carrier < 1 || carrier > floor.carriers() {
                return refuse(7, 0);
            }
            let cells: &Route = record[1..65].try_into().expect("a record has 64 cells");
            Ok(match told_by(&floor, carrier - 1, record[0], cells) {
                Told::Route { arrival } => done(0, arrival),
                Told::None => done(1, 0),
                Told::NotHeard => done(2, 0),
                Told::Wrong(cause, beat) => done(cause, beat),
            })
        })())
    }

    pub fn arrival(route: &[u16], horizon: u16) -> u64 {
        word((|| {
            long_enough(route.len() < 64)?;
            let cells: &Route = route[..64].try_into().expect("a route has 64 cells");
            Ok(done(0, arrival_of(cells, (horizon as usize).min(63))))
        })())
    }

    pub fn ceiling(carriers: u16) -> u64 {
        if (1..=8).contains(&carriers) {
            done(0, (1 << (carriers + 1)) - carriers as usize - 2)
        } else {
            refused(Refusal { number: 2, place: 5 })
        }
    }
}
