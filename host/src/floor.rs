//! A floor that the checks have accepted, and what is asked of it.

use crate::{calls, Answers, Carriers, Legality, Order, Refusal, Report, Route, State, View};
use crate::{ANSWER, CARRIERS, DOCKS, FLOOR, LENGTHS, MOST_ANSWERS, ROUTE};

/// The numbers of line 1 that no list tells.
#[derive(Clone, Copy, PartialEq, Eq, Hash, Debug)]
pub struct Dimensions {
    /// Columns, 1 to 32.
    pub width: u16,
    /// Rows, 1 to 32.
    pub height: u16,
    /// The last beat, 1 to 63.
    pub horizon: u16,
    /// The most messages on a channel, 1 to 4.
    pub depth: u16,
}

/// A carrier of a floor. A cell is row × width + column.
#[derive(Clone, Copy, PartialEq, Eq, Hash, Debug)]
pub struct Carrier<'a> {
    /// The cell where it starts.
    pub start: u16,
    /// The cells where its route may end, 1 to 4, all different.
    pub docks: &'a [u16],
}

/// The needed length of each lent buffer of a floor, in elements of the buffer.
#[derive(Clone, Copy, PartialEq, Eq, Hash, Debug)]
pub struct Lengths {
    /// Cell numbers of the walls.
    pub walls: usize,
    /// Bytes of the sheet.
    pub sheet: usize,
    /// Numbers of the answers.
    pub answers: usize,
    /// Bytes of printed routes.
    pub text: usize,
    /// Numbers of a state.
    pub state: usize,
    /// Cells of a route.
    pub route: usize,
    /// Numbers of a floor record.
    pub floor: usize,
    /// Figures, these included.
    pub figures: usize,
    /// Numbers of the report of a trial or of a listed run.
    pub report: usize,
}

/// A floor that the library's checks accept, its walls included: of the floor's refusals (2 to 6 and 17) no call on it has any.
#[derive(Clone, Copy, PartialEq, Eq, Debug)]
pub struct Floor<'w> {
    record: [u16; FLOOR],
    walls: &'w [u16],
    lengths: Lengths,
}

/// What the sequential planner leaves.
#[derive(Clone, Copy, PartialEq, Eq, Debug)]
pub struct Planned<'m> {
    /// The answers of all carriers.
    pub answers: Answers<'m>,
    /// The failing carrier: the first whose answer is none.
    pub failing: Option<u16>,
}

/// Who shuts a carrier in.
#[derive(Clone, Copy, PartialEq, Eq, Debug)]
pub struct Blockers<'m> {
    /// The carriers that shut it in; with none of them, walls or the horizon are the cause.
    pub carriers: Carriers,
    /// The answers of all carriers.
    pub answers: Answers<'m>,
}

/// A trial that was played to its end.
#[derive(Debug)]
pub struct Trial<'m> {
    /// The silent state at the end.
    pub state: State<'m>,
    /// The steps taken, each with its answer.
    pub report: Report<'m>,
}

/// A run of the lister.
#[derive(Clone, Copy, PartialEq, Eq, Debug)]
pub struct Listed<'m> {
    /// How many complete runs the floor has.
    pub total: u64,
    /// The run of the asked rank, each step with its answer.
    pub report: Report<'m>,
}

/// A length as a number of a record; one that no number tells is as far outside the limits as the largest.
fn counted(length: usize) -> u16 {
    u16::try_from(length).unwrap_or(u16::MAX)
}

/// The record of a floor by its parts. What the record has no place for is told by its counts alone, and refused for them.
fn record_of(dimensions: Dimensions, carriers: &[Carrier], walls: &[u16]) -> [u16; FLOOR] {
    let Dimensions { width, height, horizon, depth } = dimensions;
    let (mut starts, mut counts, mut docks) = ([0; CARRIERS], [0; CARRIERS], [[0; DOCKS]; CARRIERS]);
    for (((carrier, start), count), list) in carriers.iter().zip(&mut starts).zip(&mut counts).zip(&mut docks) {
        *start = carrier.start;
        *count = counted(carrier.docks.len());
        list.iter_mut().zip(carrier.docks).for_each(|(place, &dock)| *place = dock);
    }
    let line = [width, height, horizon, depth, counted(carriers.len()), counted(walls.len())];
    let numbers = line.iter().chain(&starts).chain(&counts).chain(docks.as_flattened());
    let mut record = [0; FLOOR];
    record.iter_mut().zip(numbers).for_each(|(place, &number)| *place = number);
    record
}

/// The bytes that a call has written to the front of lent memory.
fn front(out: &mut [u8], length: u64) -> &[u8] {
    usize::try_from(length).ok().and_then(|length| out.get(..length)).unwrap_or(&[])
}

/// Prints the routes of a sheet, or its refusal's line, into lent memory. Memory of [`MOST_TEXT`](crate::MOST_TEXT) bytes serves every
/// sheet; in less a sheet may be turned away, with its own refusal, or with 9 if it has none.
///
/// ```
/// let mut out = [0; kalomivund::MOST_TEXT];
/// assert_eq!(kalomivund::print_routes(b"", &mut out)?, b"    0    1    0\n");
/// # Ok::<(), kalomivund::Refusal>(())
/// ```
pub fn print_routes<'m>(text: &[u8], out: &'m mut [u8]) -> Result<&'m [u8], Refusal> {
    let done = calls::read(calls::print_routes(text, out))?;
    Ok(front(out, done.number))
}

impl<'w> Floor<'w> {
    /// The floor of these parts, carriers by falling rank, walls by strictly rising cell number. Refusals 2 to 6 and 17: for 0 or more
    /// than 8 carriers it is 2 with field 5, for more than 1,023 walls 2 with field 6, for 0 or more than 4 docks 3 with the carrier.
    ///
    /// ```
    /// use kalomivund::{Carrier, Dimensions, Floor};
    ///
    /// let dimensions = Dimensions { width: 3, height: 2, horizon: 4, depth: 1 };
    /// let carriers = [Carrier { start: 0, docks: &[2] }, Carrier { start: 2, docks: &[0, 3] }];
    /// let floor = Floor::new(dimensions, &carriers, &[])?;
    /// assert_eq!((floor.carriers(), floor.docks(2)), (2, Some(&[0, 3][..])));
    ///
    /// let undocked = [Carrier { start: 0, docks: &[] }];
    /// let refusal = Floor::new(dimensions, &undocked, &[]).unwrap_err();
    /// assert_eq!((refusal.number, refusal.place), (3, 1));
    /// # Ok::<(), kalomivund::Refusal>(())
    /// ```
    pub fn new(dimensions: Dimensions, carriers: &[Carrier], walls: &'w [u16]) -> Result<Floor<'w>, Refusal> {
        Floor::from_record(&record_of(dimensions, carriers, walls), walls)
    }

    /// The floor of a record and its walls; numbers past those that the record counts are no part of it. Refusals 9 (fewer than 54
    /// numbers, or fewer walls than the record counts), 2 to 6 and 17.
    pub fn from_record(record: &[u16], walls: &'w [u16]) -> Result<Floor<'w>, Refusal> {
        calls::read(calls::check_floor(record, walls))?;
        let mut own = [0; FLOOR];
        own.iter_mut().zip(record).for_each(|(place, &number)| *place = number);
        clear_unused(&mut own);
        Floor::accepted(own, walls)
    }

    /// Reads a sheet, its walls into lent memory. Refusals 1 to 6 and 17, and 9 where the walls do not fit.
    pub fn read_sheet(text: &[u8], walls: &'w mut [u16]) -> Result<Floor<'w>, Refusal> {
        let mut record = [0; FLOOR];
        calls::read(calls::read_sheet(text, &mut record, walls))?;
        Floor::accepted(record, walls)
    }

    /// The floor of an accepted record.
    fn accepted(record: [u16; FLOOR], walls: &'w [u16]) -> Result<Floor<'w>, Refusal> {
        let mut figures = [0; LENGTHS];
        calls::read(calls::needed_lengths(&record, &mut figures))?;
        let [own, sheet, answers, text, state, route, floor, figures, report] = figures.map(|length| length as usize);
        let lengths = Lengths { walls: own, sheet, answers, text, state, route, floor, figures, report };
        Ok(Floor { record, walls: walls.get(..own).unwrap_or(walls), lengths })
    }

    /// The 54 numbers of the floor, 0 in places that are no part of it.
    pub fn record(&self) -> &[u16; FLOOR] {
        &self.record
    }

    /// The walls, by strictly rising cell number.
    pub fn walls(&self) -> &'w [u16] {
        self.walls
    }

    /// The needed length of each lent buffer.
    pub fn lengths(&self) -> Lengths {
        self.lengths
    }

    /// Width, height, horizon and depth.
    pub fn dimensions(&self) -> Dimensions {
        let [width, height, horizon, depth, ..] = self.record;
        Dimensions { width, height, horizon, depth }
    }

    /// How many carriers there are, 1 to 8.
    pub fn carriers(&self) -> u16 {
        let [_, _, _, _, carriers, ..] = self.record;
        carriers
    }

    /// A carrier, from 1, with its start and its docks; nothing for one that is not there.
    pub fn carrier(&self, i: u16) -> Option<Carrier<'_>> {
        let k = self.index(i)?;
        let count = usize::from(*self.record.get(14 + k)?);
        let docks = self.record.get(22 + DOCKS * k..)?.get(..count)?;
        Some(Carrier { start: *self.record.get(6 + k)?, docks })
    }

    /// The start of a carrier, from 1.
    pub fn start(&self, i: u16) -> Option<u16> {
        self.carrier(i).map(|carrier| carrier.start)
    }

    /// The docks of a carrier, from 1.
    pub fn docks(&self, i: u16) -> Option<&[u16]> {
        self.carrier(i).map(|carrier| carrier.docks)
    }

    /// The cell in a column and a row, both from 0.
    pub fn cell(&self, column: u16, row: u16) -> Option<u16> {
        let Dimensions { width, height, .. } = self.dimensions();
        (column < width && row < height).then(|| row.saturating_mul(width).saturating_add(column))
    }

    /// The place from 0 of a carrier that is there.
    pub(crate) fn index(&self, i: u16) -> Option<usize> {
        let k = i.checked_sub(1)?;
        (k < self.carriers()).then_some(usize::from(k))
    }

    /// Writes the floor's sheet into lent memory. Refusal 9.
    pub fn write_sheet<'m>(&self, out: &'m mut [u8]) -> Result<&'m [u8], Refusal> {
        let done = calls::read(calls::write_sheet(&self.record, self.walls, out))?;
        Ok(front(out, done.number))
    }

    /// The best route of a carrier, from 1, to any of its docks against the views of those above it, the first being carrier 1's;
    /// nothing where there is no route. Views that the list does not have are not heard. Refusal 7 for a carrier that is not there.
    pub fn search(&self, carrier: u16, views: &[View]) -> Result<Option<Route>, Refusal> {
        let (mut numbers, mut route) = ([0; MOST_ANSWERS], [0; ROUTE]);
        for (place, view) in numbers.chunks_exact_mut(ANSWER).zip(views) {
            place.copy_from_slice(&view.numbers());
        }
        let done = calls::read(calls::search(&self.record, self.walls, carrier, &numbers, &mut route))?;
        Ok((done.case == 1).then_some(route))
    }

    /// What a record is for a carrier, from 1: a route of it with its arrival, none, not heard, or what is wrong first. Of the record 65
    /// numbers are looked at. Refusals 9 for fewer, then 7 for a carrier that is not there.
    ///
    /// ```
    /// use kalomivund::{Carrier, Dimensions, Fault, Floor, Legality, ANSWER};
    ///
    /// let dimensions = Dimensions { width: 3, height: 2, horizon: 4, depth: 1 };
    /// let floor = Floor::new(dimensions, &[Carrier { start: 0, docks: &[2] }], &[])?;
    /// let mut record = [0; ANSWER];
    /// record[..6].copy_from_slice(&[2, 0, 1, 2, 2, 2]);
    /// assert_eq!(floor.check_record(1, &record)?, Legality::Route { arrival: 2 });
    /// record[3] = 5; // from cell 1 to cell 5 is over a corner
    /// assert_eq!(floor.check_record(1, &record)?, Legality::Wrong(Fault::Move(1)));
    /// # Ok::<(), kalomivund::Refusal>(())
    /// ```
    pub fn check_record(&self, carrier: u16, record: &[u16]) -> Result<Legality, Refusal> {
        calls::read(calls::check_record(&self.record, self.walls, carrier, record)).map(Legality::of_done)
    }

    /// Plans all carriers in turn into lent memory. A carrier with none stays at its start: those below it keep off it, one above it
    /// may still cross it. Refusal 9.
    pub fn plan<'m>(&self, memory: &'m mut [u16]) -> Result<Planned<'m>, Refusal> {
        let done = calls::read(calls::plan(&self.record, self.walls, memory))?;
        let failing = done.number as u16;
        Ok(Planned { answers: Answers::at_front(memory, self.lengths.answers), failing: (failing != 0).then_some(failing) })
    }

    /// Who shuts in a carrier, from 1, that has none in the sequential result: the carriers above it against whose answers alone there is
    /// still no route, and against any smaller part of which there is one. From carrier 1 downwards in rank, each that can go is left out.
    /// The answers go into lent memory as [`plan`](Floor::plan) leaves them. Refusals 9, then 7 for a carrier that is not there, then 16
    /// for one that has a route.
    pub fn blockers<'m>(&self, carrier: u16, memory: &'m mut [u16]) -> Result<Blockers<'m>, Refusal> {
        let done = calls::read(calls::blockers(&self.record, self.walls, carrier, memory))?;
        let answers = Answers::at_front(memory, self.lengths.answers);
        Ok(Blockers { carriers: Carriers(done.number as u8), answers })
    }

    /// Makes lent memory the fresh state of the floor. Refusal 9.
    pub fn fresh<'m>(&'m self, memory: &'m mut [u16]) -> Result<State<'m>, Refusal> {
        calls::read(calls::fresh(&self.record, self.walls, memory))?;
        Ok(State::over(self, memory))
    }

    /// Plays a whole run from fresh to silent in an order. Refusal 9.
    pub fn trial<'m>(&'m self, order: Order, state: &'m mut [u16], report: &'m mut [u16]) -> Result<Trial<'m>, Refusal> {
        let (order, seed) = order.numbers();
        let done = calls::read(calls::trial(&self.record, self.walls, order, seed, state, report))?;
        Ok(Trial { state: State::over(self, state), report: Report::at_front(report, done.number as usize) })
    }

    /// The complete run, from fresh to silent, of a rank from 0, of a floor of at most three carriers; the needed length of its report is
    /// that of a trial's. Refusals 9, then 14 for more carriers, then 15 for a rank not below the total.
    pub fn run_of_rank<'m>(&self, rank: u64, report: &'m mut [u16]) -> Result<Listed<'m>, Refusal> {
        let done = calls::read(calls::run_of_rank(&self.record, self.walls, rank, report))?;
        Ok(Listed { total: done.number, report: Report::at_front(report, usize::from(done.case)) })
    }
}

/// Puts 0 into the places of a record that are no part of its floor: those past the carriers, and docks past a carrier's count.
fn clear_unused(record: &mut [u16; FLOOR]) {
    let [_, _, _, _, carriers, _, places @ ..] = record;
    let (starts, rest) = places.split_at_mut(CARRIERS);
    let (counts, docks) = rest.split_at_mut(CARRIERS);
    let lists = docks.chunks_exact_mut(DOCKS);
    for (k, ((start, count), list)) in starts.iter_mut().zip(counts).zip(lists).enumerate() {
        if k >= usize::from(*carriers) {
            (*start, *count) = (0, 0);
        }
        list.iter_mut().skip(usize::from(*count)).for_each(|dock| *dock = 0);
    }
}
