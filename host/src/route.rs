//! Routes, answers, views, sets of carriers, the first conflict of two routes, what a record is, and the arrival of a route.

use core::fmt;

use crate::{calls, ANSWER, CARRIERS, ROUTE};

/// A route: a cell for each beat, 0 after the horizon. A cell is row × width + column.
pub type Route = [u16; ROUTE];

/// The answer of a carrier, or the message that tells it.
#[derive(Clone, Copy, PartialEq, Eq, Hash, Debug)]
pub enum Answer<'m> {
    /// The paper's none: there is no route, and the carrier stays at its start.
    None,
    /// The best route.
    Route(&'m Route),
}

impl<'m> Answer<'m> {
    /// The answer in 65 numbers: tag 1 none, 2 a route.
    pub(crate) fn of_numbers(numbers: &'m [u16]) -> Answer<'m> {
        match numbers {
            [2, cells @ ..] => cells.first_chunk().map_or(Answer::None, Answer::Route),
            _ => Answer::None,
        }
    }

    /// The route, where there is one.
    pub fn route(&self) -> Option<&'m Route> {
        match self {
            Answer::None => None,
            Answer::Route(route) => Some(route),
        }
    }
}

/// The view that a carrier has of one above it.
#[derive(Clone, Copy, PartialEq, Eq, Hash, Debug)]
pub enum View<'m> {
    /// Nothing was heard: it occupies nothing.
    NotHeard,
    /// None was heard: it occupies the start of the carrier above at every beat.
    None,
    /// A route was heard.
    Route(&'m Route),
}

impl<'m> View<'m> {
    /// The view in 65 numbers: tag 0 not heard, 1 none, 2 a route.
    pub(crate) fn of_numbers(numbers: &'m [u16]) -> View<'m> {
        match numbers {
            [0, ..] => View::NotHeard,
            _ => Answer::of_numbers(numbers).into(),
        }
    }

    /// The 65 numbers of the view.
    pub(crate) fn numbers(&self) -> [u16; ANSWER] {
        let mut numbers = [0; ANSWER];
        let [tag, cells @ ..] = &mut numbers;
        match self {
            View::NotHeard => {}
            View::None => *tag = 1,
            View::Route(route) => {
                *tag = 2;
                *cells = **route;
            }
        }
        numbers
    }

    /// The answer that was heard, if any was.
    pub fn heard(&self) -> Option<Answer<'m>> {
        match self {
            View::NotHeard => None,
            View::None => Some(Answer::None),
            View::Route(route) => Some(Answer::Route(route)),
        }
    }
}

impl<'m> From<Answer<'m>> for View<'m> {
    fn from(answer: Answer<'m>) -> View<'m> {
        match answer {
            Answer::None => View::None,
            Answer::Route(route) => View::Route(route),
        }
    }
}

/// The answers of a floor's carriers: the front of lent memory, 65 numbers a carrier.
#[derive(Clone, Copy, PartialEq, Eq, Debug)]
pub struct Answers<'m> {
    numbers: &'m [u16],
}

impl<'m> Answers<'m> {
    /// The answers of so many numbers at the front of memory.
    pub(crate) fn at_front(memory: &'m [u16], length: usize) -> Answers<'m> {
        Answers { numbers: memory.get(..length).unwrap_or(&[]) }
    }

    /// The answer of a carrier, from 1; nothing for a carrier that is not there.
    pub fn answer(&self, i: u16) -> Option<Answer<'m>> {
        self.numbers.chunks_exact(ANSWER).nth(usize::from(i).checked_sub(1)?).map(Answer::of_numbers)
    }

    /// The answers from carrier 1 on.
    pub fn iter(&self) -> impl Iterator<Item = Answer<'m>> + 'm {
        self.numbers.chunks_exact(ANSWER).map(Answer::of_numbers)
    }

    /// The answers as all carriers below may have heard them, for [`Floor::search`](crate::Floor::search); not heard past the last carrier.
    pub fn views(&self) -> [View<'m>; CARRIERS] {
        let mut views = [View::NotHeard; CARRIERS];
        for (view, answer) in views.iter_mut().zip(self.iter()) {
            *view = answer.into();
        }
        views
    }

    /// The answers as they lie in memory.
    pub fn numbers(&self) -> &'m [u16] {
        self.numbers
    }
}

/// A set of carriers.
#[derive(Clone, Copy, PartialEq, Eq, Hash, Debug, Default)]
pub struct Carriers(pub(crate) u8);

impl Carriers {
    /// Whether a carrier, from 1, is in the set.
    pub fn contains(&self, i: u16) -> bool {
        (1..=8).contains(&i) && self.0 >> (i - 1) & 1 == 1
    }

    /// The carriers of the set, rising.
    pub fn iter(&self) -> impl Iterator<Item = u16> {
        let set = *self;
        (1..=8).filter(move |&i| set.contains(i))
    }

    /// How many carriers the set has.
    pub fn len(&self) -> usize {
        self.0.count_ones() as usize
    }

    /// Whether the set has no carrier.
    pub fn is_empty(&self) -> bool {
        self.0 == 0
    }
}

/// The first conflict of two routes, with its beat.
#[derive(Clone, Copy, PartialEq, Eq, Hash, Debug)]
pub enum Conflict {
    /// Both are in one cell at this beat.
    SameCell(
        /// The beat.
        u16,
    ),
    /// They change places between this beat and the next.
    ChangeOfPlaces(
        /// The beat before the change.
        u16,
    ),
    /// One enters, between this beat and the next, the cell that the other leaves.
    Following(
        /// The beat before the entry.
        u16,
    ),
}

impl fmt::Display for Conflict {
    fn fmt(&self, f: &mut fmt::Formatter) -> fmt::Result {
        match self {
            Conflict::SameCell(beat) => write!(f, "same cell at beat {beat}"),
            Conflict::ChangeOfPlaces(beat) => write!(f, "change of places after beat {beat}"),
            Conflict::Following(beat) => write!(f, "following after beat {beat}"),
        }
    }
}

/// The first conflict of two routes over beats 0 to the horizon, one above 63 counting as 63; nothing if they are free. At one beat same
/// cell comes before change of places, and this before following. Any 64 numbers are taken as they stand.
pub fn conflict(a: &Route, b: &Route, horizon: u16) -> Option<Conflict> {
    let done = calls::read(calls::conflict(a, b, horizon)).ok()?;
    let beat = done.number as u16;
    match done.case {
        1 => Some(Conflict::SameCell(beat)),
        2 => Some(Conflict::ChangeOfPlaces(beat)),
        3 => Some(Conflict::Following(beat)),
        _ => None,
    }
}

/// What a record of 65 numbers is for a carrier of a floor.
#[derive(Clone, Copy, PartialEq, Eq, Hash, Debug)]
pub enum Legality {
    /// A route of the carrier.
    Route {
        /// Its arrival.
        arrival: u16,
    },
    /// None.
    None,
    /// Not heard.
    NotHeard,
    /// No record of the carrier: the first thing that is wrong.
    Wrong(
        /// What is wrong.
        Fault,
    ),
}

/// What is wrong first with a record, in this order, each with its first beat.
#[derive(Clone, Copy, PartialEq, Eq, Hash, Debug)]
pub enum Fault {
    /// The tag is none of 0, 1 and 2.
    Tag,
    /// It does not begin at the carrier's start.
    Start,
    /// At this beat it is at no cell of the floor, or on a wall.
    Cell(
        /// The beat.
        u16,
    ),
    /// After this beat it neither stays nor goes to a cell that shares a side.
    Move(
        /// The beat before the move.
        u16,
    ),
    /// At the horizon it is at no dock of the carrier.
    Dock(
        /// The horizon.
        u16,
    ),
    /// A number other than 0 in an unused place: after the horizon of a route, or where there is no route.
    Unused(
        /// The beat of the place.
        u16,
    ),
}

impl Legality {
    /// What the word of a check says.
    pub(crate) fn of_done(done: calls::Done) -> Legality {
        let beat = done.number as u16;
        match done.case {
            0 => Legality::Route { arrival: beat },
            1 => Legality::None,
            2 => Legality::NotHeard,
            3 => Legality::Wrong(Fault::Start),
            4 => Legality::Wrong(Fault::Cell(beat)),
            5 => Legality::Wrong(Fault::Move(beat)),
            6 => Legality::Wrong(Fault::Dock(beat)),
            7 => Legality::Wrong(Fault::Unused(beat)),
            _ => Legality::Wrong(Fault::Tag),
        }
    }
}

impl fmt::Display for Fault {
    fn fmt(&self, f: &mut fmt::Formatter) -> fmt::Result {
        match self {
            Fault::Tag => write!(f, "no such tag"),
            Fault::Start => write!(f, "it does not begin at the start"),
            Fault::Cell(beat) => write!(f, "no cell of the floor, or a wall, at beat {beat}"),
            Fault::Move(beat) => write!(f, "no stay and no move across a side after beat {beat}"),
            Fault::Dock(beat) => write!(f, "no dock at beat {beat}"),
            Fault::Unused(beat) => write!(f, "a number in the unused place of beat {beat}"),
        }
    }
}

/// The arrival of a route: the least beat from which it stays through the horizon, one above 63 counting as 63, at the cell where it ends.
/// Any 64 numbers are taken as they stand.
pub fn arrival(route: &Route, horizon: u16) -> u16 {
    calls::read(calls::arrival(route, horizon)).map_or(0, |done| done.number as u16)
}
