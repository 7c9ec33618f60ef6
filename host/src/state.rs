//! The state of the message machine in lent memory: steps, runs, and what a reader finds in it.

use crate::{calls, Answer, Floor, Refusal, Step, Stepped, View, ANSWER, CHANNEL};

/// The numbers of a state for the count of taken steps.
const COUNT: usize = 2;
/// The numbers of a state for a carrier: planned, due, and its answer.
const BOARD: usize = 2 + ANSWER;
/// The steps of a run that are handed over at a time.
const PART: usize = 128;

/// A state of a floor in lent memory. It holds the memory as long as it lives, so that nobody else writes it meanwhile.
#[derive(Debug)]
pub struct State<'m> {
    floor: &'m Floor<'m>,
    numbers: &'m mut [u16],
}

/// The messages on a channel, the oldest first.
#[derive(Clone, Copy, PartialEq, Eq, Debug)]
pub struct Channel<'m> {
    numbers: &'m [u16],
}

/// How a run ended.
#[derive(Clone, Copy, PartialEq, Eq, Hash, Debug)]
pub enum End {
    /// No step is open.
    Silent,
    /// The budget is used up, and steps are left unread.
    Spent,
    /// The list is read to its end, and some step is open.
    Ended,
}

/// What a run did.
#[derive(Clone, Copy, PartialEq, Eq, Hash, Debug)]
pub struct Ran {
    /// The number of steps taken.
    pub taken: u16,
    /// How it ended.
    pub end: End,
}

/// The most steps that so many carriers can take from the fresh state. Refusal 2 with field 5 for carriers outside 1 to 8.
pub fn ceiling(carriers: u16) -> Result<u32, Refusal> {
    calls::read(calls::ceiling(carriers)).map(|done| done.number as u32)
}

/// The word of a run.
fn ran(word: u64) -> Result<Ran, Refusal> {
    let done = calls::read(word)?;
    let end = match done.case {
        0 => End::Silent,
        1 => End::Spent,
        _ => End::Ended,
    };
    Ok(Ran { taken: done.number as u16, end })
}

impl<'m> State<'m> {
    /// Goes on with the state that lent memory holds. Refusals 9, then 10 where it is no state of this floor.
    pub fn resume(floor: &'m Floor<'m>, memory: &'m mut [u16]) -> Result<State<'m>, Refusal> {
        calls::read(calls::run(floor.record(), floor.walls(), memory, &[], 0))?;
        Ok(State::over(floor, memory))
    }

    /// The state that the front of lent memory is known to hold.
    pub(crate) fn over(floor: &'m Floor<'m>, memory: &'m mut [u16]) -> State<'m> {
        let numbers = memory.get_mut(..floor.lengths().state).unwrap_or_default();
        State { floor, numbers }
    }

    /// The floor of the state.
    pub fn floor(&self) -> &'m Floor<'m> {
        self.floor
    }

    /// Takes a single step. A step that names nothing on this floor is refused with 7. One that is not open is refused with what it
    /// waits for, and nothing changes: 8, the carrier is not due; 13, it is due, and the channel to the carrier told is full; 12,
    /// nothing is under way to the carrier told.
    pub fn step(&mut self, step: Step) -> Result<Stepped, Refusal> {
        let word = calls::step(self.floor.record(), self.floor.walls(), self.numbers, step.number());
        calls::read(word).map(|done| Stepped::of_case(u16::from(done.case)))
    }

    /// Runs over a list of steps: takes those that are open, in order, as long as the budget allows, and passes over the others. Refusal 7
    /// with the first position, from 0, of a step that names nothing on this floor; nothing is taken then.
    pub fn run(&mut self, steps: &[Step], budget: u16) -> Result<Ran, Refusal> {
        if steps.len() > PART {
            self.check(steps)?;
        }
        let mut whole = self.part(steps.get(..PART).unwrap_or(steps), budget)?;
        for part in steps.chunks(PART).skip(1) {
            let left = budget.saturating_sub(whole.taken);
            let more = self.part(part, left)?;
            whole = Ran { taken: whole.taken.saturating_add(more.taken), end: more.end };
            if left == 0 {
                break;
            }
        }
        Ok(whole)
    }

    /// Refuses a list with a step that names nothing on this floor; takes no step.
    fn check(&mut self, steps: &[Step]) -> Result<(), Refusal> {
        let mut before: u64 = 0;
        for part in steps.chunks(PART) {
            self.part(part, 0).map_err(|refusal| Refusal { place: refusal.place.saturating_add(before), ..refusal })?;
            before = before.saturating_add(PART as u64);
        }
        Ok(())
    }

    /// Runs over a list of at most [`PART`] steps.
    fn part(&mut self, steps: &[Step], budget: u16) -> Result<Ran, Refusal> {
        let mut list = [0; PART];
        list.iter_mut().zip(steps).for_each(|(place, step)| *place = step.number());
        let list = list.get(..steps.len()).unwrap_or(&list);
        ran(calls::run(self.floor.record(), self.floor.walls(), self.numbers, list, budget))
    }

    /// Whether no step is open: all answers are then the sequential planner's, and the carriers may drive.
    pub fn is_silent(&mut self) -> bool {
        matches!(self.part(&[], 0), Ok(Ran { end: End::Silent, .. }))
    }

    /// The count of taken steps; it stays at 999,999.
    pub fn count(&self) -> u32 {
        match *self.numbers {
            [thousands, rest, ..] => 1000 * u32::from(thousands) + u32::from(rest),
            _ => 0,
        }
    }

    /// Whether a carrier, from 1, has planned; nothing for one that is not there.
    pub fn planned(&self, i: u16) -> Option<bool> {
        self.board(i)?.first().map(|&number| number == 1)
    }

    /// Whether a carrier, from 1, is due; nothing for one that is not there.
    pub fn due(&self, i: u16) -> Option<bool> {
        self.board(i)?.get(1).map(|&number| number == 1)
    }

    /// The answer of a carrier, from 1; nothing for one that is not there.
    pub fn answer(&self, i: u16) -> Option<Answer<'_>> {
        self.board(i)?.get(2..).map(Answer::of_numbers)
    }

    /// The view that carrier i has of carrier j above it; nothing where there is no such pair.
    pub fn view(&self, i: u16, j: u16) -> Option<View<'_>> {
        self.slice(self.views() + ANSWER * self.pair(j, i)?, ANSWER).map(View::of_numbers)
    }

    /// The channel from carrier j to carrier i below it; nothing where there is no such pair.
    pub fn channel(&self, j: u16, i: u16) -> Option<Channel<'_>> {
        let (length, messages) = self.slice(self.channels() + CHANNEL * self.pair(j, i)?, CHANNEL)?.split_first()?;
        Some(Channel { numbers: messages.get(..ANSWER * usize::from(*length))? })
    }

    /// The state as it lies in memory.
    pub fn numbers(&self) -> &[u16] {
        self.numbers
    }

    /// So many numbers from a place on.
    fn slice(&self, at: usize, length: usize) -> Option<&[u16]> {
        self.numbers.get(at..)?.get(..length)
    }

    /// The numbers of a carrier that is there.
    fn board(&self, i: u16) -> Option<&[u16]> {
        self.slice(COUNT + BOARD * self.floor.index(i)?, BOARD)
    }

    /// The place of a pair of carriers, j above i, among all pairs.
    fn pair(&self, j: u16, i: u16) -> Option<usize> {
        let (above, below) = (self.floor.index(j)?, self.floor.index(i)?);
        (above < below).then(|| below * below.saturating_sub(1) / 2 + above)
    }

    /// Where the views begin.
    fn views(&self) -> usize {
        COUNT + BOARD * usize::from(self.floor.carriers())
    }

    /// Where the channels begin.
    fn channels(&self) -> usize {
        let n = usize::from(self.floor.carriers());
        self.views() + ANSWER * (n * n.saturating_sub(1) / 2)
    }
}

impl<'m> Channel<'m> {
    /// How many messages are under way.
    pub fn len(&self) -> usize {
        self.numbers.len() / ANSWER
    }

    /// Whether nothing is under way.
    pub fn is_empty(&self) -> bool {
        self.numbers.is_empty()
    }

    /// A message, counted from 1, the oldest.
    pub fn message(&self, q: usize) -> Option<Answer<'m>> {
        self.numbers.chunks_exact(ANSWER).nth(q.checked_sub(1)?).map(Answer::of_numbers)
    }

    /// The messages, the oldest first.
    pub fn messages(&self) -> impl Iterator<Item = Answer<'m>> + 'm {
        self.numbers.chunks_exact(ANSWER).map(Answer::of_numbers)
    }
}
