//! Steps, their answers, the orders of a trial, and the report of a run.

use core::fmt;

/// A step of the machine. One that names a carrier which the floor does not have, or a sender that is not above the receiver, is refused
/// with 7.
#[derive(Clone, Copy, PartialEq, Eq, PartialOrd, Ord, Hash, Debug)]
pub enum Step {
    /// The carrier plans its best route against what it has heard.
    Plan(u16),
    /// The oldest message on the channel becomes the receiver's view of the sender.
    Deliver {
        /// The sender, which ranks above the receiver.
        from: u16,
        /// The receiver.
        to: u16,
    },
}

/// Whether a carrier number has a digit of its own in a step's number.
const fn is_digit(i: u16) -> bool {
    1 <= i && i <= 9
}

impl Step {
    /// The number of the step, as the library and a report have it: 100 + i, or 200 + 10 j + i. It is 0, which names no step, where a
    /// carrier is outside 1 to 9, so that no carrier number can be taken for another step.
    ///
    /// ```
    /// use kalomivund::Step;
    /// assert_eq!((Step::Plan(2).number(), Step::Deliver { from: 1, to: 2 }.number()), (102, 212));
    /// assert_eq!(Step::Plan(112).number(), 0);
    /// assert_eq!(Step::try_from(212), Ok(Step::Deliver { from: 1, to: 2 }));
    /// ```
    pub const fn number(self) -> u16 {
        match self {
            Step::Plan(i) if is_digit(i) => 100 + i,
            Step::Deliver { from, to } if is_digit(from) && is_digit(to) => 200 + 10 * from + to,
            _ => 0,
        }
    }
}

impl From<Step> for u16 {
    fn from(step: Step) -> u16 {
        step.number()
    }
}

/// The step that a number names on a floor of eight carriers.
impl TryFrom<u16> for Step {
    type Error = UnknownStep;

    fn try_from(number: u16) -> Result<Step, UnknownStep> {
        match (number / 100, number / 10 % 10, number % 10) {
            (1, 0, i @ 1..=8) => Ok(Step::Plan(i)),
            (2, from, to) if 1 <= from && from < to && to <= 8 => Ok(Step::Deliver { from, to }),
            _ => Err(UnknownStep(number)),
        }
    }
}

impl fmt::Display for Step {
    fn fmt(&self, f: &mut fmt::Formatter) -> fmt::Result {
        match self {
            Step::Plan(i) => write!(f, "plan {i}"),
            Step::Deliver { from, to } => write!(f, "deliver {from} to {to}"),
        }
    }
}

/// A number that names no step of any floor.
#[derive(Clone, Copy, PartialEq, Eq, Hash, Debug)]
pub struct UnknownStep(
    /// The number.
    pub u16,
);

impl fmt::Display for UnknownStep {
    fn fmt(&self, f: &mut fmt::Formatter) -> fmt::Result {
        write!(f, "{} names no step", self.0)
    }
}

impl core::error::Error for UnknownStep {}

/// The answer of a step that is taken.
#[derive(Clone, Copy, PartialEq, Eq, Hash, Debug)]
pub enum Stepped {
    /// Planned, and the answer is what it was: nothing is sent.
    Kept,
    /// Planned for the first time or with a new answer, which goes to each carrier below.
    Sent,
    /// The oldest message of a channel became a view.
    Delivered,
}

impl Stepped {
    /// The answer of a case: 0 kept, 1 sent, 2 delivered.
    pub(crate) fn of_case(case: u16) -> Stepped {
        match case {
            0 => Stepped::Kept,
            1 => Stepped::Sent,
            _ => Stepped::Delivered,
        }
    }
}

impl fmt::Display for Stepped {
    fn fmt(&self, f: &mut fmt::Formatter) -> fmt::Result {
        f.write_str(match self {
            Stepped::Kept => "kept",
            Stepped::Sent => "sent",
            Stepped::Delivered => "delivered",
        })
    }
}

/// The order in which a trial takes the open steps. Steps are ranked plans by carrier, then deliveries by sender, then by receiver.
#[derive(Clone, Copy, PartialEq, Eq, Hash, Debug)]
pub enum Order {
    /// Order 1: always the first open step.
    First,
    /// Order 2: round the ranking, each search starting behind the step last taken.
    Round,
    /// Order 3: drawn, from a seed.
    Drawn(
        /// The seed: the number before the first that is drawn.
        u32,
    ),
}

impl Order {
    /// The order's number, and its seed.
    pub(crate) fn numbers(self) -> (u16, u32) {
        match self {
            Order::First => (1, 0),
            Order::Round => (2, 0),
            Order::Drawn(seed) => (3, seed),
        }
    }
}

/// The step of two numbers of a report, with its answer.
fn told(pair: &[u16]) -> Option<(Step, Stepped)> {
    match *pair {
        [number, case] => Some((Step::try_from(number).ok()?, Stepped::of_case(case))),
        _ => None,
    }
}

/// The steps of a whole run in their order, each with its answer: the front of lent memory, two numbers a step.
#[derive(Clone, Copy, PartialEq, Eq, Debug)]
pub struct Report<'m> {
    numbers: &'m [u16],
}

impl<'m> Report<'m> {
    /// The report of so many steps at the front of memory.
    pub(crate) fn at_front(memory: &'m [u16], steps: usize) -> Report<'m> {
        Report { numbers: memory.get(..steps.saturating_mul(2)).unwrap_or(&[]) }
    }

    /// How many steps the run takes.
    pub fn len(&self) -> usize {
        self.numbers.len() / 2
    }

    /// Whether the run takes no step.
    pub fn is_empty(&self) -> bool {
        self.numbers.is_empty()
    }

    /// A step (from 0) with its answer.
    pub fn step(&self, k: usize) -> Option<(Step, Stepped)> {
        self.numbers.chunks_exact(2).nth(k).and_then(told)
    }

    /// The steps with their answers.
    pub fn steps(&self) -> impl Iterator<Item = (Step, Stepped)> + 'm {
        self.numbers.chunks_exact(2).filter_map(told)
    }

    /// The report as it lies in memory.
    pub fn numbers(&self) -> &'m [u16] {
        self.numbers
    }
}
