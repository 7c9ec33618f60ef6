//! Safe Rust over the proved planning library: routes for up to eight tote carriers on a floor of cells (document 01), each to any of up to
//! four docks (document 02, slip 10).
//!
//! Memory is always lent by the caller, and a refused call leaves it as it was. [`Floor::lengths`] says how much each buffer of a floor
//! needs, and the constants `MOST_…` what serves every floor. The crate allocates nothing and needs no `std`; no function of it panics.
//!
//! A sheet is read, all carriers are planned in turn, and then they plan by radio, step for step:
//!
//! ```
//! use kalomivund::{Answer, End, Floor, Step, Stepped, MOST_ANSWERS, MOST_STATE, MOST_WALLS};
//!
//! let sheet = b"    3    2    4    1    2    0\n    0    0    1    2    0\n    2    0    1    0    0\n";
//! let mut walls = [0; MOST_WALLS];
//! let floor = Floor::read_sheet(sheet, &mut walls)?;
//!
//! let mut memory = [0; MOST_ANSWERS];
//! let planned = floor.plan(&mut memory)?;
//! assert_eq!(planned.failing, None);
//! assert!(matches!(planned.answers.answer(2), Some(Answer::Route([2, 5, 4, 1, 0, ..]))));
//!
//! let mut memory = [0; MOST_STATE];
//! let mut state = floor.fresh(&mut memory)?;
//! assert_eq!(state.step(Step::Plan(1))?, Stepped::Sent);
//! let refusal = state.step(Step::Plan(1)).unwrap_err();
//! assert_eq!(refusal.to_string(), "refusal 8: the carrier is not due");
//! let ran = state.run(&[Step::Deliver { from: 1, to: 2 }, Step::Plan(2)], 9)?;
//! assert_eq!((ran.taken, ran.end, state.count()), (2, End::Silent, 3));
//! assert_eq!(state.answer(2), planned.answers.answer(2));
//! # Ok::<(), kalomivund::Refusal>(())
//! ```
//!
//! The C header `include/kalomivund.h` has the same names: the constants of this page with `KALOMIVUND_` before them, `KALOMIVUND_PLAN` and
//! `KALOMIVUND_DELIVER` for the steps, `KALOMIVUND_STATE_DUE`, `_ANSWER`, `_VIEW`, `_CHANNEL` for the parts of a [`State`]. Carriers count
//! from 1, here as there; 1 ranks highest. [`calls`] are the same functions over plain numbers.
#![no_std]
#![deny(missing_docs, unsafe_code)]
#![deny(clippy::unwrap_used, clippy::expect_used, clippy::panic, clippy::unreachable, clippy::indexing_slicing)]

pub mod calls;
mod floor;
pub mod raw;
mod refusal;
mod route;
mod state;
mod step;

pub use floor::{print_routes, Blockers, Carrier, Dimensions, Floor, Lengths, Listed, Planned, Trial};
pub use refusal::Refusal;
pub use route::{arrival, conflict, Answer, Answers, Carriers, Conflict, Fault, Legality, Route, View};
pub use state::{ceiling, Channel, End, Ran, State};
pub use step::{Order, Report, Step, Stepped, UnknownStep};

/// The numbers of a floor record: width, height, horizon, depth, carriers, walls, eight starts, eight dock counts, four docks of each of
/// eight carriers.
pub const FLOOR: usize = 54;
/// The most carriers of a floor.
pub const CARRIERS: usize = 8;
/// The most docks of a carrier.
pub const DOCKS: usize = 4;
/// The cells of a route: one for each beat from 0 to the horizon, the rest 0.
pub const ROUTE: usize = 64;
/// The numbers of an answer, a view or a message: its tag, and the cells of a route.
pub const ANSWER: usize = 65;
/// The numbers of a channel of a state: its length, and four messages.
pub const CHANNEL: usize = 261;
/// The figures of the needed lengths.
pub const LENGTHS: usize = 9;
/// The most walls of a floor.
pub const MOST_WALLS: usize = 1_023;
/// The most bytes of a sheet.
pub const MOST_SHEET: usize = 11_732;
/// The most numbers of a floor's answers.
pub const MOST_ANSWERS: usize = 520;
/// The most bytes of printed routes.
pub const MOST_TEXT: usize = 2_659;
/// The most numbers of a state.
pub const MOST_STATE: usize = 9_666;
/// The most numbers of a report.
pub const MOST_REPORT: usize = 1_004;
