//! The library's functions over plain numbers: slices in, a word out, as the archive gives it. The rest of the crate is written over
//! them, and the tests and the benchmark call them. `include/kalomivund.h` says of each what it takes, writes and refuses. Every call
//! here is safe: a slice is a valid pointer with its count, and Rust keeps what is written apart from the rest.
#![allow(unsafe_code)]

use crate::{raw, Refusal};

/// What the word of a call that is done says.
#[derive(Clone, Copy, PartialEq, Eq, Hash, Debug)]
pub struct Done {
    /// The case.
    pub case: u8,
    /// The number, up to 2^48 − 1.
    pub number: u64,
}

/// What a word says: low byte 0 done or 1 refused, the next byte the case or the refusal, then the number or the place.
///
/// ```
/// use kalomivund::calls::{read, Done};
/// assert_eq!(read(0x40200), Ok(Done { case: 2, number: 4 }));
/// assert_eq!(read(0x20c01), Err(kalomivund::Refusal { number: 12, place: 2 }));
/// ```
pub fn read(word: u64) -> Result<Done, Refusal> {
    let [low, second, ..] = word.to_le_bytes();
    match low {
        0 => Ok(Done { case: second, number: word >> 16 }),
        _ => Err(Refusal { number: second, place: word >> 16 }),
    }
}

/// Reads a sheet: its floor record and its walls into lent memory.
pub fn read_sheet(text: &[u8], floor: &mut [u16], walls: &mut [u16]) -> u64 {
    unsafe {
        raw::kalomivund_read_sheet(text.as_ptr(), text.len(), floor.as_mut_ptr(), floor.len(), walls.as_mut_ptr(), walls.len())
    }
}

/// Writes a floor's sheet into lent memory: number the bytes written.
pub fn write_sheet(floor: &[u16], walls: &[u16], out: &mut [u8]) -> u64 {
    unsafe { raw::kalomivund_write_sheet(floor.as_ptr(), floor.len(), walls.as_ptr(), walls.len(), out.as_mut_ptr(), out.len()) }
}

/// Checks a floor and its walls.
pub fn check_floor(floor: &[u16], walls: &[u16]) -> u64 {
    unsafe { raw::kalomivund_check_floor(floor.as_ptr(), floor.len(), walls.as_ptr(), walls.len()) }
}

/// The needed length of each lent buffer of a floor: nine figures.
pub fn needed_lengths(floor: &[u16], out: &mut [u64]) -> u64 {
    unsafe { raw::kalomivund_needed_lengths(floor.as_ptr(), floor.len(), out.as_mut_ptr(), out.len()) }
}

/// The best route of a carrier against views: case 0 none, 1 a route.
pub fn search(floor: &[u16], walls: &[u16], carrier: u16, views: &[u16], route: &mut [u16]) -> u64 {
    unsafe {
        raw::kalomivund_search(
            floor.as_ptr(),
            floor.len(),
            walls.as_ptr(),
            walls.len(),
            carrier,
            views.as_ptr(),
            views.len(),
            route.as_mut_ptr(),
            route.len(),
        )
    }
}

/// The sequential planner: number the failing carrier, 0 if all have routes.
pub fn plan(floor: &[u16], walls: &[u16], answers: &mut [u16]) -> u64 {
    unsafe { raw::kalomivund_plan(floor.as_ptr(), floor.len(), walls.as_ptr(), walls.len(), answers.as_mut_ptr(), answers.len()) }
}

/// Who shuts a carrier in: number the set, bit j − 1 being carrier j's.
pub fn blockers(floor: &[u16], walls: &[u16], carrier: u16, answers: &mut [u16]) -> u64 {
    unsafe {
        raw::kalomivund_blockers(
            floor.as_ptr(),
            floor.len(),
            walls.as_ptr(),
            walls.len(),
            carrier,
            answers.as_mut_ptr(),
            answers.len(),
        )
    }
}

/// From a sheet's bytes to its printed routes: number the bytes written.
pub fn print_routes(text: &[u8], out: &mut [u8]) -> u64 {
    unsafe { raw::kalomivund_print_routes(text.as_ptr(), text.len(), out.as_mut_ptr(), out.len()) }
}

/// Makes a fresh state.
pub fn fresh(floor: &[u16], walls: &[u16], state: &mut [u16]) -> u64 {
    unsafe { raw::kalomivund_fresh(floor.as_ptr(), floor.len(), walls.as_ptr(), walls.len(), state.as_mut_ptr(), state.len()) }
}

/// Takes one step: case 0 kept, 1 sent, 2 delivered.
pub fn step(floor: &[u16], walls: &[u16], state: &mut [u16], step: u16) -> u64 {
    unsafe {
        raw::kalomivund_step(floor.as_ptr(), floor.len(), walls.as_ptr(), walls.len(), state.as_mut_ptr(), state.len(), step)
    }
}

/// Runs over a list of steps: case 0 silent, 1 spent, 2 ended; number the steps taken.
pub fn run(floor: &[u16], walls: &[u16], state: &mut [u16], steps: &[u16], budget: u16) -> u64 {
    unsafe {
        raw::kalomivund_run(
            floor.as_ptr(),
            floor.len(),
            walls.as_ptr(),
            walls.len(),
            state.as_mut_ptr(),
            state.len(),
            steps.as_ptr(),
            steps.len(),
            budget,
        )
    }
}

/// The complete run of a rank: case its steps, number how many runs there are.
pub fn run_of_rank(floor: &[u16], walls: &[u16], rank: u64, report: &mut [u16]) -> u64 {
    unsafe {
        raw::kalomivund_run_of_rank(
            floor.as_ptr(),
            floor.len(),
            walls.as_ptr(),
            walls.len(),
            rank,
            report.as_mut_ptr(),
            report.len(),
        )
    }
}

/// Plays a whole run in an order: number the steps taken.
pub fn trial(floor: &[u16], walls: &[u16], order: u16, seed: u32, state: &mut [u16], report: &mut [u16]) -> u64 {
    unsafe {
        raw::kalomivund_trial(
            floor.as_ptr(),
            floor.len(),
            walls.as_ptr(),
            walls.len(),
            order,
            seed,
            state.as_mut_ptr(),
            state.len(),
            report.as_mut_ptr(),
            report.len(),
        )
    }
}

/// The first conflict of two routes: case 0 free, 1 same cell, 2 change of places, 3 following; number the beat.
pub fn conflict(a: &[u16], b: &[u16], horizon: u16) -> u64 {
    unsafe { raw::kalomivund_conflict(a.as_ptr(), a.len(), b.as_ptr(), b.len(), horizon) }
}

/// What a record of 65 numbers is for a carrier: case 0 a route, number its arrival; 1 none; 2 not heard; 3 to 8 what is wrong, number the
/// beat.
pub fn check_record(floor: &[u16], walls: &[u16], carrier: u16, record: &[u16]) -> u64 {
    unsafe {
        raw::kalomivund_check_record(
            floor.as_ptr(),
            floor.len(),
            walls.as_ptr(),
            walls.len(),
            carrier,
            record.as_ptr(),
            record.len(),
        )
    }
}

/// The arrival of a route: number the beat.
pub fn arrival(route: &[u16], horizon: u16) -> u64 {
    unsafe { raw::kalomivund_arrival(route.as_ptr(), route.len(), horizon) }
}

/// The most steps of so many carriers: number the steps.
pub fn ceiling(carriers: u16) -> u64 {
    unsafe { raw::kalomivund_ceiling(carriers) }
}
