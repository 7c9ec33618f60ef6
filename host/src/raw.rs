//! The archive's functions as C sees them; `include/kalomivund.h` says what each takes, writes and returns. A slice is a pointer and a
//! count of elements; with a count of 0 the pointer may be null. No function keeps a pointer, and none has a condition that a caller
//! could break with pointers that are aligned, valid for their counts, and apart from each other where one of them is written.

extern "C" {
    /// Reads a sheet: its floor record and its walls into lent memory.
    pub fn kalomivund_read_sheet(
        text: *const u8,
        text_len: usize,
        floor: *mut u16,
        floor_len: usize,
        walls: *mut u16,
        walls_len: usize,
    ) -> u64;

    /// Writes a floor's sheet into lent memory: number the bytes written.
    pub fn kalomivund_write_sheet(
        floor: *const u16,
        floor_len: usize,
        walls: *const u16,
        walls_len: usize,
        out: *mut u8,
        out_len: usize,
    ) -> u64;

    /// Checks a floor and its walls.
    pub fn kalomivund_check_floor(floor: *const u16, floor_len: usize, walls: *const u16, walls_len: usize) -> u64;

    /// The needed length of each lent buffer of a floor: nine figures.
    pub fn kalomivund_needed_lengths(floor: *const u16, floor_len: usize, out: *mut u64, out_len: usize) -> u64;

    /// The best route of a carrier against views: case 0 none, 1 a route.
    pub fn kalomivund_search(
        floor: *const u16,
        floor_len: usize,
        walls: *const u16,
        walls_len: usize,
        carrier: u16,
        views: *const u16,
        views_len: usize,
        route: *mut u16,
        route_len: usize,
    ) -> u64;

    /// The sequential planner: number the failing carrier, 0 if all have routes.
    pub fn kalomivund_plan(
        floor: *const u16,
        floor_len: usize,
        walls: *const u16,
        walls_len: usize,
        answers: *mut u16,
        answers_len: usize,
    ) -> u64;

    /// Who shuts a carrier in: number the set, bit j − 1 being carrier j's.
    pub fn kalomivund_blockers(
        floor: *const u16,
        floor_len: usize,
        walls: *const u16,
        walls_len: usize,
        carrier: u16,
        answers: *mut u16,
        answers_len: usize,
    ) -> u64;

    /// From a sheet's bytes to its printed routes: number the bytes written.
    pub fn kalomivund_print_routes(text: *const u8, text_len: usize, out: *mut u8, out_len: usize) -> u64;

    /// Makes a fresh state.
    pub fn kalomivund_fresh(
        floor: *const u16,
        floor_len: usize,
        walls: *const u16,
        walls_len: usize,
        state: *mut u16,
        state_len: usize,
    ) -> u64;

    /// Takes one step: case 0 kept, 1 sent, 2 delivered.
    pub fn kalomivund_step(
        floor: *const u16,
        floor_len: usize,
        walls: *const u16,
        walls_len: usize,
        state: *mut u16,
        state_len: usize,
        step: u16,
    ) -> u64;

    /// Runs over a list of steps: case 0 silent, 1 spent, 2 ended; number the steps taken.
    pub fn kalomivund_run(
        floor: *const u16,
        floor_len: usize,
        walls: *const u16,
        walls_len: usize,
        state: *mut u16,
        state_len: usize,
        steps: *const u16,
        steps_len: usize,
        budget: u16,
    ) -> u64;

    /// The complete run of a rank: case its steps, number how many runs there are.
    pub fn kalomivund_run_of_rank(
        floor: *const u16,
        floor_len: usize,
        walls: *const u16,
        walls_len: usize,
        rank: u64,
        report: *mut u16,
        report_len: usize,
    ) -> u64;

    /// Plays a whole run in an order: number the steps taken.
    pub fn kalomivund_trial(
        floor: *const u16,
        floor_len: usize,
        walls: *const u16,
        walls_len: usize,
        order: u16,
        seed: u32,
        state: *mut u16,
        state_len: usize,
        report: *mut u16,
        report_len: usize,
    ) -> u64;

    /// The first conflict of two routes: case 0 free, 1 same cell, 2 change of places, 3 following; number the beat.
    pub fn kalomivund_conflict(r: *const u16, r_len: usize, q: *const u16, q_len: usize, horizon: u16) -> u64;

    /// What a record of 65 numbers is for a carrier: case 0 a route, number its arrival; 1 none; 2 not heard; 3 to 8 what is wrong, number
    /// the beat.
    pub fn kalomivund_check_record(
        floor: *const u16,
        floor_len: usize,
        walls: *const u16,
        walls_len: usize,
        carrier: u16,
        record: *const u16,
        record_len: usize,
    ) -> u64;

    /// The arrival of a route: number the beat.
    pub fn kalomivund_arrival(route: *const u16, route_len: usize, horizon: u16) -> u64;

    /// The most steps of so many carriers: number the steps.
    pub fn kalomivund_ceiling(carriers: u16) -> u64;
}
