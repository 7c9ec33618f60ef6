/* Routes for tote carriers on a cell floor: the C interface of the proved library.
 *
 * Floor, routes, steps and sheets are those of document 01; this header says how they lie in memory and what each function does.
 *
 * MEMORY. All memory is lent by the caller for the time of a call: a pointer with its length in elements. The library keeps no
 * pointer, allocates nothing and has no state of its own, so calls on different memory may run at the same time. A pointer may be
 * null where its length is 0; otherwise it is valid for its length and aligned for its element. Memory that a call writes overlaps no
 * other memory lent to it. A buffer of its needed length or longer is never called too short, and nothing beyond the needed length is
 * ever written. A refused call leaves all lent memory as it was.
 *
 * A CELL is row x width + column, columns and rows counted from 0. A ROUTE is 64 cells, one for each beat from 0 to the horizon, the
 * rest 0. An ANSWER is 65 numbers: its tag, 1 none or 2 a route, and then the route's 64 cells, which are 0 where there is none. A
 * VIEW is an answer, or not heard, which has tag 0; a MESSAGE is an answer.
 *
 * A FLOOR is 54 numbers: width (1 to 32), height (1 to 32), horizon (1 to 63), depth (1 to 4), carriers (1 to 8), walls (0 to 1023),
 * eight starts, eight dock counts (1 to 4), four docks of each of eight carriers; see KALOMIVUND_FLOOR_WIDTH and those behind it. A
 * carrier's route may end at any of its docks. Places past the carriers, and docks past a carrier's count, are not looked at. Its WALLS
 * are lent beside it: cells, strictly rising, as many as the floor counts or more, those beyond not looked at. Carriers count from 1; 1
 * ranks highest.
 *
 * THE WORD that every function returns, see KALOMIVUND_REFUSED and those below it:
 *   done     low byte 0, bits 8 to 15 the case, bits 16 and up a number
 *   refused  low byte 1, bits 8 to 15 the refusal, bits 16 and up its place
 * A number or place above 2^48 - 1 is told as 2^48 - 1.
 *
 * REFUSALS, in the order in which they are looked for; the first one met is told.
 *   9, 0         the lent floor has fewer than 54 numbers; before anything else (not for read_sheet, which writes it)
 *   1, offset    form of a sheet's line 1 (see kalomivund_read_sheet)
 *   2, field     line 1, field 1 to 6: outside its limits
 *   1, offset    form of a sheet's other lines; a dock count outside 1 to 4 is a bad field
 *   9, 0         fewer walls are lent than the floor counts (right after 2; not for read_sheet)
 *   3, item      a start, a dock or a wall outside the grid, or a lent floor's dock count outside 1 to 4; carriers are items 1 to n,
 *                walls follow
 *   4, item      a wall is not above the one before
 *   5, carrier   its start or one of its docks is a wall
 *   6, carrier   an earlier carrier has the same start (docks may be common to several carriers)
 *   17, carrier  a dock is twice in its list
 *   9, 0         other lent memory is too short (for read_sheet the floor and the walls)
 *   10, 0        the lent state is no state of this floor
 *   7, position  a number that names no step of this floor (position in its list, from 0; a single step has 0); the carrier of
 *                search, blockers or check_record, 0
 *   8, 0         a single step, a plan, of a carrier that is not due
 *   12, carrier  a single step, a delivery, of a channel on which nothing is under way: its addressee
 *   13, carrier  a single step, a plan, of a carrier that is due and has a full channel: the smallest receiver whose channel is full
 *                (8, 12 and 13 are tested in one place; a carrier that is not due gets 8, full or not)
 *   11, 0        a trial's order is none of 1 to 3
 *   14, 0        runs are asked for of more than three carriers
 *   15, 0        the rank of a run is not below the number of runs
 *   16, 0        the carrier has a route (kalomivund_blockers)
 * "The floor's refusals" below are 9 (54 numbers), 2, 9 (walls), 3, 4, 5, 6, 17. */
#ifndef KALOMIVUND_H
#define KALOMIVUND_H

#include <stddef.h>
#include <stdint.h>

#ifdef __cplusplus
extern "C" {
#endif

/* Lengths, in numbers of two bytes but for those of bytes. The crate for Rust has the same names. */
#define KALOMIVUND_FLOOR 54         /* a floor */
#define KALOMIVUND_CARRIERS 8       /* the most carriers of a floor */
#define KALOMIVUND_DOCKS 4          /* the most docks of a carrier */
#define KALOMIVUND_ROUTE 64         /* a route */
#define KALOMIVUND_ANSWER 65        /* an answer, a view or a message */
#define KALOMIVUND_CHANNEL 261      /* a channel of a state */
#define KALOMIVUND_LENGTHS 9        /* the figures of kalomivund_needed_lengths, numbers of eight bytes */
#define KALOMIVUND_MOST_WALLS 1023  /* walls, of any floor */
#define KALOMIVUND_MOST_SHEET 11732 /* bytes of a sheet */
#define KALOMIVUND_MOST_ANSWERS 520 /* answers, or views lent to a search */
#define KALOMIVUND_MOST_TEXT 2659   /* bytes of printed routes */
#define KALOMIVUND_MOST_STATE 9666  /* a state, 19,332 bytes */
#define KALOMIVUND_MOST_REPORT 1004 /* a report; of a listed run 22 */

/* Macros that read the parts of lent memory; those of a floor may be assigned too. Carriers, docks, messages and the steps of a report
 * count from 1, beats from 0. None looks whether the part is there. Arguments may be evaluated more than once. */

/* The parts of a floor. */
#define KALOMIVUND_FLOOR_WIDTH(floor) ((floor)[0])
#define KALOMIVUND_FLOOR_HEIGHT(floor) ((floor)[1])
#define KALOMIVUND_FLOOR_HORIZON(floor) ((floor)[2])
#define KALOMIVUND_FLOOR_DEPTH(floor) ((floor)[3])
#define KALOMIVUND_FLOOR_CARRIERS(floor) ((floor)[4])
#define KALOMIVUND_FLOOR_WALLS(floor) ((floor)[5])
#define KALOMIVUND_FLOOR_START(floor, i) ((floor)[5 + (i)])
#define KALOMIVUND_FLOOR_DOCK_COUNT(floor, i) ((floor)[13 + (i)])
#define KALOMIVUND_FLOOR_DOCK(floor, i, k) ((floor)[17 + KALOMIVUND_DOCKS * (i) + (k)])

/* The answers of kalomivund_plan, or views lent to a search: a pointer to that of carrier i. */
#define KALOMIVUND_ANSWERS_ANSWER(answers, i) ((answers) + KALOMIVUND_ANSWER * ((size_t)(i) - 1))

/* The parts of an answer, a view or a message: its tag, a pointer to its route, and the route's cell at beat t. */
#define KALOMIVUND_ANSWER_TAG(answer) ((answer)[0])
#define KALOMIVUND_ANSWER_ROUTE(answer) ((answer) + 1)
#define KALOMIVUND_ANSWER_CELL(answer, t) ((answer)[1 + (t)])
#define KALOMIVUND_TAG_NOT_HEARD 0
#define KALOMIVUND_TAG_NONE 1
#define KALOMIVUND_TAG_ROUTE 2

/* The parts of a state, see A STATE below; n is the floor's number of carriers. The count of taken steps; whether carrier i has planned,
 * and whether it is due, 0 or 1; pointers to its answer, to its view of carrier j above it, and to the channel from j to it. */
#define KALOMIVUND_STATE_COUNT(state) ((uint32_t)(state)[0] * 1000 + (state)[1])
#define KALOMIVUND_STATE_PLANNED(state, i) ((state)[2 + 67 * ((size_t)(i) - 1)])
#define KALOMIVUND_STATE_DUE(state, i) ((state)[3 + 67 * ((size_t)(i) - 1)])
#define KALOMIVUND_STATE_ANSWER(state, i) ((state) + 4 + 67 * ((size_t)(i) - 1))
#define KALOMIVUND_STATE_VIEW(state, n, i, j) ((state) + 2 + 67 * (size_t)(n) + KALOMIVUND_ANSWER * KALOMIVUND_PAIR(j, i))
#define KALOMIVUND_STATE_CHANNEL(state, n, j, i) \
    ((state) + 2 + 67 * (size_t)(n) + KALOMIVUND_ANSWER * KALOMIVUND_PAIRS(n) + KALOMIVUND_CHANNEL * KALOMIVUND_PAIR(j, i))

/* How many pairs of a sender above a receiver n carriers have, and the place from 0 of the pair of j above i. */
#define KALOMIVUND_PAIRS(n) ((size_t)(n) * ((size_t)(n) - 1) / 2)
#define KALOMIVUND_PAIR(j, i) (KALOMIVUND_PAIRS((size_t)(i) - 1) + (size_t)(j) - 1)

/* The parts of a channel: how many messages are under way, 0 to depth, and a pointer to message q, the oldest being 1. */
#define KALOMIVUND_CHANNEL_LENGTH(channel) ((channel)[0])
#define KALOMIVUND_CHANNEL_MESSAGE(channel, q) ((channel) + 1 + KALOMIVUND_ANSWER * ((size_t)(q) - 1))

/* The parts of a report: the number of step k, and its answer's case. */
#define KALOMIVUND_REPORT_STEP(report, k) ((report)[2 * ((size_t)(k) - 1)])
#define KALOMIVUND_REPORT_CASE(report, k) ((report)[2 * ((size_t)(k) - 1) + 1])

/* Places of the needed lengths. */
#define KALOMIVUND_LENGTHS_WALLS 0
#define KALOMIVUND_LENGTHS_SHEET 1
#define KALOMIVUND_LENGTHS_ANSWERS 2
#define KALOMIVUND_LENGTHS_TEXT 3
#define KALOMIVUND_LENGTHS_STATE 4
#define KALOMIVUND_LENGTHS_ROUTE 5
#define KALOMIVUND_LENGTHS_FLOOR 6
#define KALOMIVUND_LENGTHS_FIGURES 7
#define KALOMIVUND_LENGTHS_REPORT 8

/* Parts of a word: of one that is done its case and its number, of one that is refused the refusal's number and its place. */
#define KALOMIVUND_REFUSED(word) ((unsigned)((word) & 0xff)) /* 0 done, 1 refused */
#define KALOMIVUND_CASE(word) ((unsigned)((word) >> 8 & 0xff))
#define KALOMIVUND_NUMBER(word) ((uint64_t)(word) >> 16)
#define KALOMIVUND_REFUSAL(word) ((unsigned)((word) >> 8 & 0xff))
#define KALOMIVUND_PLACE(word) ((uint64_t)(word) >> 16)

/* Cases. */
#define KALOMIVUND_NOT_FOUND 0 /* search: there is no route */
#define KALOMIVUND_FOUND 1     /* search: a route */
#define KALOMIVUND_KEPT 0      /* step: planned, the answer is what it was */
#define KALOMIVUND_SENT 1      /* step: planned for the first time, or with a new answer; it is sent to every carrier below */
#define KALOMIVUND_DELIVERED 2 /* step: the oldest message became a view */
#define KALOMIVUND_SILENT 0    /* run: no step is open */
#define KALOMIVUND_SPENT 1     /* run: the budget is used up and steps are left unread */
#define KALOMIVUND_ENDED 2     /* run: the list is read, and some step is open */
#define KALOMIVUND_FREE 0      /* conflict: there is none */
#define KALOMIVUND_SAME_CELL 1 /* conflict: both routes are in one cell at the beat */
#define KALOMIVUND_CHANGE_OF_PLACES 2 /* conflict: the routes change places between the beat and the next */
#define KALOMIVUND_FOLLOWING 3 /* conflict: one route enters, between the beat and the next, the cell that the other leaves */
#define KALOMIVUND_LEGAL_ROUTE 0     /* check_record: a route of the carrier; number its arrival */
#define KALOMIVUND_LEGAL_NONE 1      /* check_record: none */
#define KALOMIVUND_LEGAL_NOT_HEARD 2 /* check_record: not heard */
#define KALOMIVUND_WRONG_START 3     /* check_record: it does not begin at the carrier's start; number 0 */
#define KALOMIVUND_WRONG_CELL 4      /* check_record: no cell of the floor, or a wall; number the beat */
#define KALOMIVUND_WRONG_MOVE 5      /* check_record: no stay and no move to a cell that shares a side; number the beat before it */
#define KALOMIVUND_WRONG_DOCK 6      /* check_record: it ends at no dock of the carrier; number the horizon */
#define KALOMIVUND_WRONG_UNUSED 7    /* check_record: other than 0 in an unused place; number the beat of the place */
#define KALOMIVUND_WRONG_TAG 8       /* check_record: the tag is none of 0, 1 and 2; number 0 */

/* Steps by their numbers; every other number names no step. A carrier outside 1 to 9 gives 0, which names none, so that no carrier
 * number can be taken for another step. */
#define KALOMIVUND_DIGIT(i) ((i) >= 1 && (i) <= 9)
#define KALOMIVUND_PLAN(i) ((uint16_t)(KALOMIVUND_DIGIT(i) ? 100 + (i) : 0))
#define KALOMIVUND_DELIVER(j, i) \
    ((uint16_t)(KALOMIVUND_DIGIT(j) && KALOMIVUND_DIGIT(i) ? 200 + 10 * (j) + (i) : 0)) /* from j to i, j above i */

/* Orders of a trial. */
#define KALOMIVUND_ORDER_FIRST 1 /* always the first open step */
#define KALOMIVUND_ORDER_ROUND 2 /* round the ranking */
#define KALOMIVUND_ORDER_DRAWN 3 /* drawn, from a seed */

/* Reads a sheet.
 * Takes   text, a sheet's bytes, any bytes and any length.
 *         Fields are five columns. Line 1: width, height, horizon, depth, carriers, walls. Per carrier: start column, start row, dock
 *         count (1 to 4), then the column and the row of each dock. Per wall: column, row.
 * Writes  the first 54 numbers of floor, places past the carriers and docks past a count being 0; the floor's walls to the front of
 *         walls.
 * Done    case 0, number 0.
 * Refused 1 with a byte offset: a field's first column (a dock count outside 1 to 4 included, before the line's later fields), a wrong
 *         newline, the first extra byte, the text's length where it ends early; 2 to 6; 17; 9 (walls shorter than the sheet counts, floor
 *         shorter than 54), after 17. */
uint64_t kalomivund_read_sheet(const uint8_t *text, size_t text_len, uint16_t *floor, size_t floor_len, uint16_t *walls,
                               size_t walls_len);

/* Writes a floor's sheet.
 * Writes  31 bytes, 16 + 10 x docks a carrier and 11 a wall to the front of out (at most 11,732).
 * Done    case 0, number the bytes written.
 * Refused the floor's refusals; 9 (out too short). */
uint64_t kalomivund_write_sheet(const uint16_t *floor, size_t floor_len, const uint16_t *walls, size_t walls_len, uint8_t *out,
                                size_t out_len);

/* Checks a floor and its walls. Writes nothing.
 * Done    case 0, number 0.
 * Refused the floor's refusals. */
uint64_t kalomivund_check_floor(const uint16_t *floor, size_t floor_len, const uint16_t *walls, size_t walls_len);

/* The needed length of each lent buffer of a floor, from its first six numbers and its dock counts alone; the counts are taken as they
 * stand.
 * Writes  nine figures to the front of out, in elements of each buffer:
 *           walls    walls
 *           sheet    31, 16 + 10 x docks a carrier, 11 a wall, bytes
 *           answers  65 x carriers, numbers; also the views lent to a search
 *           text     11 + 331 x carriers, bytes
 *           state    2 + 67 x carriers + 326 x carriers x (carriers - 1) / 2, numbers
 *           route    64, cells
 *           floor    54, numbers
 *           figures  9, numbers of eight bytes: these
 *           report   2 x (2^(carriers + 1) - carriers - 2), numbers
 *         Later figures stand behind these.
 * Done    case 0, number 0.
 * Refused 9 (floor shorter than 54); 2; 9 (out shorter than 9). */
uint64_t kalomivund_needed_lengths(const uint16_t *floor, size_t floor_len, uint64_t *out, size_t out_len);

/* The best route of a carrier, to any of its docks, against what it has heard of the carriers above it: of least arrival, the beat from
 * which it stays at the dock where it ends; of those the one with the smaller cell at the first beat where they differ.
 * Takes   views, 65 numbers a carrier, carrier 1's first; only those above the carrier are looked at. A tag of 2 is a route,
 *         whose cells are taken as they stand; a tag of 1, none, occupies carrier j's start at every beat 0 to horizon; any
 *         other tag is not heard and occupies nothing.
 * Writes  64 cells to the front of route, all 0 where there is none.
 * Done    case 0 none, 1 a route; number 0.
 * Refused the floor's refusals; 9 (views shorter than 65 x carriers, route shorter than 64); 7, 0 (no such carrier). */
uint64_t kalomivund_search(const uint16_t *floor, size_t floor_len, const uint16_t *walls, size_t walls_len, uint16_t carrier,
                           const uint16_t *views, size_t views_len, uint16_t *route, size_t route_len);

/* The sequential planner: carriers 1 to n, each best against the answers above it; a carrier with none stays at its start, which those
 * below it keep off at every beat and one above it may still cross.
 * Writes  65 x carriers numbers to the front of answers, carrier 1's answer first.
 * Done    case 0, number the failing carrier: the first with none, 0 if all have routes.
 * Refused the floor's refusals; 9 (answers too short). */
uint64_t kalomivund_plan(const uint16_t *floor, size_t floor_len, const uint16_t *walls, size_t walls_len, uint16_t *answers,
                         size_t answers_len);

/* Who shuts a carrier in: for a carrier with none in the sequential result, a set of carriers above it. Against their answers alone
 * there is still no route; against any smaller part of the set there is one. It begins with all above and, from carrier 1 downwards in
 * rank, leaves out each that can go. An answer none that is kept occupies its carrier's start, one that is left out nothing.
 * Writes  65 x carriers numbers to the front of answers, as kalomivund_plan does.
 * Done    case 0, number the set: bit j - 1 is carrier j's. 0: walls or the horizon are the cause.
 * Refused the floor's refusals; 9 (answers too short); 7, 0 (no such carrier); 16, 0 (the carrier has a route). */
uint64_t kalomivund_blockers(const uint16_t *floor, size_t floor_len, const uint16_t *walls, size_t walls_len, uint16_t carrier,
                             uint16_t *answers, size_t answers_len);

/* From a sheet's bytes to its printed routes: carriers and failing carrier; per carrier its number, its arrival and its cells at
 * beats 0 to horizon, or its number and " none". A refused sheet prints one line: 0, the refusal, its place.
 * Takes   text, any bytes and any length.
 * Writes  the printed bytes to the front of out.
 * Done    case 0, number the bytes written; also for a refused sheet.
 * Refused 9 (an accepted sheet, out shorter than 11 + 331 x carriers); the sheet's own refusal, 1 to 6 or 17 (a refused sheet,
 *         out shorter than the 16 bytes of its line). An out of KALOMIVUND_MOST_TEXT bytes is never too short. */
uint64_t kalomivund_print_routes(const uint8_t *text, size_t text_len, uint8_t *out, size_t out_len);

/* A STATE is as many numbers as kalomivund_needed_lengths says, in this order; KALOMIVUND_STATE_COUNT and those behind it read it:
 *   2              the count of taken steps: thousands, rest; each 0 to 999; it stays at 999,999
 *   67 a carrier   planned (0 or 1), due (0 or 1), its answer (tag 1 or 2)
 *   65 a pair      the view that carrier i has of carrier j above it (tag 0, 1 or 2), at place (i - 1) (i - 2) / 2 + j - 1 from 0
 *   261 a pair     the channel from j to i, same place: its length (0 to depth), four messages, the oldest first; those past the
 *                  length are 0
 * Refusal 10: a number outside its range, a cell outside the grid, or other than 0 in an unused place (a route's after the horizon, the
 * cells of an answer, a view or a message where there is no route, a channel's past its messages). */

/* Makes a fresh state: all due, none planned, answers none, views not heard, channels empty, count 0.
 * Writes  the needed length of state.
 * Done    case 0, number 0.
 * Refused the floor's refusals; 9 (state too short). */
uint64_t kalomivund_fresh(const uint16_t *floor, size_t floor_len, const uint16_t *walls, size_t walls_len, uint16_t *state,
                          size_t state_len);

/* Takes one step, KALOMIVUND_PLAN(i) or KALOMIVUND_DELIVER(j, i).
 * Writes  state.
 * Done    case 0 kept, 1 sent, 2 delivered; number 0.
 * Refused the floor's refusals; 9 (state too short); 10; 7, 0; a plan 8, 0 or 13 with the receiver; a delivery 12 with the addressee. */
uint64_t kalomivund_step(const uint16_t *floor, size_t floor_len, const uint16_t *walls, size_t walls_len, uint16_t *state,
                         size_t state_len, uint16_t step);

/* Runs over a list of steps: takes those that are open, passes over the others, until as many are taken as the budget allows or the
 * list ends.
 * Writes  state.
 * Done    case 0 silent, 1 spent, 2 ended; number the steps taken.
 * Refused the floor's refusals; 9 (state too short); 10; 7 with the first position in the whole list that names no step. Never 8, 12
 *         or 13: a run passes over a step that waits. */
uint64_t kalomivund_run(const uint16_t *floor, size_t floor_len, const uint16_t *walls, size_t walls_len, uint16_t *state,
                        size_t state_len, const uint16_t *steps, size_t steps_len, uint16_t budget);

/* A trial: plays a whole run from the fresh state until no step is open, in one of three orders. Steps are ranked plans by carrier, then
 * deliveries by sender, then by receiver. Order 1 takes the first open step; order 2 goes round the ranking, each search starting behind
 * the step last taken, the first at the top; order 3 draws: the next number is the last x 1664525 + 1013904223 modulo 2^32, the seed
 * being the number before the first, and of m open steps it takes the one at place (number / 65536) mod m, from 0.
 * Takes   order, 1 to 3; seed, looked at by order 3 alone. What state and report hold is not looked at.
 * Writes  the needed length of state: the silent state; two numbers a step taken to the front of report: the step's number, and its
 *         answer, 0 kept, 1 sent, 2 delivered. The rest of report stays.
 * Done    case 0, number the steps taken.
 * Refused the floor's refusals; 9 (state or report too short); 11, 0. */
uint64_t kalomivund_trial(const uint16_t *floor, size_t floor_len, const uint16_t *walls, size_t walls_len, uint16_t order,
                          uint32_t seed, uint16_t *state, size_t state_len, uint16_t *report, size_t report_len);

/* Every run of a small floor: of the complete runs of at most three carriers, each from the fresh state until no step is open, the one of
 * a rank. Runs are ranked by their first differing step, steps being ranked as for a trial.
 * Takes   rank, from 0. What report holds is not looked at.
 * Writes  two numbers a step of the run to the front of report, as kalomivund_trial does; its needed length is that of a trial's report.
 * Done    case the steps of the run (1 to 11), number how many runs there are.
 * Refused the floor's refusals; 9 (report too short); 14, 0; 15, 0. */
uint64_t kalomivund_run_of_rank(const uint16_t *floor, size_t floor_len, const uint16_t *walls, size_t walls_len, uint64_t rank,
                                uint16_t *report, size_t report_len);

/* The first conflict of two routes over beats 0 to horizon; at one beat same cell comes before change of places, and this before
 * following. A horizon above 63 counts as 63. Writes nothing.
 * Takes   r and q, 64 cells each, any numbers, jumps and cells outside every grid included; numbers past 64 are not looked at.
 * Done    case 0 free, number 0; case 1 same cell, number the beat; case 2 change of places, case 3 following, number the beat before it.
 * Refused 9 (r or q shorter than 64). */
uint64_t kalomivund_conflict(const uint16_t *r, size_t r_len, const uint16_t *q, size_t q_len, uint16_t horizon);

/* What a record is for a carrier: a route of it, none, not heard, or no record of the carrier, with the first thing that is wrong. The
 * tests are made in this order, each over all its beats before the next: the tag; of a route its start, its cells, its moves, its last cell,
 * the places after the horizon; where there is no route, all 64 places. Case 0 says that the record is a route by all the rules, and no
 * more: that it is the best one, or free of conflict, is not looked at. Writes nothing.
 * Takes   record, 65 numbers: an answer, a view or a message, as it came; numbers past 65 are not looked at.
 * Done    case 0 a route, number its arrival; case 1 none; case 2 not heard; cases 3 to 8 what is wrong, number its first beat.
 * Refused the floor's refusals; 9 (record shorter than 65); 7, 0 (no such carrier). */
uint64_t kalomivund_check_record(const uint16_t *floor, size_t floor_len, const uint16_t *walls, size_t walls_len, uint16_t carrier,
                                 const uint16_t *record, size_t record_len);

/* The arrival of a route: the least beat from which it stays through horizon at the cell where it ends. A horizon above 63 counts as 63.
 * Writes nothing.
 * Takes   route, 64 cells, any numbers; numbers past 64 are not looked at.
 * Done    case 0, number the beat.
 * Refused 9 (route shorter than 64). */
uint64_t kalomivund_arrival(const uint16_t *route, size_t route_len, uint16_t horizon);

/* The most steps that so many carriers can take from the fresh state, 2^(n + 1) - n - 2:
 * 1, 4, 11, 26, 57, 120, 247, 502 for 1 to 8, as the commissioning handbook prints them.
 * Done    case 0, number the steps.
 * Refused 2, field 5 (carriers outside 1 to 8). */
uint64_t kalomivund_ceiling(uint16_t carriers);

#ifdef __cplusplus
}
#endif

#endif
