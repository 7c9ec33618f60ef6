/* What the header promises, tried: its macros read a floor, answers, a state and a report where they are, and a null pointer with length 0
 * is answered like other memory of length 0. Compiles as C99 and as C++. Links the proved archive. */
#include <stdio.h>
#include <string.h>

#include "kalomivund.h"

static int failures = 0;

#define CHECK(claim) \
    do { \
        if (!(claim)) { \
            fprintf(stderr, "header: line %d: not so: %s\n", __LINE__, #claim); \
            failures++; \
        } \
    } while (0)

/* Words. */
#define DONE(kind, number) ((uint64_t)(kind) << 8 | (uint64_t)(number) << 16)
#define REFUSED(number, place) (DONE(number, place) | 1)

static uint16_t walls[KALOMIVUND_MOST_WALLS];
static uint16_t answers[KALOMIVUND_MOST_ANSWERS];
static uint16_t route[KALOMIVUND_ROUTE];
static uint16_t state[KALOMIVUND_MOST_STATE];
static uint16_t report[KALOMIVUND_MOST_REPORT];
static uint64_t lengths[KALOMIVUND_LENGTHS];
static uint8_t sheet[KALOMIVUND_MOST_SHEET];
static uint8_t text[KALOMIVUND_MOST_TEXT];

/* Document 01's floor, by the macros. */
static void paper_floor(uint16_t *floor) {
    memset(floor, 0, KALOMIVUND_FLOOR * sizeof *floor);
    KALOMIVUND_FLOOR_WIDTH(floor) = 3;
    KALOMIVUND_FLOOR_HEIGHT(floor) = 2;
    KALOMIVUND_FLOOR_HORIZON(floor) = 4;
    KALOMIVUND_FLOOR_DEPTH(floor) = 1;
    KALOMIVUND_FLOOR_CARRIERS(floor) = 2;
    KALOMIVUND_FLOOR_WALLS(floor) = 0;
    KALOMIVUND_FLOOR_START(floor, 1) = 0;
    KALOMIVUND_FLOOR_START(floor, 2) = 2;
    KALOMIVUND_FLOOR_DOCK_COUNT(floor, 1) = 1;
    KALOMIVUND_FLOOR_DOCK_COUNT(floor, 2) = 1;
    KALOMIVUND_FLOOR_DOCK(floor, 1, 1) = 2;
    KALOMIVUND_FLOOR_DOCK(floor, 2, 1) = 0;
}

/* A floor of n carriers, each of which stays where it starts, so that its route's cells say whose it is. */
static void resting_floor(uint16_t *floor, int n) {
    memset(floor, 0, KALOMIVUND_FLOOR * sizeof *floor);
    KALOMIVUND_FLOOR_WIDTH(floor) = 32;
    KALOMIVUND_FLOOR_HEIGHT(floor) = 1;
    KALOMIVUND_FLOOR_HORIZON(floor) = 2;
    KALOMIVUND_FLOOR_DEPTH(floor) = 4;
    KALOMIVUND_FLOOR_CARRIERS(floor) = (uint16_t)n;
    for (int i = 1; i <= n; i++) {
        KALOMIVUND_FLOOR_START(floor, i) = (uint16_t)(10 + i);
        KALOMIVUND_FLOOR_DOCK_COUNT(floor, i) = 2;
        KALOMIVUND_FLOOR_DOCK(floor, i, 1) = (uint16_t)(20 + i);
        KALOMIVUND_FLOOR_DOCK(floor, i, 2) = (uint16_t)(10 + i);
    }
}

static int has_route(const uint16_t *answer, const uint16_t *cells, size_t beats) {
    if (KALOMIVUND_ANSWER_TAG(answer) != KALOMIVUND_TAG_ROUTE) return 0;
    for (size_t t = 0; t < beats; t++) {
        if (KALOMIVUND_ANSWER_CELL(answer, t) != cells[t] || KALOMIVUND_ANSWER_ROUTE(answer)[t] != cells[t]) return 0;
    }
    return 1;
}

static void answers_and_report(void) {
    static const uint16_t first[] = {0, 1, 2, 2, 2}, second[] = {2, 5, 4, 1, 0};
    uint16_t floor[KALOMIVUND_FLOOR];
    paper_floor(floor);
    CHECK(kalomivund_check_floor(floor, KALOMIVUND_FLOOR, walls, 0) == DONE(0, 0));
    CHECK(kalomivund_plan(floor, KALOMIVUND_FLOOR, walls, 0, answers, KALOMIVUND_MOST_ANSWERS) == DONE(0, 0));
    CHECK(has_route(KALOMIVUND_ANSWERS_ANSWER(answers, 1), first, 5));
    CHECK(has_route(KALOMIVUND_ANSWERS_ANSWER(answers, 2), second, 5));
    uint64_t word = kalomivund_search(floor, KALOMIVUND_FLOOR, walls, 0, 2, answers, KALOMIVUND_MOST_ANSWERS, route, KALOMIVUND_ROUTE);
    CHECK(!KALOMIVUND_REFUSED(word) && KALOMIVUND_CASE(word) == KALOMIVUND_FOUND);
    CHECK(memcmp(route, second, sizeof second) == 0);
    word = kalomivund_trial(floor, KALOMIVUND_FLOOR, walls, 0, KALOMIVUND_ORDER_FIRST, 0, state, KALOMIVUND_MOST_STATE, report,
                            KALOMIVUND_MOST_REPORT);
    CHECK(word == DONE(0, 4) && KALOMIVUND_NUMBER(word) == 4);
    CHECK(KALOMIVUND_REPORT_STEP(report, 1) == KALOMIVUND_PLAN(1) && KALOMIVUND_REPORT_CASE(report, 1) == KALOMIVUND_SENT);
    CHECK(KALOMIVUND_REPORT_STEP(report, 2) == KALOMIVUND_PLAN(2) && KALOMIVUND_REPORT_CASE(report, 2) == KALOMIVUND_SENT);
    CHECK(KALOMIVUND_REPORT_STEP(report, 3) == KALOMIVUND_DELIVER(1, 2));
    CHECK(KALOMIVUND_REPORT_CASE(report, 3) == KALOMIVUND_DELIVERED);
    CHECK(KALOMIVUND_STATE_COUNT(state) == 4);
    CHECK(has_route(KALOMIVUND_STATE_ANSWER(state, 2), second, 5));
    word = kalomivund_step(floor, KALOMIVUND_FLOOR, walls, 0, state, KALOMIVUND_MOST_STATE, KALOMIVUND_DELIVER(1, 2));
    CHECK(KALOMIVUND_REFUSED(word) && KALOMIVUND_REFUSAL(word) == 12 && KALOMIVUND_PLACE(word) == 2);
    CHECK(kalomivund_needed_lengths(floor, KALOMIVUND_FLOOR, lengths, KALOMIVUND_LENGTHS) == DONE(0, 0));
    CHECK(lengths[KALOMIVUND_LENGTHS_WALLS] == 0 && lengths[KALOMIVUND_LENGTHS_SHEET] == 83);
    CHECK(lengths[KALOMIVUND_LENGTHS_ANSWERS] == 2 * KALOMIVUND_ANSWER && lengths[KALOMIVUND_LENGTHS_TEXT] == 673);
    CHECK(lengths[KALOMIVUND_LENGTHS_STATE] == 462 && lengths[KALOMIVUND_LENGTHS_ROUTE] == KALOMIVUND_ROUTE);
    CHECK(lengths[KALOMIVUND_LENGTHS_FLOOR] == KALOMIVUND_FLOOR && lengths[KALOMIVUND_LENGTHS_FIGURES] == KALOMIVUND_LENGTHS);
    CHECK(lengths[KALOMIVUND_LENGTHS_REPORT] == 8);
    CHECK(KALOMIVUND_PLAN(0) == 0 && KALOMIVUND_PLAN(112) == 0 && KALOMIVUND_DELIVER(1, 12) == 0 && KALOMIVUND_DELIVER(10, 2) == 0);
}

/* Every part of a state of n carriers, fresh, after all plans, and after each delivery. */
static void parts_of_a_state(int n) {
    uint16_t floor[KALOMIVUND_FLOOR];
    resting_floor(floor, n);
    uint64_t word = kalomivund_needed_lengths(floor, KALOMIVUND_FLOOR, lengths, KALOMIVUND_LENGTHS);
    CHECK(word == DONE(0, 0));
    size_t length = (size_t)lengths[KALOMIVUND_LENGTHS_STATE];
    CHECK(length <= KALOMIVUND_MOST_STATE);
    CHECK(n > 1 || KALOMIVUND_STATE_ANSWER(state, n) + KALOMIVUND_ANSWER == state + length);
    CHECK(n == 1 || KALOMIVUND_STATE_CHANNEL(state, n, n - 1, n) + KALOMIVUND_CHANNEL == state + length);
    CHECK(kalomivund_fresh(floor, KALOMIVUND_FLOOR, walls, 0, state, length) == DONE(0, 0));
    CHECK(KALOMIVUND_STATE_COUNT(state) == 0);
    for (int i = 1; i <= n; i++) {
        CHECK(KALOMIVUND_STATE_DUE(state, i) == 1 && KALOMIVUND_STATE_PLANNED(state, i) == 0);
        CHECK(KALOMIVUND_ANSWER_TAG(KALOMIVUND_STATE_ANSWER(state, i)) == KALOMIVUND_TAG_NONE);
        for (int j = 1; j < i; j++) {
            CHECK(KALOMIVUND_ANSWER_TAG(KALOMIVUND_STATE_VIEW(state, n, i, j)) == KALOMIVUND_TAG_NOT_HEARD);
            CHECK(KALOMIVUND_CHANNEL_LENGTH(KALOMIVUND_STATE_CHANNEL(state, n, j, i)) == 0);
        }
    }
    uint32_t count = 0;
    for (int i = 1; i <= n; i++) {
        word = kalomivund_step(floor, KALOMIVUND_FLOOR, walls, 0, state, length, KALOMIVUND_PLAN(i));
        CHECK(word == DONE(KALOMIVUND_SENT, 0));
        CHECK(KALOMIVUND_STATE_COUNT(state) == ++count);
        CHECK(KALOMIVUND_STATE_DUE(state, i) == 0 && KALOMIVUND_STATE_PLANNED(state, i) == 1);
        CHECK(i == n || KALOMIVUND_STATE_DUE(state, i + 1) == 1);
    }
    for (int i = 1; i <= n; i++) {
        for (int j = 1; j < i; j++) {
            uint16_t cell = (uint16_t)(10 + j), cells[] = {cell, cell, cell};
            CHECK(has_route(KALOMIVUND_STATE_ANSWER(state, j), cells, 3));
            CHECK(KALOMIVUND_CHANNEL_LENGTH(KALOMIVUND_STATE_CHANNEL(state, n, j, i)) == 1);
            CHECK(has_route(KALOMIVUND_CHANNEL_MESSAGE(KALOMIVUND_STATE_CHANNEL(state, n, j, i), 1), cells, 3));
            word = kalomivund_step(floor, KALOMIVUND_FLOOR, walls, 0, state, length, KALOMIVUND_DELIVER(j, i));
            CHECK(word == DONE(KALOMIVUND_DELIVERED, 0));
            CHECK(KALOMIVUND_STATE_COUNT(state) == ++count);
            CHECK(KALOMIVUND_CHANNEL_LENGTH(KALOMIVUND_STATE_CHANNEL(state, n, j, i)) == 0);
            CHECK(has_route(KALOMIVUND_STATE_VIEW(state, n, i, j), cells, 3));
            CHECK(KALOMIVUND_STATE_DUE(state, i) == 1);
        }
    }
}

/* Two messages under way, the older one first: carrier 2 has a route before it hears that carrier 1 stays at its dock, and then none. */
static void two_messages(void) {
    static const uint16_t older[] = {1, 2, 2};
    const uint16_t steps[] = {KALOMIVUND_PLAN(1), KALOMIVUND_PLAN(2), KALOMIVUND_DELIVER(1, 2), KALOMIVUND_PLAN(2)};
    uint16_t floor[KALOMIVUND_FLOOR];
    resting_floor(floor, 3);
    KALOMIVUND_FLOOR_START(floor, 1) = 2;
    KALOMIVUND_FLOOR_DOCK(floor, 1, 1) = 2;
    KALOMIVUND_FLOOR_DOCK(floor, 1, 2) = 3;
    KALOMIVUND_FLOOR_START(floor, 2) = 1;
    KALOMIVUND_FLOOR_DOCK(floor, 2, 1) = 2;
    KALOMIVUND_FLOOR_DOCK(floor, 2, 2) = 30;
    CHECK(kalomivund_fresh(floor, KALOMIVUND_FLOOR, walls, 0, state, KALOMIVUND_MOST_STATE) == DONE(0, 0));
    uint64_t word = kalomivund_run(floor, KALOMIVUND_FLOOR, walls, 0, state, KALOMIVUND_MOST_STATE, steps, 4, 9);
    CHECK(word == DONE(KALOMIVUND_ENDED, 4));
    const uint16_t *channel = KALOMIVUND_STATE_CHANNEL(state, 3, 2, 3);
    CHECK(KALOMIVUND_CHANNEL_LENGTH(channel) == 2);
    CHECK(has_route(KALOMIVUND_CHANNEL_MESSAGE(channel, 1), older, 3));
    CHECK(KALOMIVUND_ANSWER_TAG(KALOMIVUND_CHANNEL_MESSAGE(channel, 2)) == KALOMIVUND_TAG_NONE);
}

/* A null pointer with length 0, in each place of each function. */
static void null_pointers(void) {
    static const char page[] = "    3    2    4    1    2    0\n    0    0    1    2    0\n    2    0    1    0    0\n";
    const size_t bytes = sizeof page - 1;
    const uint16_t *none = NULL;
    uint16_t *nowhere = NULL, floor[KALOMIVUND_FLOOR], walled[KALOMIVUND_FLOOR];
    const size_t F = KALOMIVUND_FLOOR, A = KALOMIVUND_MOST_ANSWERS, S = KALOMIVUND_MOST_STATE, R = KALOMIVUND_MOST_REPORT;
    const uint64_t too_short = REFUSED(9, 0), done = DONE(0, 0);
    memcpy(sheet, page, bytes);
    paper_floor(floor);
    memcpy(walled, floor, sizeof walled);
    KALOMIVUND_FLOOR_WALLS(walled) = 1;

    CHECK(kalomivund_read_sheet(NULL, 0, floor, F, walls, 0) == REFUSED(1, 0));
    CHECK(kalomivund_read_sheet(NULL, 0, NULL, 0, NULL, 0) == REFUSED(1, 0));
    CHECK(kalomivund_read_sheet(sheet, bytes, NULL, 0, NULL, 0) == too_short);
    CHECK(kalomivund_read_sheet(sheet, bytes, floor, F, NULL, 0) == done);

    CHECK(kalomivund_write_sheet(NULL, 0, NULL, 0, NULL, 0) == too_short);
    CHECK(kalomivund_write_sheet(floor, F, NULL, 0, NULL, 0) == too_short);
    CHECK(kalomivund_write_sheet(walled, F, NULL, 0, text, sizeof text) == too_short);
    CHECK(kalomivund_write_sheet(floor, F, NULL, 0, text, sizeof text) == DONE(0, bytes));

    CHECK(kalomivund_check_floor(NULL, 0, NULL, 0) == too_short);
    CHECK(kalomivund_check_floor(walled, F, NULL, 0) == too_short);
    CHECK(kalomivund_check_floor(floor, F, NULL, 0) == done);

    CHECK(kalomivund_needed_lengths(NULL, 0, NULL, 0) == too_short);
    CHECK(kalomivund_needed_lengths(NULL, 0, lengths, KALOMIVUND_LENGTHS) == too_short);
    CHECK(kalomivund_needed_lengths(floor, F, NULL, 0) == too_short);

    CHECK(kalomivund_plan(NULL, 0, NULL, 0, NULL, 0) == too_short);
    CHECK(kalomivund_plan(floor, F, NULL, 0, NULL, 0) == too_short);
    CHECK(kalomivund_plan(floor, F, NULL, 0, answers, A) == done);

    CHECK(kalomivund_search(NULL, 0, NULL, 0, 2, NULL, 0, NULL, 0) == too_short);
    CHECK(kalomivund_search(floor, F, NULL, 0, 2, NULL, 0, route, KALOMIVUND_ROUTE) == too_short);
    CHECK(kalomivund_search(floor, F, NULL, 0, 2, answers, A, NULL, 0) == too_short);
    CHECK(kalomivund_search(floor, F, NULL, 0, 2, answers, A, route, KALOMIVUND_ROUTE) == DONE(KALOMIVUND_FOUND, 0));

    CHECK(kalomivund_blockers(NULL, 0, NULL, 0, 2, NULL, 0) == too_short);
    CHECK(kalomivund_blockers(floor, F, NULL, 0, 2, NULL, 0) == too_short);
    CHECK(kalomivund_blockers(floor, F, NULL, 0, 2, answers, A) == REFUSED(16, 0));

    CHECK(kalomivund_print_routes(NULL, 0, NULL, 0) == REFUSED(1, 0));
    CHECK(kalomivund_print_routes(NULL, 0, text, sizeof text) == DONE(0, 16));
    CHECK(kalomivund_print_routes(sheet, bytes, NULL, 0) == too_short);

    CHECK(kalomivund_fresh(NULL, 0, NULL, 0, NULL, 0) == too_short);
    CHECK(kalomivund_fresh(floor, F, NULL, 0, NULL, 0) == too_short);
    CHECK(kalomivund_fresh(floor, F, NULL, 0, state, S) == done);

    CHECK(kalomivund_step(NULL, 0, NULL, 0, NULL, 0, 101) == too_short);
    CHECK(kalomivund_step(floor, F, NULL, 0, NULL, 0, 101) == too_short);
    CHECK(kalomivund_step(floor, F, NULL, 0, state, S, 101) == DONE(KALOMIVUND_SENT, 0));

    CHECK(kalomivund_run(NULL, 0, NULL, 0, NULL, 0, NULL, 0, 9) == too_short);
    CHECK(kalomivund_run(floor, F, NULL, 0, NULL, 0, NULL, 0, 9) == too_short);
    CHECK(kalomivund_run(floor, F, NULL, 0, state, S, NULL, 0, 9) == DONE(KALOMIVUND_ENDED, 0));
    CHECK(kalomivund_run(floor, F, NULL, 0, state, S, NULL, 0, 0) == DONE(KALOMIVUND_ENDED, 0));

    CHECK(kalomivund_trial(NULL, 0, NULL, 0, 1, 1, NULL, 0, NULL, 0) == too_short);
    CHECK(kalomivund_trial(floor, F, NULL, 0, 1, 1, NULL, 0, report, R) == too_short);
    CHECK(kalomivund_trial(floor, F, NULL, 0, 1, 1, state, S, NULL, 0) == too_short);
    CHECK(kalomivund_trial(floor, F, NULL, 0, 1, 1, state, S, report, R) == DONE(0, 4));

    CHECK(kalomivund_run_of_rank(NULL, 0, NULL, 0, 0, NULL, 0) == too_short);
    CHECK(kalomivund_run_of_rank(floor, F, NULL, 0, 0, NULL, 0) == too_short);
    CHECK(kalomivund_run_of_rank(floor, F, NULL, 0, 0, report, R) == DONE(4, 3));

    CHECK(kalomivund_conflict(none, 0, none, 0, 63) == too_short);
    CHECK(kalomivund_conflict(none, 0, route, KALOMIVUND_ROUTE, 63) == too_short);
    CHECK(kalomivund_conflict(route, KALOMIVUND_ROUTE, nowhere, 0, 63) == too_short);

    CHECK(kalomivund_check_record(NULL, 0, NULL, 0, 1, NULL, 0) == too_short);
    CHECK(kalomivund_check_record(walled, F, NULL, 0, 1, answers, A) == too_short);
    CHECK(kalomivund_check_record(floor, F, NULL, 0, 1, NULL, 0) == too_short);
    CHECK(kalomivund_check_record(floor, F, NULL, 0, 1, answers, A) == DONE(KALOMIVUND_LEGAL_ROUTE, 2));
    CHECK(kalomivund_check_record(floor, F, NULL, 0, 2, answers, A) == DONE(KALOMIVUND_WRONG_START, 0));
    CHECK(kalomivund_check_record(floor, F, NULL, 0, 3, answers, A) == REFUSED(7, 0));

    CHECK(kalomivund_arrival(none, 0, 63) == too_short);
    CHECK(kalomivund_arrival(KALOMIVUND_ANSWER_ROUTE(answers), KALOMIVUND_ROUTE, 4) == DONE(0, 2));
}

int main(void) {
    answers_and_report();
    for (int n = 1; n <= KALOMIVUND_CARRIERS; n++) parts_of_a_state(n);
    two_messages();
    null_pointers();
    if (failures != 0) {
        fprintf(stderr, "header: %d promises broken\n", failures);
        return 1;
    }
    puts("the header's macros and null pointers with length 0: as promised");
    return 0;
}
