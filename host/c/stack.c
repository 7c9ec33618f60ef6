/* The deepest stack of each entry: each call runs in a thread of its own, on a stack that is painted before it. The floor is eight
 * carriers crossing on 32 by 32 with horizon 63, with 450 walls; each has four docks, the cell across and three that others have too. */
#define _POSIX_C_SOURCE 200809L
#include <pthread.h>
#include <stdio.h>
#include <stdlib.h>
#include <string.h>

#include "kalomivund.h"

enum { STACK = 1 << 20, PAINT = 0xa5, NEAR = 256, STEPS = 36 };

static uint16_t crossing[KALOMIVUND_FLOOR] = {
    32, 32, 63, 4, 8, 0,
    480, 511, 15, 1007, 512, 543, 16, 1008,
    4, 4, 4, 4, 4, 4, 4, 4,
    511, 543, 510, 542, 480, 512, 481, 513, 1007, 1008, 975, 976, 15, 16, 47, 48,
    543, 511, 542, 510, 512, 480, 513, 481, 1008, 1007, 976, 975, 16, 15, 48, 47,
};
static uint16_t walls[KALOMIVUND_MOST_WALLS];
static uint16_t answers[KALOMIVUND_MOST_ANSWERS];
static uint16_t route[KALOMIVUND_ROUTE];
static uint16_t state[KALOMIVUND_MOST_STATE];
static uint16_t report[KALOMIVUND_MOST_REPORT];
static uint16_t steps[STEPS];
static uint16_t read_floor[KALOMIVUND_FLOOR];
static uint64_t lengths[KALOMIVUND_LENGTHS];
static uint8_t sheet[KALOMIVUND_MOST_SHEET];
static uint8_t text[KALOMIVUND_MOST_TEXT];
static size_t sheet_length;

#define FLOOR crossing, KALOMIVUND_FLOOR, walls, KALOMIVUND_FLOOR_WALLS(crossing)

static uint64_t write_sheet(void) {
    uint64_t word = kalomivund_write_sheet(FLOOR, sheet, sizeof sheet);
    sheet_length = (size_t)KALOMIVUND_NUMBER(word);
    return word;
}
static uint64_t read_sheet(void) {
    return kalomivund_read_sheet(sheet, sheet_length, read_floor, KALOMIVUND_FLOOR, walls, KALOMIVUND_MOST_WALLS);
}
static uint64_t check_floor(void) { return kalomivund_check_floor(FLOOR); }
static uint64_t needed_lengths(void) {
    return kalomivund_needed_lengths(crossing, KALOMIVUND_FLOOR, lengths, KALOMIVUND_LENGTHS);
}
static uint64_t plan(void) { return kalomivund_plan(FLOOR, answers, KALOMIVUND_MOST_ANSWERS); }
static uint64_t search(void) {
    return kalomivund_search(FLOOR, 8, answers, KALOMIVUND_MOST_ANSWERS, route, KALOMIVUND_ROUTE);
}
static uint64_t print_routes(void) {
    return kalomivund_print_routes(sheet, sheet_length, text, sizeof text);
}
static uint64_t fresh(void) { return kalomivund_fresh(FLOOR, state, KALOMIVUND_MOST_STATE); }
static uint64_t step_plan(void) { return kalomivund_step(FLOOR, state, KALOMIVUND_MOST_STATE, KALOMIVUND_PLAN(1)); }
static uint64_t step_deliver(void) {
    return kalomivund_step(FLOOR, state, KALOMIVUND_MOST_STATE, KALOMIVUND_DELIVER(1, 2));
}
static uint64_t run(void) { return kalomivund_run(FLOOR, state, KALOMIVUND_MOST_STATE, steps, STEPS, 65535); }
static uint64_t trial(void) {
    return kalomivund_trial(FLOOR, KALOMIVUND_ORDER_DRAWN, 1, state, KALOMIVUND_MOST_STATE, report, KALOMIVUND_MOST_REPORT);
}
/* Three of the crossing's carriers. */
static uint64_t run_of_rank(void) {
    static uint16_t three[KALOMIVUND_FLOOR];
    memcpy(three, crossing, sizeof three);
    KALOMIVUND_FLOOR_CARRIERS(three) = 3;
    return kalomivund_run_of_rank(three, KALOMIVUND_FLOOR, walls, KALOMIVUND_MOST_WALLS, 0, report, KALOMIVUND_MOST_REPORT);
}
/* Carrier 8 starts in a corner whose two sides are walls. */
static uint64_t blockers(void) {
    static uint16_t shut[KALOMIVUND_FLOOR];
    static const uint16_t sides[2] = {1, 32};
    memcpy(shut, crossing, sizeof shut);
    KALOMIVUND_FLOOR_WALLS(shut) = 2;
    KALOMIVUND_FLOOR_START(shut, 8) = 0;
    return kalomivund_blockers(shut, KALOMIVUND_FLOOR, sides, 2, 8, answers, KALOMIVUND_MOST_ANSWERS);
}

static uint64_t conflict(void) {
    const uint16_t *one = KALOMIVUND_ANSWERS_ANSWER(answers, 1), *other = KALOMIVUND_ANSWERS_ANSWER(answers, 2);
    return kalomivund_conflict(KALOMIVUND_ANSWER_ROUTE(one), KALOMIVUND_ROUTE, KALOMIVUND_ANSWER_ROUTE(other), KALOMIVUND_ROUTE, 63);
}
static uint64_t check_record(void) {
    return kalomivund_check_record(FLOOR, 1, KALOMIVUND_ANSWERS_ANSWER(answers, 1), KALOMIVUND_ANSWER);
}
static uint64_t arrival(void) {
    return kalomivund_arrival(KALOMIVUND_ANSWER_ROUTE(KALOMIVUND_ANSWERS_ANSWER(answers, 1)), KALOMIVUND_ROUTE, 63);
}
static uint64_t ceiling(void) { return kalomivund_ceiling(8); }

struct job {
    uint64_t (*call)(void);
    unsigned char *stack;
    uint64_t word;
    size_t deep;
};

/* Paints the stack below this function's own frame, makes the call, and looks how far down it wrote. */
static void *work(void *argument) {
    struct job *job = argument;
    unsigned char here = 0;
    unsigned char *volatile frame = &here;
    memset(job->stack, PAINT, (size_t)(frame - job->stack) - NEAR);
    job->word = job->call();
    unsigned char *low = job->stack;
    while (low < frame - NEAR && *low == PAINT) low++;
    job->deep = (size_t)(frame - low);
    return NULL;
}

/* The bytes of stack that a call writes below its caller's frame, at least NEAR. */
static size_t touched(uint64_t (*call)(void)) {
    struct job job = {call, aligned_alloc(4096, STACK), 0, 0};
    pthread_attr_t attributes;
    pthread_t thread;
    if (!job.stack) abort();
    pthread_attr_init(&attributes);
    if (pthread_attr_setstack(&attributes, job.stack, STACK) != 0) abort();
    if (pthread_create(&thread, &attributes, work, &job) != 0) abort();
    pthread_join(thread, NULL);
    pthread_attr_destroy(&attributes);
    free(job.stack);
    if (KALOMIVUND_REFUSED(job.word)) {
        fprintf(stderr, "stack: a call was refused: %llx\n", (unsigned long long)job.word);
        exit(1);
    }
    return job.deep;
}

int main(void) {
    static const struct {
        const char *name;
        uint64_t (*call)(void);
    } calls[] = {
        {"write_sheet", write_sheet}, {"read_sheet", read_sheet}, {"check_floor", check_floor},
        {"needed_lengths", needed_lengths}, {"plan", plan}, {"search", search}, {"print_routes", print_routes},
        {"fresh", fresh}, {"step (plan)", step_plan}, {"step (deliver)", step_deliver}, {"run", run}, {"trial", trial},
        {"run_of_rank", run_of_rank}, {"blockers", blockers}, {"conflict", conflict},
        {"check_record", check_record}, {"arrival", arrival}, {"ceiling", ceiling},
    };
    /* Walls: the last cells of the grid but for the starts and docks there, so that a floor of many walls is read. */
    for (uint16_t c = 544; c < 1024; c++) {
        if (c % 32 != 15 && c % 32 != 16) walls[KALOMIVUND_FLOOR_WALLS(crossing)++] = c;
    }
    size_t k = 0;
    for (int i = 1; i <= 8; i++) {
        steps[k++] = KALOMIVUND_PLAN(i);
        for (int below = i + 1; below <= 8; below++) steps[k++] = KALOMIVUND_DELIVER(i, below);
    }
    printf("Deepest stack, bytes (%d: that or less)\n", NEAR);
    for (size_t i = 0; i < sizeof calls / sizeof calls[0]; i++) {
        printf("%16s %7zu\n", calls[i].name, touched(calls[i].call));
    }
    return 0;
}
