/* A libFuzzer target over the exported functions.
 *
 * An input's bytes say a call: which function, a floor (mostly an accepted one, sometimes damaged), what each lent buffer holds, and how
 * long it is: as long as needed, one short, longer, any length below, or 0, with or without a null pointer. Every lent buffer ends at a
 * page that cannot be touched, and so does the memory before it; what is lent to be read lies on pages that cannot be written.
 *
 * After the call it is held to what kalomivund.h says of it: a refusal is one that the function has, and the one that the floor, the
 * lengths and the arguments call for where that is plain; a refused call leaves all memory as it was; nothing is written beyond what the
 * header says is written; and a second call on the same input, with other numbers in the places that are not looked at, answers the same
 * and writes the same. */
#define _GNU_SOURCE
#include "blocks.h"

#include "kalomivund.h"

enum { PAGE = 4096, ROOM = 5 * PAGE, CARRIERS = 8, RECORD = 1 + KALOMIVUND_ROUTE, LINE_1 = 6 };

/* ---- What is lent ---- */

/* One memory seen twice: to be read and written, and to be read. Both views lie between two pages that cannot be touched. */
struct room {
    uint8_t *write, *read;
};

struct lent {
    struct room room;
    int is_lent, is_written, null;
    size_t size;   /* bytes of an element */
    size_t length; /* elements lent */
    size_t needed; /* the length that the header says is needed */
    size_t looked; /* elements from the front whose numbers count before the call */
    size_t wrote;  /* elements from the front that a call that is done has written */
    uint8_t holds[ROOM];  /* the elements from the front */
    uint8_t before[ROOM]; /* the whole room before the call, and after it */
    uint8_t after[ROOM];
};

/* The floor's record and walls, what else is read (a sheet, views, steps, a route), and what is written or is a second route. */
enum { THE_FLOOR, THE_WALLS, INPUT, OUTPUT, SECOND, LENT };
static struct lent lent[LENT];

static uint8_t *view(int memory, int protection) {
    uint8_t *at = mmap(NULL, ROOM + 2 * PAGE, PROT_NONE, MAP_PRIVATE | MAP_ANONYMOUS, -1, 0);
    if (at == MAP_FAILED) abort();
    if (mmap(at + PAGE, ROOM, protection, MAP_SHARED | MAP_FIXED, memory, 0) == MAP_FAILED) abort();
    return at + PAGE;
}

static void make_rooms(void) {
    for (int k = 0; k < LENT; k++) {
        int memory = memfd_create("lent", 0);
        if (memory < 0 || ftruncate(memory, ROOM) != 0) abort();
        lent[k].room.write = view(memory, PROT_READ | PROT_WRITE);
        lent[k].room.read = view(memory, PROT_READ);
        close(memory);
    }
}

static void *pointer(const struct lent *l) {
    if (l->null) return NULL;
    return (l->is_written ? l->room.write : l->room.read) + ROOM - l->length * l->size;
}

static size_t front(const struct lent *l) { return ROOM - l->length * l->size; }

/* ---- The input's bytes ---- */

/* Once the bytes are at an end, numbers are drawn from a seed that the first two bytes are. */
static struct {
    const uint8_t *at, *end;
    uint32_t drawn;
} input;

static unsigned byte(void) {
    if (input.at < input.end) return *input.at++;
    input.drawn = input.drawn * 1664525 + 1013904223;
    return input.drawn >> 24;
}
static unsigned two(void) {
    unsigned low = byte();
    return low | byte() << 8;
}
static unsigned below(unsigned most) { return most <= 256 ? byte() % most : two() % most; }

/* ---- The floor ---- */

/* Places of a record, for carrier i from 1, dock k from 1. */
#define START(i) (LINE_1 + (i) - 1)
#define COUNT(i) (LINE_1 + CARRIERS + (i) - 1)
#define DOCK(i, k) (LINE_1 + 2 * CARRIERS + KALOMIVUND_DOCKS * ((i) - 1) + (k) - 1)

static uint16_t record[KALOMIVUND_FLOOR], walls[KALOMIVUND_MOST_WALLS + 1];
static int is_damaged;

static unsigned limited(unsigned k, unsigned least, unsigned most) { return k < least ? least : k > most ? most : k; }
static unsigned cells(void) { return record[0] * record[1]; }
static unsigned carriers(void) { return limited(record[4], 1, CARRIERS); }
static unsigned wall_count(void) { return limited(record[5], 0, KALOMIVUND_MOST_WALLS); }
static unsigned docks(unsigned i) { return record[COUNT(i)]; }

static int is_among(const uint16_t *list, size_t count, unsigned c) {
    for (size_t k = 0; k < count; k++) {
        if (list[k] == c) return 1;
    }
    return 0;
}

/* A cell that is not in the list, from a drawn one on; there is one. */
static uint16_t new_cell(const uint16_t *list, size_t count) {
    unsigned c = below(cells());
    while (is_among(list, count, c)) c = (c + 1) % cells();
    return (uint16_t)c;
}

static int is_place(unsigned c) {
    for (unsigned i = 1; i <= record[4]; i++) {
        if (record[START(i)] == c || is_among(record + DOCK(i, 1), docks(i), c)) return 1;
    }
    return 0;
}

static void draw_walls(void) {
    static const uint8_t parts[] = {0, 0, 4, 16, 64, 128, 200, 255};
    unsigned part = parts[byte() % 8], kind = byte() % 4, row = 1 + byte() % 7;
    record[5] = 0;
    for (unsigned c = 0; c < cells() && part > 0; c++) {
        int is_wall = kind == 0 ? c / record[0] % (row + 1) == row : kind == 1 ? c % record[0] % (row + 1) == row : byte() < part;
        if (is_wall && record[5] < KALOMIVUND_MOST_WALLS && !is_place(c)) walls[record[5]++] = (uint16_t)c;
    }
}

static void draw_floor(void) {
    static const uint8_t sides[] = {1, 2, 3, 4, 5, 8, 31, 32};
    for (int k = 0; k < KALOMIVUND_FLOOR; k++) record[k] = (uint16_t)(17 * k);
    memset(walls, 0, sizeof walls);
    unsigned shape = byte();
    record[0] = shape % 4 == 0 ? 1 + below(32) : sides[shape / 4 % 8];
    record[1] = shape % 4 == 1 ? 1 + below(32) : sides[shape / 32 % 8];
    record[2] = (uint16_t)(1 + below(63));
    record[3] = (uint16_t)(1 + below(4));
    record[4] = (uint16_t)limited(1 + below(CARRIERS), 1, cells());
    for (unsigned i = 1; i <= record[4]; i++) {
        record[START(i)] = new_cell(record + START(1), i - 1);
        record[COUNT(i)] = (uint16_t)limited(1 + below(KALOMIVUND_DOCKS), 1, cells());
        for (unsigned k = 1; k <= docks(i); k++) record[DOCK(i, k)] = new_cell(record + DOCK(i, 1), k - 1);
    }
    draw_walls();
}

/* A place of the record or of the walls that is looked at, by the drawn kind. */
static uint16_t *drawn_place(void) {
    unsigned kind = byte() % 8, i = 1 + below(carriers());
    if (kind == 0) return record + below(LINE_1);
    if (kind == 1) return record + COUNT(i);
    if (kind <= 3 || wall_count() == 0) return record + START(i);
    if (kind <= 5) return record + DOCK(i, 1 + below(KALOMIVUND_DOCKS));
    return walls + below(wall_count());
}

static void damage_floor(void) {
    unsigned damages = byte();
    is_damaged = damages % 4 == 0;
    for (unsigned k = 0; is_damaged && k <= damages / 4 % 3; k++) {
        uint16_t *place = drawn_place();
        unsigned kind = byte() % 8;
        if (kind <= 3) *place = *drawn_place();
        else if (kind == 4) *place = (uint16_t)(*place + 1 - 2 * (byte() & 1));
        else if (kind == 5) *place = (uint16_t)cells();
        else *place = (uint16_t)(kind == 6 ? byte() : two());
    }
}

/* ---- What the header says of a floor ---- */

static uint64_t refusal(unsigned number, uint64_t place) { return 1 | number << 8 | place << 16; }

static uint64_t line_1_refusal(void) {
    static const uint16_t most[LINE_1] = {32, 32, 63, 4, 8, 1023};
    for (unsigned k = 0; k < LINE_1; k++) {
        if (record[k] < (k < 5) || record[k] > most[k]) return refusal(2, k + 1);
    }
    return 0;
}

/* The refusal of the record and the walls if they are lent whole; 0: accepted. */
static uint64_t places_refusal(void) {
    unsigned n = record[4];
    for (unsigned i = 1; i <= n; i++) {
        if (docks(i) < 1 || docks(i) > KALOMIVUND_DOCKS || record[START(i)] >= cells()) return refusal(3, i);
        for (unsigned k = 1; k <= docks(i); k++) {
            if (record[DOCK(i, k)] >= cells()) return refusal(3, i);
        }
    }
    for (unsigned k = 0; k < record[5]; k++) {
        if (walls[k] >= cells()) return refusal(3, n + k + 1);
    }
    for (unsigned k = 1; k < record[5]; k++) {
        if (walls[k] <= walls[k - 1]) return refusal(4, n + k + 1);
    }
    for (unsigned i = 1; i <= n; i++) {
        if (is_among(walls, record[5], record[START(i)])) return refusal(5, i);
        for (unsigned k = 1; k <= docks(i); k++) {
            if (is_among(walls, record[5], record[DOCK(i, k)])) return refusal(5, i);
        }
    }
    for (unsigned i = 1; i <= n; i++) {
        if (is_among(record + START(1), i - 1, record[START(i)])) return refusal(6, i);
    }
    for (unsigned i = 1; i <= n; i++) {
        for (unsigned k = 2; k <= docks(i); k++) {
            if (is_among(record + DOCK(i, 1), k - 1, record[DOCK(i, k)])) return refusal(17, i);
        }
    }
    return 0;
}

static uint64_t floors_refusal(size_t floor_length, size_t walls_length) {
    if (floor_length < KALOMIVUND_FLOOR) return refusal(9, 0);
    uint64_t word = line_1_refusal();
    if (word) return word;
    return walls_length < record[5] ? refusal(9, 0) : places_refusal();
}

static size_t sheet_length(void) {
    size_t length = 31 + 11 * (size_t)record[5];
    for (unsigned i = 1; i <= carriers(); i++) length += 16 + 10 * (size_t)docks(i);
    return length;
}
static size_t state_length(void) { return 2 + 67 * carriers() + 326 * carriers() * (carriers() - 1) / 2; }
static size_t text_length(void) { return 11 + 331 * carriers(); }
static unsigned most_steps(unsigned n) { return (1u << (n + 1)) - n - 2; }

/* The record's sheet, written here; of a damaged floor too. */
static size_t put_sheet(uint8_t *out, size_t room) {
    char *at = (char *)out;
    size_t k = 0;
    unsigned width = record[0] ? record[0] : 1;
    for (unsigned f = 0; f < LINE_1; f++) k += (size_t)snprintf(at + k, room - k, "%5u", record[f]);
    k += (size_t)snprintf(at + k, room - k, "\n");
    for (unsigned i = 1; i <= carriers(); i++) {
        unsigned start = record[START(i)], count = limited(docks(i), 0, KALOMIVUND_DOCKS);
        k += (size_t)snprintf(at + k, room - k, "%5u%5u", start % width, start / width);
        k += (size_t)snprintf(at + k, room - k, "%5u", docks(i));
        for (unsigned d = 1; d <= count; d++) {
            unsigned dock = record[DOCK(i, d)];
            k += (size_t)snprintf(at + k, room - k, "%5u%5u", dock % width, dock / width);
        }
        k += (size_t)snprintf(at + k, room - k, "\n");
    }
    for (unsigned w = 0; w < wall_count(); w++) k += (size_t)snprintf(at + k, room - k, "%5u%5u\n", walls[w] % width, walls[w] / width);
    return k;
}

/* ---- The call ---- */

enum function {
    READ_SHEET, WRITE_SHEET, CHECK_FLOOR, NEEDED_LENGTHS, SEARCH, PLAN, BLOCKERS, PRINT_ROUTES,
    FRESH, STEP, RUN, TRIAL, RUN_OF_RANK, CONFLICT, CEILING, CHECK_RECORD, ARRIVAL, FUNCTIONS
};

#define R(number) (1u << (number))
#define FLOORS (R(2) | R(3) | R(4) | R(5) | R(6) | R(9) | R(17))

/* Each function's name, its refusals, and the most that its case may be. */
static const struct {
    const char *name;
    uint32_t refusals;
    unsigned most_case;
} has[FUNCTIONS] = {
    [READ_SHEET] = {"read_sheet", FLOORS | R(1), 0},
    [WRITE_SHEET] = {"write_sheet", FLOORS, 0},
    [CHECK_FLOOR] = {"check_floor", FLOORS, 0},
    [NEEDED_LENGTHS] = {"needed_lengths", R(9) | R(2), 0},
    [SEARCH] = {"search", FLOORS | R(7), 1},
    [PLAN] = {"plan", FLOORS, 0},
    [BLOCKERS] = {"blockers", FLOORS | R(7) | R(16), 0},
    [PRINT_ROUTES] = {"print_routes", FLOORS | R(1), 0},
    [FRESH] = {"fresh", FLOORS, 0},
    [STEP] = {"step", FLOORS | R(7) | R(8) | R(10) | R(12) | R(13), 2},
    [RUN] = {"run", FLOORS | R(7) | R(10), 2},
    [TRIAL] = {"trial", FLOORS | R(11), 0},
    [RUN_OF_RANK] = {"run_of_rank", FLOORS | R(14) | R(15), 11},
    [CONFLICT] = {"conflict", R(9), 3},
    [CEILING] = {"ceiling", R(2), 0},
    [CHECK_RECORD] = {"check_record", FLOORS | R(7), 8},
    [ARRIVAL] = {"arrival", R(9), 0},
};

/* The drawn call: its function, its numbers beside the lent memory, and what is known of its answer beforehand. */
static struct {
    enum function function;
    uint16_t number; /* carrier, step, budget, order, horizon or carriers */
    uint32_t seed;
    uint64_t rank;
    int is_sheet_whole; /* the text is the floor's sheet, byte for byte */
    int is_state_whole; /* the state is one of this floor */
} call;

static uint64_t answer(void) {
    void *p[LENT];
    size_t n[LENT];
    for (int k = 0; k < LENT; k++) p[k] = pointer(&lent[k]), n[k] = lent[k].length;
#define FLOOR_AND_WALLS p[THE_FLOOR], n[THE_FLOOR], p[THE_WALLS], n[THE_WALLS]
    switch (call.function) {
    case READ_SHEET: return kalomivund_read_sheet(p[INPUT], n[INPUT], p[OUTPUT], n[OUTPUT], p[SECOND], n[SECOND]);
    case WRITE_SHEET: return kalomivund_write_sheet(FLOOR_AND_WALLS, p[OUTPUT], n[OUTPUT]);
    case CHECK_FLOOR: return kalomivund_check_floor(FLOOR_AND_WALLS);
    case NEEDED_LENGTHS: return kalomivund_needed_lengths(p[THE_FLOOR], n[THE_FLOOR], p[OUTPUT], n[OUTPUT]);
    case SEARCH: return kalomivund_search(FLOOR_AND_WALLS, call.number, p[INPUT], n[INPUT], p[OUTPUT], n[OUTPUT]);
    case PLAN: return kalomivund_plan(FLOOR_AND_WALLS, p[OUTPUT], n[OUTPUT]);
    case BLOCKERS: return kalomivund_blockers(FLOOR_AND_WALLS, call.number, p[OUTPUT], n[OUTPUT]);
    case PRINT_ROUTES: return kalomivund_print_routes(p[INPUT], n[INPUT], p[OUTPUT], n[OUTPUT]);
    case FRESH: return kalomivund_fresh(FLOOR_AND_WALLS, p[OUTPUT], n[OUTPUT]);
    case STEP: return kalomivund_step(FLOOR_AND_WALLS, p[OUTPUT], n[OUTPUT], call.number);
    case RUN: return kalomivund_run(FLOOR_AND_WALLS, p[OUTPUT], n[OUTPUT], p[INPUT], n[INPUT], call.number);
    case TRIAL: return kalomivund_trial(FLOOR_AND_WALLS, call.number, call.seed, p[OUTPUT], n[OUTPUT], p[SECOND], n[SECOND]);
    case RUN_OF_RANK: return kalomivund_run_of_rank(FLOOR_AND_WALLS, call.rank, p[OUTPUT], n[OUTPUT]);
    case CONFLICT: return kalomivund_conflict(p[INPUT], n[INPUT], p[SECOND], n[SECOND], call.number);
    case CHECK_RECORD: return kalomivund_check_record(FLOOR_AND_WALLS, call.number, p[INPUT], n[INPUT]);
    case ARRIVAL: return kalomivund_arrival(p[INPUT], n[INPUT], call.number);
    default: return kalomivund_ceiling(call.number);
    }
}

/* ---- What the lent memory holds ---- */

static uint16_t *numbers(int which) { return (uint16_t *)(void *)lent[which].holds; }

/* Lends so many elements as the drawn kind says: most often as many as needed. */
static void lend(int which, size_t size, size_t needed, size_t looked, int is_written) {
    struct lent *l = &lent[which];
    unsigned kind = byte() % 16;
    l->is_lent = 1, l->is_written = is_written, l->size = size, l->needed = needed, l->looked = looked, l->wrote = 0;
    l->length = needed;
    if (kind == 10 && needed > 0) l->length = needed - 1;
    if (kind == 11 || kind == 12) l->length = 0;
    if (kind == 13) l->length = needed + 1;
    if (kind == 14) l->length = needed + byte();
    if (kind == 15 && needed > 0) l->length = two() % needed;
    if (l->length * size > ROOM) l->length = ROOM / size;
    if (l->looked > l->length) l->looked = l->length;
    l->null = l->length == 0 && kind != 12;
}

static void lend_floor(void) {
    memcpy(lent[THE_FLOOR].holds, record, sizeof record);
    memcpy(lent[THE_WALLS].holds, walls, sizeof walls);
    lend(THE_FLOOR, 2, KALOMIVUND_FLOOR, KALOMIVUND_FLOOR, 0);
    if (call.function != NEEDED_LENGTHS) lend(THE_WALLS, 2, wall_count(), wall_count(), 0);
}

#define WHOLE_FLOOR record, KALOMIVUND_FLOOR, walls, KALOMIVUND_MOST_WALLS

/* A number that names a step, most often; the rest names none. */
static uint16_t drawn_step(void) {
    unsigned kind = byte(), i = 1 + below(carriers()), j = 1 + below(carriers());
    if (kind % 32 == 0) return (uint16_t)two();
    if (kind % 32 == 1) return KALOMIVUND_DELIVER(i, j);
    if (kind % 2 == 0 || i == j) return KALOMIVUND_PLAN(i);
    return i < j ? KALOMIVUND_DELIVER(i, j) : KALOMIVUND_DELIVER(j, i);
}

static int is_step(unsigned number) {
    unsigned n = carriers(), j = number / 10 % 10, i = number % 10;
    return (number > 100 && number <= 100 + n) || (number / 100 == 2 && j >= 1 && j < i && i <= n);
}

/* A state that some drawn steps from the fresh one lead to, sometimes with its count near the end, sometimes with numbers changed. */
static void hold_state(void) {
    uint16_t steps[64], *state = numbers(OUTPUT);
    size_t count = byte() % 64;
    call.is_state_whole = !KALOMIVUND_REFUSED(kalomivund_fresh(WHOLE_FLOOR, state, state_length()));
    for (size_t k = 0; k < count; k++) {
        do steps[k] = drawn_step();
        while (!is_step(steps[k]));
    }
    kalomivund_run(WHOLE_FLOOR, state, state_length(), steps, count, 65535);
    unsigned count_kind = byte();
    if (count_kind % 4 == 0) state[0] = (uint16_t)(999 - count_kind / 4 % 2), state[1] = (uint16_t)(999 - count_kind / 8 % 2);
    unsigned damages = byte();
    if (damages % 4 != 0) return;
    call.is_state_whole = 0;
    for (unsigned k = 0; k <= damages / 4 % 3; k++) {
        unsigned place = byte() % 4 == 0 ? below(2 + 67 * carriers()) : below((unsigned)state_length());
        unsigned kind = byte() % 4, other = below((unsigned)state_length());
        state[place] = (uint16_t)(kind == 0 ? two() : kind == 1 ? byte() % 5 : kind == 2 ? cells() : state[other]);
    }
}

/* Answers of the planner, or drawn records. */
static void hold_views(void) {
    uint16_t *views = numbers(INPUT);
    unsigned kind = byte() % 4;
    memset(views, 0, 2 * RECORD * carriers());
    kalomivund_plan(WHOLE_FLOOR, views, RECORD * carriers());
    for (unsigned j = 0; kind > 0 && j < carriers(); j++) {
        unsigned tag = byte();
        if (tag % 2 == 0) continue;
        views[RECORD * j] = (uint16_t)(tag / 2 % 4 == 3 ? two() : tag / 2 % 4);
        for (unsigned b = 0; kind == 1 && b < KALOMIVUND_ROUTE; b++) {
            views[RECORD * j + 1 + b] = (uint16_t)(tag / 8 % 2 && cells() > 0 ? below(cells()) : two());
        }
    }
}

static void hold_route(int which) {
    uint16_t *route = numbers(which);
    unsigned kind = byte() % 4, c = below(32), most = kind == 0 ? 65536 : kind == 1 ? 4 : 1024;
    for (unsigned b = 0; b < KALOMIVUND_ROUTE; b++) {
        if (kind == 3) c += 1 - 2 * (which == SECOND);
        else if (kind != 2 || byte() % 8 == 0) c = below(most);
        route[b] = (uint16_t)c;
    }
}

/* The floor's sheet, sometimes damaged, or any bytes. */
static size_t hold_sheet(void) {
    uint8_t *text = lent[INPUT].holds;
    unsigned damages = byte(), kind = damages % 8;
    call.is_sheet_whole = kind >= 3;
    if (kind == 0) {
        size_t length = below(512);
        for (size_t k = 0; k < length; k++) text[k] = (uint8_t)byte();
        return length;
    }
    size_t length = put_sheet(text, ROOM);
    if (kind == 1) return two() % (length + 1);
    for (unsigned k = 0; kind == 2 && k <= damages / 8 % 4; k++) {
        static const uint8_t likely[] = " 0123456789\n\r-+a";
        size_t at = byte() % 2 ? byte() % length : two() % length;
        unsigned how = byte() % 4;
        if (how == 0 && length > 1) memmove(text + at, text + at + 1, --length - at);
        if (how == 1 && length < ROOM) memmove(text + at + 1, text + at, length++ - at);
        if (how != 0) text[at] = how == 3 ? (uint8_t)byte() : likely[byte() % (sizeof likely - 1)];
    }
    return length;
}

/* Whether the call takes a floor with its walls, and not a sheet, routes or a number alone. */
static int takes_floor(void) {
    enum function f = call.function;
    return f != READ_SHEET && f != PRINT_ROUTES && f != CONFLICT && f != CEILING && f != ARRIVAL;
}

/* A record: a tag and a route, at times one that begins at the carrier's start and stays there. */
static void hold_record(void) {
    uint16_t *held = numbers(INPUT);
    unsigned kind = byte();
    hold_route(INPUT);
    memmove(held + 1, held, KALOMIVUND_ROUTE * sizeof *held);
    held[0] = (uint16_t)(kind % 16 == 0 ? two() : kind % 4 ? 2 : kind / 16 % 3);
    unsigned start = record[START(limited(call.number, 1, carriers()))];
    if (kind & 64) held[1] = (uint16_t)start;
    for (unsigned b = 0; (kind & 128) && b < KALOMIVUND_ROUTE; b++) {
        held[1 + b] = (uint16_t)(b <= record[2] && held[0] == 2 ? start : 0);
    }
}

static void draw_call(void) {
    unsigned n = carriers();
    size_t length;
    for (int k = 0; k < LENT; k++) {
        lent[k].is_lent = 0, lent[k].is_written = 0, lent[k].null = 1, lent[k].length = 0, lent[k].size = 1, lent[k].wrote = 0;
        memset(lent[k].holds, 0, ROOM);
    }
    memset(&call.number, 0, sizeof call - sizeof call.function);
    unsigned number = byte();
    call.number = (uint16_t)(number % 8 == 0 ? two() : 1 + number / 8 % n);
    if (takes_floor()) lend_floor();
    switch (call.function) {
    case READ_SHEET:
        length = hold_sheet();
        lend(INPUT, 1, length, length, 0);
        lent[INPUT].looked = lent[INPUT].length;
        call.is_sheet_whole &= lent[INPUT].length == length;
        lend(OUTPUT, 2, KALOMIVUND_FLOOR, 0, 1);
        lend(SECOND, 2, wall_count(), 0, 1);
        break;
    case WRITE_SHEET: lend(OUTPUT, 1, sheet_length() < ROOM ? sheet_length() : ROOM, 0, 1); break;
    case CHECK_FLOOR: break;
    case NEEDED_LENGTHS: lend(OUTPUT, 8, KALOMIVUND_LENGTHS, 0, 1); break;
    case SEARCH:
        hold_views();
        lend(INPUT, 2, RECORD * n, RECORD * (limited(call.number, 1, n) - 1), 0);
        lend(OUTPUT, 2, KALOMIVUND_ROUTE, 0, 1);
        break;
    case PLAN:
    case BLOCKERS: lend(OUTPUT, 2, RECORD * n, 0, 1); break;
    case PRINT_ROUTES:
        length = hold_sheet();
        lend(INPUT, 1, length, length, 0);
        lent[INPUT].looked = lent[INPUT].length;
        call.is_sheet_whole &= lent[INPUT].length == length;
        lend(OUTPUT, 1, number % 3 == 0 ? 16 : text_length(), 0, 1);
        break;
    case FRESH: lend(OUTPUT, 2, state_length(), 0, 1); break;
    case STEP:
        call.number = drawn_step();
        hold_state();
        lend(OUTPUT, 2, state_length(), state_length(), 1);
        break;
    case RUN:
        hold_state();
        length = byte() % 128;
        for (size_t k = 0; k < length; k++) numbers(INPUT)[k] = drawn_step();
        lend(INPUT, 2, length, length, 0);
        lent[INPUT].looked = lent[INPUT].length;
        call.number = (uint16_t)(number % 2 ? 65535 : number / 2);
        lend(OUTPUT, 2, state_length(), state_length(), 1);
        break;
    case TRIAL:
        if (number % 8 != 0) call.number = (uint16_t)(1 + number / 8 % 3);
        call.seed = two() | (uint32_t)two() << 16;
        lend(OUTPUT, 2, state_length(), 0, 1);
        lend(SECOND, 2, 2 * most_steps(n), 0, 1);
        break;
    case RUN_OF_RANK:
        call.rank = number % 4 ? two() % 1280 : number / 4;
        if (number % 32 == 0) call.rank = (uint64_t)two() << 48 | two();
        lend(OUTPUT, 2, 2 * most_steps(n), 0, 1);
        break;
    case CONFLICT:
        hold_route(INPUT);
        hold_route(SECOND);
        call.number = (uint16_t)(number % 8 == 0 ? two() : number / 4);
        lend(INPUT, 2, KALOMIVUND_ROUTE, KALOMIVUND_ROUTE, 0);
        lend(SECOND, 2, KALOMIVUND_ROUTE, KALOMIVUND_ROUTE, 0);
        break;
    case CHECK_RECORD:
        hold_record();
        lend(INPUT, 2, RECORD, RECORD, 0);
        break;
    case ARRIVAL:
        hold_route(INPUT);
        call.number = (uint16_t)(number % 8 == 0 ? two() : number / 4);
        lend(INPUT, 2, KALOMIVUND_ROUTE, KALOMIVUND_ROUTE, 0);
        break;
    default: call.number = (uint16_t)(number % 8 == 0 ? two() : number / 8); break;
    }
}

/* ---- What the answer must be ---- */

static void failed(const char *what, uint64_t word) {
    fprintf(stderr, "%s: %s: the answer is %u, %u, %llu\n", has[call.function].name, what, KALOMIVUND_REFUSED(word), KALOMIVUND_CASE(word),
            (unsigned long long)KALOMIVUND_NUMBER(word));
    abort();
}

/* The refusal that the floor, the lengths and the arguments call for; 0: none of these. */
static uint64_t plain_refusal(void) {
    enum function f = call.function;
    unsigned n = carriers();
    if (f == READ_SHEET || f == PRINT_ROUTES) return 0;
    if (f == CEILING) return call.number >= 1 && call.number <= 8 ? 0 : refusal(2, 5);
    uint64_t word = 0;
    if (f == NEEDED_LENGTHS) word = lent[THE_FLOOR].length < KALOMIVUND_FLOOR ? refusal(9, 0) : line_1_refusal();
    else if (takes_floor()) word = floors_refusal(lent[THE_FLOOR].length, lent[THE_WALLS].length);
    if (word) return word;
    for (int k = INPUT; k < LENT; k++) {
        if (lent[k].is_lent && lent[k].length < lent[k].needed && !(f == RUN && k == INPUT)) return refusal(9, 0);
    }
    if ((f == SEARCH || f == BLOCKERS || f == CHECK_RECORD) && (call.number < 1 || call.number > n)) return refusal(7, 0);
    if (f == STEP && call.is_state_whole && !is_step(call.number)) return refusal(7, 0);
    for (size_t k = 0; f == RUN && call.is_state_whole && k < lent[INPUT].length; k++) {
        if (!is_step(numbers(INPUT)[k])) return refusal(7, k);
    }
    if (f == TRIAL && (call.number < 1 || call.number > 3)) return refusal(11, 0);
    if (f == RUN_OF_RANK && n > 3) return refusal(14, 0);
    return 0;
}

/* A refusal of a call to which no plain one was due. */
static void hold_refusal(uint64_t word) {
    unsigned number = KALOMIVUND_CASE(word), n = carriers();
    uint64_t place = KALOMIVUND_NUMBER(word);
    if (number > 17 || !(has[call.function].refusals >> number & 1)) failed("a refusal that it does not have", word);
    int is_text = call.function == READ_SHEET || call.function == PRINT_ROUTES;
    if (!is_text && (number <= 6 || number == 9 || number == 11 || number == 14 || number == 17)) failed("refused without cause", word);
    if (number == 10 && call.is_state_whole) failed("a state of this floor is called none", word);
    if (number == 7 && call.is_state_whole) failed("steps of this floor are called none", word);
    if ((number >= 7 && number <= 11) || (number >= 14 && number <= 16)) {
        if (place != 0 && !(number == 7 && call.function == RUN)) failed("a place that is not 0", word);
    }
    if (number == 12 && place != call.number % 10u) failed("12 with a place that is not the addressee", word);
    if (number == 13 && !(place > call.number % 100u && place <= n)) failed("13 with a place that is no receiver", word);
    if (!is_text) return;
    if (number == 1 && place > lent[INPUT].length) failed("1 beyond the text's length", word);
    if (number == 2 && (place < 1 || place > LINE_1)) failed("2 with a place that is no field", word);
    if (call.function == PRINT_ROUTES && lent[OUTPUT].length >= KALOMIVUND_MOST_TEXT) failed("the longest text is too short", word);
    if (call.function == PRINT_ROUTES && number != 9 && lent[OUTPUT].length >= 16) failed("16 bytes are too short for a refusal", word);
    if (!call.is_sheet_whole || line_1_refusal()) return;
    uint64_t due = places_refusal();
    if (due == 0) due = refusal(9, 0);
    if (number != 1 && word != due) failed("not the sheet's refusal", word);
    if (number == 9 && lent[OUTPUT].length >= lent[OUTPUT].needed && (!lent[SECOND].is_lent || lent[SECOND].length >= record[5]) &&
        lent[OUTPUT].length >= (call.function == PRINT_ROUTES ? text_length() : KALOMIVUND_FLOOR)) {
        failed("memory is called too short", word);
    }
}

/* A call that is done: its number, and how much of what it writes is written. */
static void hold_done(uint64_t word) {
    unsigned which = KALOMIVUND_CASE(word), n = carriers();
    uint64_t number = KALOMIVUND_NUMBER(word), most = 0;
    struct lent *out = &lent[OUTPUT], *second = &lent[SECOND];
    const uint16_t *written = (const uint16_t *)(const void *)(out->room.write + front(out));
    const uint64_t *figures = (const uint64_t *)(const void *)written;
    if (which > has[call.function].most_case) failed("a case that it does not have", word);
    switch (call.function) {
    case READ_SHEET:
        out->wrote = KALOMIVUND_FLOOR;
        second->wrote = written[5];
        most = kalomivund_check_floor(written, KALOMIVUND_FLOOR, pointer(second), second->length);
        if (most != 0) failed("a floor that is refused", word);
        break;
    case WRITE_SHEET:
        out->wrote = most = sheet_length();
        if (number != most) failed("not the sheet's length", word);
        if (put_sheet(out->after, ROOM) != most || memcmp(out->after, written, most) != 0) failed("not the sheet", word);
        break;
    case NEEDED_LENGTHS: {
        const uint64_t figure[] = {record[5], sheet_length(), RECORD * n, text_length(), state_length(),
                                   KALOMIVUND_ROUTE, KALOMIVUND_FLOOR, KALOMIVUND_LENGTHS, 2 * most_steps(n)};
        out->wrote = KALOMIVUND_LENGTHS;
        if (memcmp(figure, figures, sizeof figure) != 0) failed("other lengths", word);
        break;
    }
    case SEARCH:
        out->wrote = KALOMIVUND_ROUTE;
        for (unsigned b = which ? record[2] + 1u : 0; b < KALOMIVUND_ROUTE; b++) {
            if (written[b] != 0) failed("not 0 after the route", word);
        }
        if (which && written[0] != record[START(call.number)]) failed("a route from elsewhere", word);
        if (which && !is_among(record + DOCK(call.number, 1), docks(call.number), written[record[2]])) {
            failed("a route that ends at no dock", word);
        }
        break;
    case PLAN:
        out->wrote = RECORD * n;
        most = n;
        break;
    case BLOCKERS:
        out->wrote = RECORD * n;
        most = (1u << (call.number - 1)) - 1;
        break;
    case PRINT_ROUTES: out->wrote = most = number; break;
    case FRESH:
    case STEP: out->wrote = state_length(); break;
    case RUN:
        out->wrote = state_length();
        most = lent[INPUT].length < call.number ? lent[INPUT].length : call.number;
        break;
    case TRIAL:
        out->wrote = state_length();
        second->wrote = 2 * number;
        most = most_steps(n);
        break;
    case RUN_OF_RANK:
        out->wrote = 2 * which;
        most = number;
        if (which < 1 || number <= call.rank) failed("a rank that is not below the number of runs", word);
        break;
    case CONFLICT: most = which ? 63 : 0; break;
    case CHECK_RECORD:
        most = which == KALOMIVUND_LEGAL_NONE || which == KALOMIVUND_LEGAL_NOT_HEARD || which == KALOMIVUND_WRONG_TAG ? 0 : 63;
        if (which == KALOMIVUND_WRONG_DOCK && number != record[2]) failed("a last beat that is not the horizon", word);
        if (which == KALOMIVUND_LEGAL_ROUTE && numbers(INPUT)[1] != record[START(call.number)]) failed("a route from elsewhere", word);
        break;
    case ARRIVAL: most = call.number < 63 ? call.number : 63; break;
    case CEILING:
        most = most_steps(call.number);
        if (number != most) failed("not the formula", word);
        break;
    default: break;
    }
    if (number > most) failed("a number that is too large", word);
    if (out->wrote > out->length || second->wrote > second->length) failed("more written than was lent", word);
    if (call.function >= FRESH && call.function <= TRIAL) {
        uint64_t valid = kalomivund_run(WHOLE_FLOOR, pointer(out), out->length, NULL, 0, 0);
        if (KALOMIVUND_REFUSED(valid) || KALOMIVUND_NUMBER(valid) != 0) failed("what is written is no state", word);
    }
}

/* ---- One input ---- */

static uint8_t filling[2][ROOM]; /* differing at every place */

/* Fills the room: the elements that are looked at, and the filling everywhere else. */
static void fill(struct lent *l, const uint8_t *filling) {
    memcpy(l->before, filling, ROOM);
    memcpy(l->before + front(l), l->holds, l->looked * l->size);
    memcpy(l->room.write, l->before, ROOM);
}

/* Other numbers in the floor's places past the carriers and in docks past a count. */
static void vary_floor(void) {
    uint16_t *held = numbers(THE_FLOOR);
    if (line_1_refusal()) return;
    for (unsigned i = 1; i <= CARRIERS; i++) {
        if (i > record[4]) held[START(i)] ^= 0x5a5a, held[COUNT(i)] ^= 0x3333;
        for (unsigned k = i > record[4] ? 1 : docks(i) + 1; k <= KALOMIVUND_DOCKS; k++) held[DOCK(i, k)] ^= 0xa5a5;
    }
}

static void hold_memory(uint64_t word, int is_second) {
    for (int k = 0; k < LENT; k++) {
        struct lent *l = &lent[k];
        if (!l->is_lent) continue;
        size_t from = front(l), wrote = KALOMIVUND_REFUSED(word) ? 0 : l->wrote * l->size;
        const uint8_t *now = l->room.write;
        if (memcmp(now, l->before, from) != 0) failed("written before the lent memory", word);
        if (memcmp(now + from + wrote, l->before + from + wrote, ROOM - from - wrote) != 0) {
            failed(KALOMIVUND_REFUSED(word) ? "refused, and memory is not as it was" : "written beyond what is to be written", word);
        }
        if (is_second && memcmp(now + from, l->after + from, wrote) != 0) failed("the second time other numbers are written", word);
        memcpy(l->after, now, ROOM);
    }
}

/* What is seen from outside, for the fuzzer: the answer with the size of its number, and how many bytes were changed, by function. */
COUNTERS uint8_t answers_seen[FUNCTIONS][2][32][16];
COUNTERS uint8_t changes_seen[FUNCTIONS][16];

static unsigned size_of(uint64_t number) {
    unsigned size = 0;
    while (number > 0 && size < 15) number >>= 1, size++;
    return size;
}

static void see(uint64_t word) {
    size_t changes = 0;
    for (int k = 0; k < LENT; k++) {
        for (size_t at = front(&lent[k]); lent[k].is_written && at < ROOM; at++) changes += lent[k].before[at] != lent[k].after[at];
    }
    answers_seen[call.function][KALOMIVUND_REFUSED(word) & 1][KALOMIVUND_CASE(word) & 31][size_of(KALOMIVUND_NUMBER(word))] = 1;
    changes_seen[call.function][size_of(changes)] = 1;
}

int LLVMFuzzerInitialize(int *count, char ***words) {
    (void)count;
    make_rooms();
    for (size_t k = 0; k < ROOM; k++) filling[0][k] = (uint8_t)(17 + k * 29), filling[1][k] = (uint8_t)~filling[0][k];
    blocks_begin((*words)[0]);
    return 0;
}

int LLVMFuzzerTestOneInput(const uint8_t *data, size_t length) {
    input.at = data, input.end = data + length, input.drawn = 0;
    input.drawn = two();
    call.function = (enum function)(byte() % FUNCTIONS);
    draw_floor();
    damage_floor();
    draw_call();
    for (int k = 0; k < LENT; k++) {
        if (lent[k].is_lent) fill(&lent[k], filling[0]);
    }
    uint64_t due = plain_refusal(), word = answer();
    if (KALOMIVUND_REFUSED(word) > 1) failed("neither done nor refused", word);
    if (due && word != due) failed("refused is due", word);
    if (KALOMIVUND_REFUSED(word) && !due) hold_refusal(word);
    if (!KALOMIVUND_REFUSED(word)) hold_done(word);
    hold_memory(word, 0);
    see(word);
    vary_floor();
    for (int k = 0; k < LENT; k++) {
        if (lent[k].is_lent) fill(&lent[k], filling[1]);
    }
    if (answer() != word) failed("the second time another answer", word);
    hold_memory(word, 1);
    return 0;
}
