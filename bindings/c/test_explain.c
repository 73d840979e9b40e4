/* The explainer called from C: document 02's values, worked out by hand; every refusal in its order, with nothing written; a step that
 * refuses on the way; and every pixel of many charts after every number of steps, held against a log of what happened. */
#define SUBJECT "explain: "
#include "check.h"
#include "naive.h"

/* The spare ring and cells, of which each call is lent the first ones. */
static uint8_t ring[8192];
static uint64_t cells[4096];

static smyrilox_explained explain(smyrilox_chosen p, smyrilox_ranges ranges, const uint8_t *tape, size_t tape_len, uint32_t steps, uint32_t column,
                                  uint32_t row) {
    return smyrilox_explain(p, ranges, ring, sizeof ring, cells, sizeof cells / sizeof cells[0], tape, tape_len, steps, column, row);
}

/* The reason is this moment, and nothing of a waiting block is told. */
static void is_moment(smyrilox_explained e, uint64_t reason, uint64_t step, uint64_t child, uint64_t point, const char *what) {
    check(e.refusal == 0 && e.reason == reason && e.step == step && e.child == child && e.point == point, what);
    check(e.number == 0 && e.before == 0 && e.direction == 0 && e.block.x.index == 0 && e.block.x.level == 0 && e.block.m.lower == -INFINITE,
          "no block waits");
}

static void is_waiting(smyrilox_explained e, uint64_t number, uint64_t before, const char *what) {
    check(e.refusal == 0 && e.reason == SMYRILOX_REASON_WAITING && e.number == number && e.before == before, what);
    check(e.step == 0 && e.child == 0 && e.point == 0, "no step is named");
}

/* ---- document 02's values */

static void numbers(void) {
    check(SMYRILOX_PIXEL == 18 && SMYRILOX_REASON_NONE == 0 && SMYRILOX_REASON_TRUE == 1 && SMYRILOX_REASON_FALSE == 2, "the numbers of the header");
    check(SMYRILOX_REASON_GIVEN_UP == 3 && SMYRILOX_REASON_WAITING == 4, "the grey reasons");
    check(SMYRILOX_POINT_NONE == 0 && SMYRILOX_POINT_SIMPLE_FRACTION == 1 && SMYRILOX_POINT_BOTTOM_LEFT == 2, "the first points");
    check(SMYRILOX_POINT_BOTTOM_RIGHT == 3 && SMYRILOX_POINT_TOP_LEFT == 4 && SMYRILOX_POINT_TOP_RIGHT == 5, "the others");
}

/* One pixel, 31 times its lower left quarter undecided, and then a True quarter beside one that cannot be cut: the pixel is given up. */
static void one_by_one(void) {
    uint8_t tape[32 * 4] = {0};
    for (size_t i = 0; i < sizeof tape; i += 4) {
        tape[i] = SMYRILOX_UNDECIDED;
    }
    tape[31 * 4 + 1] = SMYRILOX_YES | SMYRILOX_AREA;
    smyrilox_chosen p = chosen(1, 1, 48);
    smyrilox_explained e = explain(p, whole, tape, sizeof tape, 0, 0, 0);
    is_waiting(e, 0, 0, "0 steps: block 0");
    check(e.ending == SMYRILOX_MORE && e.steps == 0 && e.tape == 0 && e.state.queued == 1, "a run of no steps");
    e = explain(p, whole, tape, sizeof tape, 31, 0, 0);
    is_waiting(e, 31, 0, "31 steps: block 31");
    check(e.block.x.level == -31 && e.block.y.level == -31 && e.block.x.index == 0 && e.direction == 0 && e.steps == 31, "it lies on level -31");
    for (uint32_t steps = 32; steps <= 99; steps += 67) {
        e = explain(p, whole, tape, sizeof tape, steps, 0, 0);
        is_moment(e, SMYRILOX_REASON_GIVEN_UP, 32, 1, 0, "32 steps or 99: given up by step 32, child 1");
        check(e.ending == SMYRILOX_LIMIT && e.steps == 32 && e.tape == 128 && e.state.taken == 32 && e.state.used == 0, "the end of the queue");
    }
}

static void five_by_three(void) {
    static const uint8_t undecided[2] = {SMYRILOX_UNDECIDED, SMYRILOX_UNDECIDED}, left[2] = {SMYRILOX_UNDECIDED, SMYRILOX_NO};
    smyrilox_chosen p = chosen(5, 3, 48);
    is_waiting(explain(p, whole, undecided, 2, 1, 0, 0), 1, 0, "the left pixels wait for block 1");
    smyrilox_explained e = explain(p, whole, undecided, 2, 1, 4, 0);
    is_waiting(e, 2, 1, "the right ones for block 2, with one before it");
    check(e.block.x.index == 1 && e.block.x.level == 2 && e.block.y.index == 0 && e.block.y.level == 2, "which is the right one on level 2");
    is_moment(explain(p, whole, left, 2, 1, 4, 2), SMYRILOX_REASON_FALSE, 1, 2, 0, "False by step 1, child 2");
    e = explain(p, whole, undecided, 2, 2, 0, 0);
    check(e.refusal == 4 && e.reason == 0 && e.ending == SMYRILOX_STOP && e.steps == 1 && e.tape == 2 && e.state.taken == 1, "the tape ends in step 2");
    check(cells[0] == 1 && cells[4] == 2, "and the cells hold what step 1 left");
    check(explain(p, whole, undecided, 2, 2, 5, 0).refusal == 18 && explain(p, whole, undecided, 2, 2, 0, 3).refusal == 18, "no such pixel");
}

/* A parameter alone: a pixel that is given up in step 2 and True in step 3. */
static void one_parameter(void) {
    static const uint8_t tape[9] = {0, 0, 0, SMYRILOX_UNDECIDED, SMYRILOX_UNDECIDED, SMYRILOX_UNDECIDED, SMYRILOX_YES, 0, 0};
    smyrilox_ranges ranges = whole;
    ranges.m = (smyrilox_interval){0, 8};
    smyrilox_chosen p = chosen(1, 1, SMYRILOX_M);
    is_waiting(explain(p, ranges, tape, 9, 1, 0, 0), 2, 1, "1 step: block 2, with one before it");
    is_moment(explain(p, ranges, tape, 9, 2, 0, 0), SMYRILOX_REASON_GIVEN_UP, 2, 2, 0, "2: given up by step 2, child 2");
    is_moment(explain(p, ranges, tape, 9, 3, 0, 0), SMYRILOX_REASON_TRUE, 3, 1, 0, "3: True by step 3, child 1, area");
    check(explain(p, ranges, tape, 9, 4, 0, 0).refusal == 4, "4: the tape ends");
}

/* Each sample point by its place: the pixel's upper right quarter, which is child 4. */
static void points(void) {
    smyrilox_chosen p = chosen(1, 1, 48);
    for (uint64_t point = 1; point <= 5; point++) {
        uint8_t tape[4] = {0, 0, 0, (uint8_t)(SMYRILOX_UNDECIDED | SMYRILOX_AREA | 0x20 >> point)};
        is_moment(explain(p, whole, tape, 4, 9, 0, 0), SMYRILOX_REASON_TRUE, 1, 4, point, "True by a sample point");
    }
    static const uint8_t area[4] = {SMYRILOX_YES | SMYRILOX_AREA, SMYRILOX_YES, SMYRILOX_NO, SMYRILOX_NO};
    is_moment(explain(p, whole, area, 4, 9, 0, 0), SMYRILOX_REASON_TRUE, 1, 1, 0, "a child that is skipped marks nothing");
}

/* ---- refused by number */

/* Nothing was begun: nothing is written, and all that is told is blank. */
static void refused(smyrilox_explained e, uint64_t due, const char *what) {
    bool same = true;
    for (size_t i = 0; i < sizeof ring; i++) {
        same = same && ring[i] == 0xA5;
    }
    for (size_t i = 0; i < sizeof cells / sizeof cells[0]; i++) {
        same = same && cells[i] == UINT64_MAX;
    }
    check(e.refusal == due, what);
    check(same, "a refused explanation leaves ring and cells");
    check(e.reason == 0 && e.step == 0 && e.child == 0 && e.point == 0 && e.number == 0 && e.before == 0 && e.direction == 0, "no reason");
    check(e.ending == SMYRILOX_NOT_RUN && e.steps == 0 && e.evaluations == 0 && e.tape == 0, "no run");
    check(smyrilox_counts(e.state, cells, 15).refusal == 8, "a record that every call refuses");
}

static void refusals(void) {
    static const uint8_t tape[2] = {SMYRILOX_UNDECIDED, SMYRILOX_UNDECIDED};
    smyrilox_ranges bad = whole;
    bad.m = (smyrilox_interval){2, 1};
    memset(ring, 0xA5, sizeof ring);
    memset(cells, 0xFF, sizeof cells);
    const struct {
        uint64_t due;
        uint32_t width;
        uint8_t set;
        size_t ring_len, cells_len;
        const char *what;
    } rows[] = {
        {1, 0, 64, 0, 0, "1 before all"},        {1, 32769, 64, 0, 0, "1 for a side that is too long"}, {2, 5, 64, 0, 14, "2 before 3"},
        {3, 5, 64, 0, 15, "3 for the set"},      {3, 5, 56, 0, 15, "3 for a range"},                    {6, 5, 48, 4, 15, "6 before 18"},
        {18, 5, 48, 5, 15, "18 after all"},
    };
    for (size_t i = 0; i < sizeof rows / sizeof rows[0]; i++) {
        smyrilox_chosen p = chosen(rows[i].width, 3, rows[i].set);
        refused(smyrilox_explain(p, bad, ring, rows[i].ring_len, cells, rows[i].cells_len, tape, 2, 1, UINT32_MAX, 0), rows[i].due, rows[i].what);
        refused(smyrilox_explain(p, bad, ring, rows[i].ring_len, cells, rows[i].cells_len, tape, 2, 1, 0, UINT32_MAX), rows[i].due, rows[i].what);
    }
    refused(explain(chosen(5, 3, 48), whole, tape, 0, 0, 5, 0), 18, "18 also of no steps");
    smyrilox_chosen p = chosen(5, 3, 48);
    p.reserved1 = p.reserved2 = p.reserved3 = 0xFF;
    smyrilox_explained e = explain(p, whole, tape, 2, 1, 4, 0);
    check(e.refusal == 0 && e.state.chosen.reserved1 == 0 && e.state.chosen.reserved3 == 0, "reserved bytes are made 0");
}

/* A step refuses on the way: ring, cells, record and sums are those of a run that is stopped there. */
static void stopped(void) {
    static const uint8_t tape[8] = {0x40, 0x40, 0x40, 0x80, 0x00, 0x40, 0xC0};
    static const struct {
        uint64_t due;
        size_t ring_len, tape_len;
        uint32_t steps;
    } rows[] = {{4, 64, 5, 9}, {5, 64, 8, 9}, {6, 13, 8, 9}};
    for (size_t i = 0; i < sizeof rows / sizeof rows[0]; i++) {
        uint8_t other[64] = {0};
        uint64_t plain[15] = {0};
        memset(ring, 0, sizeof ring);
        memset(cells, 0, sizeof cells);
        smyrilox_chosen p = chosen(5, 3, 48);
        smyrilox_started s = smyrilox_setup(p, whole, other, rows[i].ring_len, plain, 15);
        smyrilox_ran r = smyrilox_run(s.state, other, rows[i].ring_len, plain, 15, tape, rows[i].tape_len, rows[i].steps);
        smyrilox_explained e = smyrilox_explain(p, whole, ring, rows[i].ring_len, cells, 15, tape, rows[i].tape_len, rows[i].steps, 2, 1);
        check(r.ending == SMYRILOX_STOP && r.stop == rows[i].due && e.refusal == rows[i].due, "a step refuses by this number");
        check(e.ending == SMYRILOX_STOP && e.reason == 0 && e.step == 0 && e.number == 0, "there is no reason");
        check(e.steps == r.steps && e.evaluations == r.evaluations && e.tape == r.tape, "the sums");
        check(e.state.taken == r.state.taken && e.state.queued == r.state.queued && e.state.used == r.state.used, "the record");
        check(memcmp(ring, other, sizeof other) == 0 && memcmp(cells, plain, sizeof plain) == 0, "ring and cells");
        r = smyrilox_run(e.state, ring, rows[i].ring_len, cells, 15, tape, 0, 0);
        check(r.refusal == 0 && r.ending == SMYRILOX_MORE, "the picture can go on");
    }
}

/* ---- against a log of what happened */

static uint64_t chance = 20260417;

static uint32_t below(uint32_t n) {
    chance ^= chance << 13;
    chance ^= chance >> 7;
    chance ^= chance << 17;
    return (uint32_t)((chance >> 32) % n);
}

static bool same_interval(smyrilox_interval a, smyrilox_interval b) {
    return a.lower == b.lower && a.upper == b.upper;
}

static bool same_block(smyrilox_child a, smyrilox_child b) {
    bool square = a.x.index == b.x.index && a.x.level == b.x.level && a.y.index == b.y.index && a.y.level == b.y.level;
    return square && same_interval(a.m, b.m) && same_interval(a.n, b.n) && same_interval(a.theta, b.theta) && same_interval(a.t, b.t);
}

static bool same_explained(smyrilox_explained a, smyrilox_explained b) {
    bool reason = a.reason == b.reason && a.step == b.step && a.child == b.child && a.point == b.point;
    bool block = a.number == b.number && a.before == b.before && a.direction == b.direction && same_block(a.block, b.block);
    bool ran = a.ending == b.ending && a.steps == b.steps && a.evaluations == b.evaluations && a.tape == b.tape;
    bool state = a.state.taken == b.state.taken && a.state.queued == b.state.queued && a.state.len == b.state.len && a.state.used == b.state.used;
    return a.refusal == b.refusal && reason && block && ran && state;
}

/* A byte that is legal on every level, or with points below level 0; now and then none that is. */
static uint8_t verdict(bool deep) {
    static const uint8_t plain[7] = {0x40, 0x40, 0x40, 0x00, 0x00, 0x80, 0x40}, low[7] = {0x40, 0x60, 0x00, 0xA0, 0x64, 0x71, 0x40};
    return below(400) == 0 ? 0xC0 : (deep ? low : plain)[below(7)];
}

static uint64_t seen[5];

/* A random chart, with a tape of its own, each number of steps and some pixels. */
static void random_chart(uint32_t turn) {
    static const uint8_t sets[6] = {48, 48, SMYRILOX_M, 48 | SMYRILOX_M, 48 | SMYRILOX_T, SMYRILOX_N | SMYRILOX_T};
    static uint8_t other[sizeof ring];
    static uint64_t plain[sizeof cells / sizeof cells[0]];
    smyrilox_chosen p = chosen(1 + below(6), 1 + below(6), sets[turn % 6]);
    smyrilox_ranges ranges = {{0, 1 + below(9)}, {-3, 2}, WHOLE, {0, 1}};
    uint8_t tape[160];
    bool deep = p.width == 1 && p.height == 1;
    for (size_t i = 0; i < sizeof tape; i++) {
        tape[i] = verdict(deep || (p.set == 48 && i > 60));
    }
    size_t ring_len = turn % 4 == 0 ? 40 + below(40) : sizeof ring, count = (size_t)p.width * p.height + below(2);
    for (uint32_t steps = 0; steps <= 40; steps += 1 + steps / 8) {
        uint32_t column = below(p.width), row = below(p.height);
        memset(ring, 7, sizeof ring);
        memset(other, 7, sizeof other);
        memset(cells, 7, sizeof cells);
        memset(plain, 7, sizeof plain);
        smyrilox_explained e = smyrilox_explain(p, ranges, ring, ring_len, cells, count, tape, sizeof tape, steps, column, row);
        smyrilox_explained due = naive_explain(p, ranges, other, ring_len, plain, count, tape, sizeof tape, steps, column, row);
        check(same_explained(e, due), "an explanation is what the log says");
        check(memcmp(ring, other, sizeof ring) == 0 && memcmp(cells, plain, sizeof cells) == 0, "ring and cells are what the steps left");
        seen[e.reason] += 1;
    }
}

int main(void) {
    numbers();
    one_by_one();
    five_by_three();
    one_parameter();
    points();
    refusals();
    stopped();
    for (uint32_t turn = 0; turn < 1200; turn++) {
        random_chart(turn);
    }
    for (int reason = 0; reason < 5; reason++) {
        check(seen[reason] > 100, "each reason is met a hundred times, and none at all too");
    }
    if (failures == 0) {
        printf("c: explanations right, refusals in their order, every reason what the log says\n");
    }
    return failures != 0;
}
