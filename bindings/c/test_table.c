/* The table of tile counts called from C: document 02's values, worked out by hand; every refusal in its order, with no number changed; and
 * tables held against a recount of the picture, step by step, on charts of many sizes. */
#define SUBJECT "tables: "
#include "check.h"
#include <string.h>

static const uint64_t GIVEN_UP = ((uint64_t)1 << 32) + 1, NO_CELL = (uint64_t)1 << 33;

/* A chart with its table, and room for the largest below. */
typedef struct {
    smyrilox_state state;
    size_t ring_len, cells_len, table_len;
    uint8_t ring[8192];
    uint64_t cells[64 * 64];
    uint32_t table[4 * 16 + 2];
} chart;

/* A table filled with 9, two numbers longer than it must be, and a setup with it. */
static uint64_t begin(chart *c, smyrilox_chosen p, smyrilox_ranges ranges) {
    c->ring_len = sizeof c->ring;
    c->cells_len = smyrilox_cells(p.width, p.height).value;
    c->table_len = 4 * smyrilox_tile_count(p.width, p.height).value + 2;
    for (size_t i = 0; i < sizeof c->table / sizeof c->table[0]; i++) {
        c->table[i] = 9;
    }
    smyrilox_started s = smyrilox_setup_with_table(p, ranges, c->ring, c->ring_len, c->cells, c->cells_len, c->table, c->table_len);
    c->state = s.state;
    return s.refusal;
}

static uint64_t step(chart *c, const uint8_t *verdicts, size_t count) {
    smyrilox_stepped t = smyrilox_step_with_table(c->state, c->ring, c->ring_len, c->cells, c->cells_len, c->table, c->table_len, verdicts, count);
    c->state = t.state;
    return t.refusal;
}

static uint64_t fill(const chart *c, uint32_t *table, size_t table_len) {
    return smyrilox_fill_table(c->state, c->cells, c->cells_len, table, table_len);
}

/* ---- document 02's values */

static const uint8_t mixed[4] = {SMYRILOX_UNDECIDED, SMYRILOX_YES, SMYRILOX_NO, SMYRILOX_UNDECIDED};
static const uint8_t none[4] = {SMYRILOX_NO, SMYRILOX_NO, SMYRILOX_NO, SMYRILOX_NO};

/* 20 by 18 pixels are 2 by 2 tiles, of 256, 64, 32 and 8 pixels. The first step cuts all of it into four on level 4: the lower left one waits,
 * the lower right is True, the upper left (2 rows of 16, which lie at the top) False, the upper right waits. */
static void twenty_by_eighteen(void) {
    static const uint32_t begun[18] = {0, 0, 256, 0, 0, 0, 64, 0, 0, 0, 32, 0, 0, 0, 8, 0, 9, 9};
    static const uint32_t first[18] = {0, 32, 224, 0, 56, 0, 8, 0, 0, 0, 32, 0, 8, 0, 0, 0, 9, 9};
    static const uint32_t second[18] = {0, 256, 0, 0, 56, 0, 8, 0, 0, 32, 0, 0, 8, 0, 0, 0, 9, 9};
    static chart c;
    check(begin(&c, chosen(20, 18, 48), whole) == 0 && c.table_len == 18 && memcmp(c.table, begun, sizeof begun) == 0, "the setup fills the table");
    check(step(&c, mixed, 4) == 0 && memcmp(c.table, first, sizeof first) == 0, "the first step, and the numbers beyond stay");

    /* the second takes the lower left block, which touches the tiles 0 and 2: what they held does not matter, and the others stay */
    for (int i = 0; i < 4; i++) {
        c.table[i] = c.table[8 + i] = UINT32_MAX;
    }
    c.table[4] = 7;
    check(step(&c, none, 4) == 0 && c.table[4] == 7, "a tile that is not touched stays as it is");
    c.table[4] = 56;
    check(memcmp(c.table, second, sizeof second) == 0, "the touched tiles are counted anew");

    /* the same two steps as a run */
    static const uint8_t tape[8] = {SMYRILOX_UNDECIDED, SMYRILOX_YES, SMYRILOX_NO, SMYRILOX_UNDECIDED};
    begin(&c, chosen(20, 18, 48), whole);
    smyrilox_ran r = smyrilox_run_with_table(c.state, c.ring, c.ring_len, c.cells, c.cells_len, c.table, c.table_len, tape, 8, 2);
    check(r.refusal == 0 && r.ending == 3 && r.stop == 0 && r.steps == 2 && r.evaluations == 8 && r.tape == 8 && r.state.taken == 2, "a run");
    check(memcmp(c.table, second, sizeof second) == 0, "its table");
    uint32_t filled[18] = {0};
    c.state = r.state;
    check(fill(&c, filled, 18) == 0 && memcmp(filled, second, 16 * sizeof filled[0]) == 0 && filled[16] == 0 && filled[17] == 0, "filled from the cells");
}

/* Places and sides, against document 02's words. */
static void numbers(void) {
    check(SMYRILOX_TABLE == 17 && SMYRILOX_TILE_SIDE == 16 && SMYRILOX_TILE_NUMBERS == 4, "the numbers of the header");
    check(SMYRILOX_TILE_TRUE == 0 && SMYRILOX_TILE_FALSE == 1 && SMYRILOX_TILE_UNCERTAIN == 2 && SMYRILOX_TILE_GIVEN_UP == 3, "their places");
    static const uint32_t sides[][3] = {{1, 1, 1}, {16, 16, 1}, {17, 16, 2}, {16, 33, 3}, {20, 18, 4}, {256, 160, 160}, {32768, 32768, 2048 * 2048}};
    for (size_t i = 0; i < sizeof sides / sizeof sides[0]; i++) {
        smyrilox_number n = smyrilox_tile_count(sides[i][0], sides[i][1]);
        check(n.refusal == 0 && n.value == sides[i][2], "the number of tiles");
    }
    smyrilox_number none_left = smyrilox_tile_count(0, 16), too_far = smyrilox_tile_count(16, 32769);
    check(none_left.refusal == 1 && none_left.value == 0 && too_far.refusal == 1 && too_far.value == 0, "no tiles of no picture");
}

/* A pixel that is given up is counted as uncertain too. */
static void given_up(void) {
    static chart c;
    uint8_t tape[32 * 4] = {SMYRILOX_NO};
    for (size_t i = 0; i < sizeof tape; i += 4) {
        tape[i] = SMYRILOX_UNDECIDED;
    }
    begin(&c, chosen(1, 1, 48), whole);
    smyrilox_ran r = smyrilox_run_with_table(c.state, c.ring, c.ring_len, c.cells, 1, c.table, 4, tape, sizeof tape, 99);
    check(r.ending == 2 && r.steps == 32 && c.cells[0] == GIVEN_UP, "one pixel is given up");
    check(c.table[0] == 0 && c.table[1] == 0 && c.table[2] == 1 && c.table[3] == 1 && c.table[4] == 9, "and counted twice");
}

/* A step without the table leaves it out of date; filled again it is right. */
static void out_of_date(void) {
    static chart c;
    uint32_t before[18];
    begin(&c, chosen(20, 18, 48), whole);
    memcpy(before, c.table, sizeof before);
    c.state = smyrilox_step(c.state, c.ring, c.ring_len, c.cells, c.cells_len, mixed, 4).state;
    check(memcmp(c.table, before, sizeof before) == 0, "a step without the table does not know it");
    check(fill(&c, c.table, 16) == 0 && c.table[1] == 32 && c.table[4] == 56 && c.table[12] == 8 && c.table[16] == 9, "filled again");
}

/* ---- refused by number, with nothing changed */

static chart kept;

/* The call on a chart was refused by this number, and has changed nothing of what `kept` holds. */
static void refused(uint64_t refusal, uint64_t due, const chart *c, const char *what) {
    check(refusal == due, what);
    bool same = memcmp(c->ring, kept.ring, sizeof kept.ring) == 0 && memcmp(c->cells, kept.cells, sizeof kept.cells) == 0;
    check(same && memcmp(c->table, kept.table, sizeof kept.table) == 0, "a refused call leaves ring, cells and table");
}

static void refused_setups(void) {
    static chart c;
    memset(&c, 0xA5, sizeof c);
    kept = c;
    smyrilox_ranges bad = whole;
    bad.m = (smyrilox_interval){2, 1};
    const struct {
        uint64_t due;
        uint32_t width;
        size_t cells, table, ring;
        uint8_t set;
        const char *what;
    } rows[] = {
        {1, 0, 0, 0, 0, 64, "setup: 1 before all"},
        {2, 20, 359, 0, 0, 64, "setup: 2 before 17"},
        {17, 20, 360, 15, 0, 64, "setup: 17 before 3"},
        {17, 20, 360, 0, 64, 48, "setup: 17 with no number"},
        {3, 20, 360, 16, 0, 64, "setup: 3 before 6, for the set"},
        {3, 20, 360, 16, 0, 56, "setup: 3 before 6, for a range"},
        {6, 20, 360, 16, 4, 48, "setup: 6"},
    };
    for (size_t i = 0; i < sizeof rows / sizeof rows[0]; i++) {
        smyrilox_chosen p = chosen(rows[i].width, 18, rows[i].set);
        smyrilox_started s = smyrilox_setup_with_table(p, bad, c.ring, rows[i].ring, c.cells, rows[i].cells, c.table, rows[i].table);
        refused(s.refusal, rows[i].due, &c, rows[i].what);
        check(smyrilox_counts(s.state, c.cells, 360).refusal == 8, "a record that every call refuses");
    }
}

/* Every number of a step, with what comes after it wrong too. */
static void refused_steps(void) {
    static chart c;
    static const uint8_t illegal[4] = {SMYRILOX_UNDECIDED, 0xC0, SMYRILOX_NO, SMYRILOX_NO};
    begin(&c, chosen(20, 18, 48), whole);
    step(&c, mixed, 4);
    kept = c;
    smyrilox_state s = c.state, damaged = s, empty = s;
    damaged.taken = 9;
    empty.taken = empty.queued;
    empty.used = 0;
    const size_t ring = sizeof c.ring;
#define STEP(state, ring_len, cells_len, table_len, verdicts, count) \
    smyrilox_step_with_table(state, c.ring, ring_len, c.cells, cells_len, c.table, table_len, verdicts, count)
    smyrilox_stepped t = STEP(damaged, ring, 0, 0, none, 0);
    refused(t.refusal, 8, &c, "step: 8 for the record before 2");
    check(t.state.taken == 9 && t.evaluations == 0 && t.tape == 0, "the record is handed back");
    refused(STEP(empty, ring, 359, 0, none, 0).refusal, 2, &c, "step: 2 before 17");
    refused(STEP(empty, ring, 360, 15, none, 0).refusal, 17, &c, "step: 17 before 13");
    refused(STEP(empty, ring, 360, 16, none, 0).refusal, 13, &c, "step: 13");
    refused(STEP(s, ring, 360, 16, none, 3).refusal, 4, &c, "step: 4 before 5");
    refused(STEP(s, ring, 360, 16, illegal, 4).refusal, 5, &c, "step: 5");

    /* the front block covers columns 0 to 15 and rows 2 to 17: it touches the tiles 0 and 2, so rows 0 and 1 of these columns too */
    c.cells[0] = NO_CELL;
    kept = c;
    refused(STEP(s, ring, 360, 15, none, 4).refusal, 17, &c, "step: 17 before 8 for the block");
    refused(STEP(s, ring, 360, 16, none, 3).refusal, 8, &c, "step: 8 for a cell that the block does not cover, before 4");
    c.cells[0] = kept.cells[0] = 1;
    c.cells[16] = NO_CELL;
    check(STEP(s, ring, 360, 16, none, 4).refusal == 0, "a damaged cell in a tile that is not touched is not looked at");
    c.cells[16] = kept.cells[16];

    /* 6: the queue stands at the end of a ring that is full */
    static const uint8_t undecided[4] = {SMYRILOX_UNDECIDED, SMYRILOX_UNDECIDED, SMYRILOX_UNDECIDED, SMYRILOX_UNDECIDED};
    smyrilox_started b = smyrilox_setup_with_table(chosen(20, 18, 48), whole, c.ring, 19, c.cells, 360, c.table, 16);
    kept = c;
    t = STEP(b.state, 19, 360, 16, undecided, 4);
    refused(t.refusal, 6, &c, "step: 6");
    check(t.state.taken == 0 && t.state.used == b.state.used, "the record is handed back, by 6 too");
    b.state.taken = UINT32_MAX; /* the block has the last number, so that none is left for its children */
    b.state.queued = (uint64_t)UINT32_MAX + 1;
    refused(STEP(b.state, 19, 360, 16, undecided, 4).refusal, 7, &c, "step: 7 before 6");
#undef STEP
}

static void refused_runs(void) {
    static chart c;
    begin(&c, chosen(20, 18, 48), whole);
    kept = c;
    smyrilox_state damaged = c.state;
    damaged.taken = 9;
    const size_t ring = sizeof c.ring;
#define RUN(state, cells_len, table_len, budget) \
    smyrilox_run_with_table(state, c.ring, ring, c.cells, cells_len, c.table, table_len, none, 4, budget)
    refused(RUN(damaged, 0, 0, 0).refusal, 8, &c, "run: 8 before 2");
    refused(RUN(c.state, 359, 0, 0).refusal, 2, &c, "run: 2 before 17");
    smyrilox_ran r = RUN(c.state, 360, 15, 0);
    refused(r.refusal, 17, &c, "run: 17, also of no steps");
    check(r.ending == 0 && r.stop == 0 && r.steps == 0 && r.tape == 0 && r.state.queued == c.state.queued, "not run");
    r = RUN(c.state, 360, 16, 0);
    refused(r.refusal, 0, &c, "a run of no steps changes nothing");
    check(r.ending == 3 && r.steps == 0, "and says more");
    c.cells[359] = NO_CELL;
    kept = c;
    r = RUN(c.state, 360, 16, 1);
    refused(r.refusal, 0, &c, "a run that is stopped by its first step");
    check(r.ending == 4 && r.stop == 8 && r.steps == 0, "stopped by 8");
#undef RUN
}

static void refused_filling(void) {
    static chart c;
    begin(&c, chosen(20, 18, 48), whole);
    smyrilox_state damaged = c.state;
    damaged.taken = 9;
    c.cells[359] = NO_CELL;
    kept = c;
    refused(smyrilox_fill_table(damaged, c.cells, 0, c.table, 0), 8, &c, "fill: 8 before 2");
    refused(smyrilox_fill_table(c.state, c.cells, 359, c.table, 0), 2, &c, "fill: 2 before 17");
    refused(smyrilox_fill_table(c.state, c.cells, 360, c.table, 15), 17, &c, "fill: 17 before 8 for a cell");
    refused(smyrilox_fill_table(c.state, c.cells, 360, c.table, 16), 8, &c, "fill: 8 for a cell");
}

/* ---- against a recount of the picture */

static uint64_t chance = 20260416;

static uint32_t below(uint32_t n) {
    chance ^= chance << 13;
    chance ^= chance >> 7;
    chance ^= chance << 17;
    return (uint32_t)((chance >> 32) % n);
}

/* The table holds what the picture's bytes and the cells say, pixel by pixel. */
static bool is_recount(const chart *c, const uint32_t *table) {
    static uint8_t picture[64 * 64];
    uint32_t due[4 * 16] = {0}, width = c->state.chosen.width, columns = (width + 15) / 16;
    if (smyrilox_picture(c->state, c->cells, c->cells_len, picture, sizeof picture) != 0) {
        return false;
    }
    for (uint32_t i = 0; i < c->cells_len; i++) {
        uint32_t *tile = due + 4 * (i / width / 16 * columns + i % width / 16);
        tile[picture[i] == SMYRILOX_TRUE ? 0 : picture[i] == SMYRILOX_FALSE ? 1 : 2] += 1;
        tile[3] += c->cells[i] == GIVEN_UP;
    }
    return memcmp(table, due, (c->table_len - 2) * sizeof due[0]) == 0;
}

/* Verdicts for the next step. Where a chart is to go deep, the first part of a pixel stays undecided and few others do. */
static size_t some_verdicts(const chart *c, bool deep, uint8_t *verdicts) {
    static const uint8_t above[6] = {0x40, 0x40, 0x40, 0x40, 0x00, 0x80}, under[4] = {0x40, 0x60, 0x00, 0x61};
    smyrilox_listed l = smyrilox_children(c->state, c->ring, c->ring_len);
    for (size_t i = 0; i < l.count; i++) {
        bool in_a_pixel = l.at[i].x.level < 0;
        verdicts[i] = !in_a_pixel ? above[below(6)] : !deep ? under[below(4)] : i == 0 ? 0x40 : below(60) == 0 ? 0xA0 : 0x00;
    }
    return l.count;
}

static void random_charts(void) {
    static chart c;
    uint64_t steps = 0, ups = 0;
    for (int round = 0; round < 150; round++) {
        bool mix = round % 3 == 0, deep = round % 5 == 0;
        smyrilox_ranges ranges = whole;
        ranges.m = (smyrilox_interval){0, 3};
        uint32_t most = deep ? 3 : 48;
        check(begin(&c, chosen(1 + below(most), 1 + below(most), mix ? 56 : 48), ranges) == 0, "a setup");
        check(is_recount(&c, c.table), "the table of a setup is a recount");
        for (int n = 0; n < (deep ? 300 : 40) && c.state.taken < c.state.queued; n++, steps++) {
            uint8_t verdicts[4];
            size_t count = some_verdicts(&c, deep, verdicts);
            if (step(&c, verdicts, count) != 0) {
                break;
            }
            check(is_recount(&c, c.table), "the table after a step is a recount");
        }
        uint32_t filled[4 * 16 + 2];
        memset(filled, 0xA5, sizeof filled);
        check(fill(&c, filled, c.table_len) == 0 && is_recount(&c, filled), "a filled table is a recount");
        check(filled[c.table_len - 2] == 0xA5A5A5A5 && filled[c.table_len - 1] == 0xA5A5A5A5, "and no number beyond is touched");
        check(c.table[c.table_len - 2] == 9 && c.table[c.table_len - 1] == 9, "by a step neither");
        ups += smyrilox_counts(c.state, c.cells, c.cells_len).counts.givenup;
    }
    check(steps > 3000 && ups > 0, "many steps, and pixels given up among them");
}

int main(void) {
    twenty_by_eighteen();
    numbers();
    given_up();
    out_of_date();
    refused_setups();
    refused_steps();
    refused_runs();
    refused_filling();
    random_charts();
    printf(failures == 0 ? "c: tables as they should be\n" : "c: tables: failed\n");
    return failures != 0;
}
