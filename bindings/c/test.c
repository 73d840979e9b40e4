/* The library called from C: document 01's values, refusals, memory that a refused call leaves alone, and records in which every field
 * differs from its neighbours. All expected numbers were worked out by hand from document 01 and are written as numbers, so that a
 * constant or a field of the header that has moved is noticed. */
#define SUBJECT ""
#include "check.h"
#include <string.h>
#include <xmmintrin.h>

static bool is(smyrilox_interval x, double lower, double upper) {
    return x.lower == lower && x.upper == upper;
}

static bool at(smyrilox_coordinate c, uint64_t index, int32_t level) {
    return c.index == index && c.level == level;
}

/* ---- document 01's values */

/* The sample sheet: two pixels, one step, one True and one False. The picture is filled with Uncertain first, as every picture should be. */
static void sample(void) {
    uint8_t ring[64], picture[3];
    uint64_t cells[2];
    const uint8_t tape[] = {SMYRILOX_YES, SMYRILOX_NO};
    memset(picture, SMYRILOX_UNCERTAIN, sizeof picture);
    smyrilox_started s = smyrilox_setup(chosen(2, 1, SMYRILOX_X | SMYRILOX_Y), whole, ring, sizeof ring, cells, 2);
    check(s.refusal == 0, "the setup is accepted");
    smyrilox_ran r = smyrilox_run(s.state, ring, sizeof ring, cells, 2, tape, sizeof tape, 5);
    check(r.refusal == 0 && r.ending == 1 && r.steps == 1 && r.evaluations == 2 && r.tape == 2, "the run is done after one step");
    check(smyrilox_picture(r.state, cells, 2, picture, 1) == 12, "a buffer of one byte is too short");
    check(picture[0] == 1 && picture[1] == 1 && picture[2] == 1, "a refused picture has drawn nothing");
    check(smyrilox_picture(r.state, cells, 2, picture, sizeof picture) == 0, "the picture is drawn");
    check(picture[0] == 2 && picture[1] == 0 && picture[2] == 1, "True, False, and the byte beyond stays");
}

/* The front block's children, a step, and its bytes; sides, ring and cells are told apart, and what lies beyond stays. */
static void five_by_three(void) {
    static const uint8_t queue[] = {1, 3, 1, 3, 0, 1, 2, 1, 2, 0, 3, 2, 1, 2, 0};
    static const uint8_t verdicts[] = {SMYRILOX_UNDECIDED, SMYRILOX_UNDECIDED};
    uint8_t ring[65];
    uint64_t cells[16];
    memset(ring, 0xA5, sizeof ring);
    cells[15] = 7;
    smyrilox_started s = smyrilox_setup(chosen(5, 3, 48), whole, ring, 64, cells, 15);
    smyrilox_listed l = smyrilox_children(s.state, ring, 64);
    check(l.refusal == 0 && l.count == 2, "two children");
    check(at(l.at[0].x, 0, 2) && at(l.at[0].y, 0, 2) && at(l.at[1].x, 1, 2) && at(l.at[1].y, 0, 2), "side by side on level 2");
    smyrilox_stepped t = smyrilox_step(s.state, ring, 64, cells, 15, verdicts, 2);
    check(t.refusal == 0 && t.evaluations == 2 && t.tape == 2, "the step is finished");
    check(memcmp(ring, queue, 15) == 0 && ring[15] == 0xA5 && ring[64] == 0xA5, "the queue's bytes");
    for (int i = 0; i < 15; i++) {
        check(cells[i] == (i % 5 < 4 ? 1 : 2), "four columns name 1, the last names 2");
    }
    check(cells[15] == 7, "a spare cell stays");
}

/* ---- records in which every field differs from its neighbours */

/* The record of the chart below after so many steps: `front` is the block taken last, `back` the one queued last. */
static void check_record(smyrilox_state s, uint64_t taken, uint64_t queued, size_t head, size_t used, const char *what) {
    smyrilox_chosen c = s.chosen;
    check(c.width == 7 && c.height == 5 && c.set == 61 && c.reserved1 == 0 && c.reserved2 == 0 && c.reserved3 == 0, what);
    check(s.taken == taken && s.queued == queued && s.len == 2000 && s.head == head && s.used == used, what);
}

static bool remembers(smyrilox_last l, uint64_t x, uint64_t y) {
    return l.x == x && l.y == y && is(l.m, 2, 9) && is(l.n, 10, 15) && is(l.theta, -INFINITE, INFINITE) && is(l.t, 0.5, 0.75);
}

/* 7 by 5 pixels; x, y, m in [2,9], n in [10,15] and t in [0.5,0.75] are used; theta is not, and its range, which is not legal, is not
 * looked at. The first cuts give 3 * 3 * 3 = 27 blocks, t changing fastest. Each takes 5 bytes, and for each parameter 16 where it differs
 * from the block before and 2 where not: 27 * 5 + (3 * 16 + 24 * 2) + (9 * 16 + 18 * 2) + 27 * 16 = 843. */
static void parameters(void) {
    static const smyrilox_ranges ranges = {{2, 9}, {10, 15}, {1, -1}, {0.5, 0.75}};
    uint8_t ring[2000], tape[112];
    uint64_t cells[35];
    smyrilox_chosen c = {.width = 7, .height = 5, .set = 61, .reserved1 = 1, .reserved2 = 2, .reserved3 = 3};
    smyrilox_number least = smyrilox_least_ring(c, ranges);
    check(least.refusal == 0 && least.value == 843, "the least ring of 27 blocks");
    smyrilox_started s = smyrilox_setup(c, ranges, ring, sizeof ring, cells, 35);
    check_record(s.state, 0, 27, 0, 843, "the record of the setup");
    smyrilox_last b = s.state.back;
    check(is(b.m, 9, 9) && is(b.n, 15, 15) && is(b.theta, -INFINITE, INFINITE) && is(b.t, 0.75, 0.75), "the last block of the setup");

    /* 27 steps of four verdicts. The first block says yes of its first quarter, which is skipped in the 26 others; the 14th, which has the
     * open ranges, leaves its second quarter (1, 0), level 2, undecided: 2 + 2 + 3 * 16 + 1 = 53 bytes. That one, taken in step 28,
     * leaves (2, 1) and (3, 1), level 1: two codes of 2 + 2 + 3 * 2 + 1 = 11 bytes, which go on with m. */
    memset(tape, SMYRILOX_NO, sizeof tape);
    tape[0] = SMYRILOX_YES;
    tape[13 * 4 + 1] = SMYRILOX_UNDECIDED;
    tape[110] = tape[111] = SMYRILOX_UNDECIDED;
    smyrilox_ran r = smyrilox_run(s.state, ring, sizeof ring, cells, 35, tape, sizeof tape, 28);
    check(r.refusal == 0 && r.ending == 3 && r.stop == 0 && r.steps == 28 && r.evaluations == 112 - 26 && r.tape == 112, "28 steps");
    check_record(r.state, 28, 30, 843 + 53, 22, "the record after 28 steps");
    check(remembers(r.state.front, 1, 0) && remembers(r.state.back, 3, 1), "the blocks taken and queued last");

    /* m is cut at 6, the whole number above 5.5. */
    smyrilox_listed l = smyrilox_children(r.state, ring, sizeof ring);
    check(l.refusal == 0 && l.count == 3 && is(l.at[0].m, 2, 6) && is(l.at[1].m, 6, 6) && is(l.at[2].m, 6, 9), "three parts of m");
    smyrilox_child d = l.at[2];
    check(at(d.x, 2, 1) && at(d.y, 1, 1) && is(d.n, 10, 15) && is(d.theta, -INFINITE, INFINITE) && is(d.t, 0.5, 0.75), "the third child");

    /* The second child marks the pixels of all three, so that the third is skipped. */
    static const uint8_t verdicts[] = {SMYRILOX_NO, SMYRILOX_YES, SMYRILOX_UNDECIDED};
    smyrilox_stepped t = smyrilox_step(r.state, ring, sizeof ring, cells, 35, verdicts, 3);
    check(t.refusal == 0 && t.evaluations == 2 && t.tape == 3, "two evaluations, three verdicts");
    check_record(t.state, 29, 30, 843 + 53 + 11, 11, "the record after 29 steps");
    check(remembers(t.state.front, 2, 1) && remembers(t.state.back, 3, 1), "the blocks taken and queued last, a step on");
}

/* Setup made the reserved bytes 0, above; behind it nothing looks at them, and a step carries them on. */
static void reserved(void) {
    static const uint8_t undecided[2] = {SMYRILOX_UNDECIDED, SMYRILOX_UNDECIDED};
    uint8_t ring[64];
    uint64_t cells[2];
    smyrilox_state s = smyrilox_setup(chosen(2, 1, 48), whole, ring, sizeof ring, cells, 2).state;
    s.chosen.reserved1 = 1;
    s.chosen.reserved2 = 2;
    s.chosen.reserved3 = 3;
    smyrilox_stepped t = smyrilox_step(s, ring, sizeof ring, cells, 2, undecided, 2);
    check(t.refusal == 0 && t.state.taken == 1 && t.state.queued == 3, "a record with reserved bytes is taken");
    smyrilox_chosen c = t.state.chosen;
    check(c.set == 48 && c.reserved1 == 1 && c.reserved2 == 2 && c.reserved3 == 3, "and they are carried on");
}

/* Each range reaches its own parameter. There is no x or y, so the first block is asked along m: [2,2] cut gives itself three times. */
static void all_parameters(void) {
    static const smyrilox_ranges ranges = {{2, 2}, {3, 3}, {4, 4}, {5, 6}};
    uint8_t ring[256];
    uint64_t cells[6];
    smyrilox_started s = smyrilox_setup(chosen(3, 2, 15), ranges, ring, sizeof ring, cells, 6);
    smyrilox_listed l = smyrilox_children(s.state, ring, sizeof ring);
    check(l.refusal == 0 && l.count == 3, "three children along m");
    smyrilox_child c = l.at[1];
    check(at(c.x, 0, 2) && is(c.m, 2, 2) && is(c.n, 3, 3) && is(c.theta, 4, 4) && is(c.t, 5, 5), "each parameter in its place");
}

/* 5 by 4 pixels. Five steps decide all but three; then these three, a block each, take turns and leave their first quarter undecided. The
 * 32nd turn of each comes to the lowest level: with steps 99 and 100 two pixels are given up, and the third waits for step 101. */
static void counted(void) {
    static const uint8_t first[] = {0x40, 0x40, 0x80, 0x40, 0x00, 0x00, 0x40, 0x80, 0x40, 0x00, 0x00, 0x00, 0x40, 0x40};
    static const uint8_t last[] = {0x60, 0x00, 0x00, 0x00};
    static const uint8_t rows[] = {0, 0, 0, 0, 2, 0, 0, 0, 0, 2, 2, 2, 0, 0, 1, 2, 2, 1, 0, 1};
    uint8_t ring[64], tape[14 + 95 * 4] = {SMYRILOX_NO}, picture[20];
    uint64_t cells[20];
    memcpy(tape, first, sizeof first);
    for (size_t i = sizeof first; i < sizeof tape; i += 4) {
        tape[i] = SMYRILOX_UNDECIDED;
    }
    tape[14] |= SMYRILOX_AREA; /* no point shows a solution: five more evaluations */
    smyrilox_started s = smyrilox_setup(chosen(5, 4, 48), whole, ring, sizeof ring, cells, 20);
    smyrilox_ran r = smyrilox_run(s.state, ring, sizeof ring, cells, 20, tape, sizeof tape, 100);
    check(r.refusal == 0 && r.ending == 3 && r.stop == 0 && r.steps == 100 && r.evaluations == 399 && r.tape == 394, "more");
    smyrilox_counted c = smyrilox_counts(r.state, cells, 20);
    check(c.refusal == 0 && c.counts.trues == 6 && c.counts.falses == 11 && c.counts.uncertain == 3, "pixels by reading");
    check(c.counts.givenup == 2 && c.counts.queued == 1 && c.counts.share == 850, "given up, queued, 17 of 20 settled");
    memset(picture, 9, sizeof picture);
    check(smyrilox_picture(r.state, cells, 20, picture, 20) == 0 && memcmp(picture, rows, 20) == 0, "the rows from the top");
    r = smyrilox_run(r.state, ring, sizeof ring, cells, 20, last, 4, 9);
    check(r.refusal == 0 && r.ending == 2 && r.stop == 0 && r.steps == 1 && r.evaluations == 9 && r.tape == 4, "limit");
    c = smyrilox_counts(r.state, cells, 20);
    check(c.counts.givenup == 3 && c.counts.queued == 0, "the third is given up too");
}

/* 64 by 64 pixels. Six steps mark all but the top row's last, which then waits; 31 more cut its last quarter on, and the last byte is that of
 * its part on the lowest level. Waiting or given up the pixel is not settled, and the share, rounded down, is not 1000. */
static void all_but_one(uint8_t last, uint64_t ending, uint64_t givenup, uint64_t share) {
    static uint64_t cells[4096];
    uint8_t ring[64], tape[38 * 4] = {SMYRILOX_NO};
    memset(tape, SMYRILOX_YES, 6 * 4);
    for (size_t i = 3; i < sizeof tape; i += 4) {
        tape[i] = SMYRILOX_UNDECIDED;
    }
    tape[sizeof tape - 1] = last;
    smyrilox_started s = smyrilox_setup(chosen(64, 64, 48), whole, ring, sizeof ring, cells, 4096);
    smyrilox_ran r = smyrilox_run(s.state, ring, sizeof ring, cells, 4096, tape, sizeof tape, 6);
    smyrilox_counted c = smyrilox_counts(r.state, cells, 4096);
    check(r.ending == 3 && c.counts.trues == 4095 && c.counts.uncertain == 1 && c.counts.queued == 1, "one pixel waits");
    check(c.counts.share == 999, "4095 of 4096 settled");
    r = smyrilox_run(r.state, ring, sizeof ring, cells, 4096, tape + 24, sizeof tape - 24, 99);
    c = smyrilox_counts(r.state, cells, 4096);
    check(r.ending == ending && r.steps == 32 && c.counts.queued == 0, "the chart is finished");
    check(c.counts.givenup == givenup && c.counts.uncertain == givenup && c.counts.share == share, "1000 only if none is given up");
}

/* A run of two pixels: done, and stopped by a number. */
static void endings(void) {
    /* the first pixel's first quarter holds a solution at the simple fraction, the first of its points: 2, and the others are skipped */
    static const uint8_t done[] = {0x40, 0x80, SMYRILOX_UNDECIDED | SMYRILOX_AREA | SMYRILOX_AT_SIMPLE_FRACTION, 0, 0, 0};
    static const uint8_t stop[] = {0x40, 0x40, 0x60, 0x00, 0x40, 0xA0, 0x40, 0x41, 0x00, 0x00};
    uint8_t ring[64];
    uint64_t cells[2];
    smyrilox_started s = smyrilox_setup(chosen(2, 1, 48), whole, ring, sizeof ring, cells, 2);
    smyrilox_ran r = smyrilox_run(s.state, ring, sizeof ring, cells, 2, done, sizeof done, 7);
    check(r.refusal == 0 && r.ending == 1 && r.stop == 0 && r.steps == 2 && r.evaluations == 4 && r.tape == 6, "done");
    s = smyrilox_setup(chosen(2, 1, 48), whole, ring, sizeof ring, cells, 2);
    r = smyrilox_run(s.state, ring, sizeof ring, cells, 2, stop, sizeof stop, 7);
    check(r.refusal == 0 && r.ending == 4 && r.stop == 5 && r.steps == 2 && r.evaluations == 11 && r.tape == 6, "stop");
    s.state.taken = 9;
    r = smyrilox_run(s.state, ring, sizeof ring, cells, 2, stop, sizeof stop, 7);
    check(r.refusal == 8 && r.ending == 0 && r.stop == 0 && r.steps == 0 && r.evaluations == 0 && r.tape == 0, "not run");
}

/* Each point of a quarter by its name: the place of the first is what it costs, beside the evaluation itself. */
static void points(void) {
    static const uint8_t at_point[] = {SMYRILOX_AT_SIMPLE_FRACTION, SMYRILOX_AT_BOTTOM_LEFT, SMYRILOX_AT_BOTTOM_RIGHT,
                                       SMYRILOX_AT_TOP_LEFT, SMYRILOX_AT_TOP_RIGHT};
    for (int i = 0; i < 5; i++) {
        uint8_t ring[64], verdicts[4] = {0, 0, 0, (uint8_t)(SMYRILOX_UNDECIDED | SMYRILOX_AREA | at_point[i])};
        uint64_t cell;
        smyrilox_started s = smyrilox_setup(chosen(1, 1, 48), whole, ring, sizeof ring, &cell, 1);
        smyrilox_stepped t = smyrilox_step(s.state, ring, sizeof ring, &cell, 1, verdicts, 4);
        check(t.refusal == 0 && t.evaluations == (uint64_t)(3 + 1 + i + 1) && t.tape == 4 && t.state.queued == 1, "a point found");
        check(smyrilox_counts(t.state, &cell, 1).counts.trues == 1, "its pixel is True");
    }
}

/* ---- the leaves */

static void leaves(void) {
    static const uint8_t code[] = {0x04, 0x00, 0x02, 0xFF};
    smyrilox_interval x = {1, 4}, u = {0, 1};
    check(smyrilox_midpoint(x).refusal == 0 && smyrilox_midpoint(x).value == 2.5, "midpoint");
    check(smyrilox_simple_fraction((smyrilox_interval){0.3, 0.4}).value == 0.375, "simple fraction");
    check(smyrilox_subdivision_point(x, true).value == 3 && smyrilox_subdivision_point(x, false).value == 2.5, "where to cut");
    check(smyrilox_is_subdivisible(u, true).value == 0 && smyrilox_is_subdivisible(u, false).value == 1, "whether to cut");
    smyrilox_pieces f = smyrilox_first_cut(x, true), l = smyrilox_later_cut(x, false);
    check(f.refusal == 0 && f.count == 3 && is(f.at[0], 1, 1) && is(f.at[1], 1, 4) && is(f.at[2], 4, 4), "first cut");
    check(l.refusal == 0 && l.count == 3 && is(l.at[0], 1, 2.5) && is(l.at[1], 2.5, 2.5) && is(l.at[2], 2.5, 4), "later cut");
    smyrilox_pieces i = smyrilox_later_cut((smyrilox_interval){0, 3}, true);
    check(i.count == 2 && is(i.at[0], 1, 1) && is(i.at[1], 2, 2) && is(i.at[2], -INFINITE, INFINITE), "later cut of an integer");
    smyrilox_code w = smyrilox_write_small(16384);
    check(w.refusal == 0 && w.head == 0x04 && w.tail == 0x0200 && w.count == 2, "a number's code");
    smyrilox_read n = smyrilox_read_small(code, sizeof code);
    check(n.refusal == 0 && n.value == 16384 && n.count == 3, "and back");
    check(smyrilox_pixel_index((smyrilox_coordinate){5, 3}).value == 40, "pixel");
    smyrilox_halved h = smyrilox_halves((smyrilox_coordinate){5, 3});
    check(h.refusal == 0 && at(h.low, 10, 2) && at(h.high, 11, 2), "halves");
    check(smyrilox_is_halvable((smyrilox_coordinate){5, -31}).value == 1, "a level below");
    check(smyrilox_is_halvable((smyrilox_coordinate){5, -32}).value == 0, "no level below");
    check(smyrilox_midpoint((smyrilox_interval){2, 1}).refusal == 3, "an interval upside down");
    check(smyrilox_halves((smyrilox_coordinate){0, -32}).refusal == 8, "no halves on the lowest level");
    check(smyrilox_write_small((uint64_t)1 << 56).refusal == 9, "a number without a code");
    check(smyrilox_read_small(code, 2).refusal == 10 && smyrilox_read_small(code + 1, 2).refusal == 11, "no codes");
}

/* ---- refused by number, with nothing changed */

static void refusals(void) {
    uint8_t ring[64], before[64];
    uint64_t cells[4] = {7, 7, 7, 7};
    memset(ring, 0xA5, sizeof ring);
    memcpy(before, ring, sizeof ring);
    check(smyrilox_setup(chosen(0, 2, 48), whole, ring, sizeof ring, cells, 4).refusal == 1, "a side of 0");
    check(smyrilox_setup(chosen(2, 2, 48), whole, ring, sizeof ring, cells, 3).refusal == 2, "too few cells");
    check(smyrilox_setup(chosen(2, 2, 64), whole, ring, sizeof ring, cells, 4).refusal == 3, "a set over 63");
    check(smyrilox_setup(chosen(2, 2, 48), whole, ring, 4, cells, 4).refusal == 6, "a ring of four bytes");
    check(memcmp(ring, before, sizeof ring) == 0 && cells[0] == 7 && cells[3] == 7, "nothing changed");
    smyrilox_started s = smyrilox_setup(chosen(2, 2, 48), whole, ring, sizeof ring, cells, 4);
    check(smyrilox_step(s.state, ring, sizeof ring, cells, 4, before, 3).refusal == 4, "three verdicts for four children");
    check(smyrilox_step(s.state, ring, sizeof ring, cells, 4, before, 4).refusal == 5, "no verdicts");
    smyrilox_state damaged = s.state;
    damaged.taken = 9;
    smyrilox_stepped t = smyrilox_step(damaged, ring, sizeof ring, cells, 4, before, 0);
    check(t.refusal == 8 && t.state.taken == 9 && t.evaluations == 0 && t.tape == 0, "a damaged record is handed back");
    check(smyrilox_counts(damaged, cells, 4).refusal == 8 && smyrilox_children(damaged, ring, sizeof ring).refusal == 8, "and not read");
    static const uint8_t no[4] = {SMYRILOX_NO, SMYRILOX_NO, SMYRILOX_NO, SMYRILOX_NO};
    t = smyrilox_step(s.state, ring, sizeof ring, cells, 4, no, 4);
    check(smyrilox_step(t.state, ring, sizeof ring, cells, 4, no, 4).refusal == 13, "an empty queue");
}

/* Cells and the least ring, which is enough and no larger than it must be. */
static void sizes(void) {
    uint8_t ring[63];
    uint64_t cell;
    smyrilox_ranges r = whole;
    r.m = (smyrilox_interval){0, 3};
    smyrilox_number n = smyrilox_least_ring(chosen(1, 1, SMYRILOX_M), r), c = smyrilox_cells(48, 32);
    check(c.refusal == 0 && c.value == 1536 && n.refusal == 0 && n.value == 63, "cells and ring");
    check(smyrilox_cells(48, 0).refusal == 1 && smyrilox_cells(48, 0).value == 0, "no cells for a side of 0");
    check(smyrilox_setup(chosen(1, 1, SMYRILOX_M), r, ring, 63, &cell, 1).refusal == 0, "the least ring is enough");
    check(smyrilox_setup(chosen(1, 1, SMYRILOX_M), r, ring, 62, &cell, 1).refusal == 6, "a byte less is not");
}

/* The ring that is enough for some steps: the setup's bytes, and for each step 27 bytes, or 50 + 18 u with u parameters. */
static void enough(void) {
    smyrilox_ranges r = whole;
    r.m = (smyrilox_interval){0, 3};
    smyrilox_number none = smyrilox_enough_ring(chosen(256, 160, 48), whole, 700), one = smyrilox_enough_ring(chosen(1, 1, SMYRILOX_M), r, 700);
    check(none.refusal == 0 && none.value == 5 + 700 * 27 && one.refusal == 0 && one.value == 63 + 700 * 68, "enough for 700 steps");
    check(smyrilox_enough_ring(chosen(1, 1, 48), whole, UINT32_MAX).value == 5 + 27 * (uint64_t)UINT32_MAX, "more than 32 bits");
    check(smyrilox_enough_ring(chosen(0, 1, 64), whole, 1).refusal == 1 && smyrilox_enough_ring(chosen(0, 1, 64), whole, 1).value == 0, "a side");
    check(smyrilox_enough_ring(chosen(1, 1, 64), whole, 1).refusal == 3, "a set over 63");
}

/* A queue around the end of its ring is moved to the front of another: 35 bytes from byte 10 on in a ring of 41. */
static void move(void) {
    static const uint8_t undecided[4] = {0x40, 0x40, 0x40, 0x40};
    uint8_t ring[41], old[41], other[64];
    uint64_t cells[16];
    smyrilox_state s = smyrilox_setup(chosen(4, 4, 48), whole, ring, sizeof ring, cells, 16).state;
    s = smyrilox_step(s, ring, sizeof ring, cells, 16, undecided, 4).state;
    s = smyrilox_step(s, ring, sizeof ring, cells, 16, undecided, 4).state;
    check(s.len == 41 && s.head == 10 && s.used == 35 && s.taken == 2 && s.queued == 9, "a queue around the end");
    check(smyrilox_step(s, ring, sizeof ring, cells, 16, undecided, 4).refusal == 6, "a step without room");
    memset(other, 0xA5, sizeof other);
    memcpy(old, ring, sizeof ring);
    smyrilox_moved m = smyrilox_move_queue(s, ring, sizeof ring, other, 34);
    check(m.refusal == 6 && memcmp(&m.state, &s, sizeof s) == 0 && other[0] == 0xA5, "34 bytes are too few");
    m = smyrilox_move_queue(s, ring, 40, other, sizeof other);
    check(m.refusal == 8 && memcmp(&m.state, &s, sizeof s) == 0 && other[0] == 0xA5, "a ring of another length");
    m = smyrilox_move_queue(s, ring, sizeof ring, other, sizeof other);
    check(m.refusal == 0 && m.state.len == 64 && m.state.head == 0 && m.state.used == 35, "the moved record");
    check(m.state.taken == 2 && m.state.queued == 9 && memcmp(&m.state.front, &s.front, sizeof s.front) == 0, "but for the ring the same");
    check(memcmp(other, ring + 10, 31) == 0 && memcmp(other + 31, ring, 4) == 0 && other[35] == 0xA5, "the queue's bytes, and no other");
    check(memcmp(old, ring, sizeof ring) == 0, "the old ring stays");
    smyrilox_stepped t = smyrilox_step(m.state, other, sizeof other, cells, 16, undecided, 4);
    check(t.refusal == 0 && t.state.taken == 3 && t.state.queued == 13 && t.state.used == 50, "and the step has room");
}

/* The header's own numbers, against document 01's. */
static void constants(void) {
    static const int refusal[] = {SMYRILOX_OK, SMYRILOX_SIDE, SMYRILOX_CELLS, SMYRILOX_PARAMETER, SMYRILOX_VERDICTS, SMYRILOX_VERDICT,
                                  SMYRILOX_ROOM, SMYRILOX_NUMBERS, SMYRILOX_DAMAGED, SMYRILOX_TOO_LARGE, SMYRILOX_ENDS_EARLY,
                                  SMYRILOX_HEAD_ZERO, SMYRILOX_PICTURE, SMYRILOX_EMPTY};
    for (int i = 0; i < 14; i++) {
        check(refusal[i] == i, "the numbers of refusal");
    }
    check(SMYRILOX_X == 32 && SMYRILOX_Y == 16 && SMYRILOX_M == 8 && SMYRILOX_N == 4 && SMYRILOX_THETA == 2 && SMYRILOX_T == 1, "the set");
    check(SMYRILOX_NOT_RUN == 0 && SMYRILOX_DONE == 1 && SMYRILOX_LIMIT == 2 && SMYRILOX_MORE == 3 && SMYRILOX_STOP == 4, "endings");
    check(SMYRILOX_FALSE == 0 && SMYRILOX_UNCERTAIN == 1 && SMYRILOX_TRUE == 2, "the bytes of a picture");
    check(SMYRILOX_NO == 0x00 && SMYRILOX_UNDECIDED == 0x40 && SMYRILOX_YES == 0x80 && SMYRILOX_AREA == 0x20, "verdicts");
}

/* The flags of floating point, on which a caller may have set traps: bounds that are infinite are no invalid operation, and children that need no piece of
 * their range make none, so that nothing overflows. */
static void flags(void) {
    const smyrilox_interval line = WHOLE, half = {1, INFINITE};
    smyrilox_ranges ranges = whole;
    uint8_t ring[256];
    uint64_t cells[9];
    const uint8_t no[3] = {SMYRILOX_NO, SMYRILOX_NO, SMYRILOX_NO};
    ranges.t = (smyrilox_interval){-1e308, 0.5};
    smyrilox_started begun = smyrilox_setup(chosen(3, 3, SMYRILOX_T), ranges, ring, sizeof ring, cells, 9);
    check(begun.refusal == 0, "a range that overflows begins");
    _mm_setcsr(_mm_getcsr() & ~(unsigned)_MM_EXCEPT_MASK);
    check(smyrilox_midpoint(line).value == 0 && smyrilox_later_cut(half, false).count == 3, "lines without an end");
    check(smyrilox_first_cut(half, true).refusal == 0 && smyrilox_is_subdivisible(line, false).value == 1, "lines without an end, cut");
    check(smyrilox_step(begun.state, ring, sizeof ring, cells, 9, no, 3).refusal == 0, "a range that overflows, one step on");
    check((_mm_getcsr() & (_MM_EXCEPT_INVALID | _MM_EXCEPT_OVERFLOW)) == 0, "no flag of an invalid operation or an overflow");
}

int main(void) {
    sample();
    five_by_three();
    parameters();
    reserved();
    all_parameters();
    counted();
    all_but_one(SMYRILOX_UNDECIDED, 2, 1, 999);
    all_but_one(SMYRILOX_YES | SMYRILOX_AREA, 1, 0, 1000);
    endings();
    points();
    leaves();
    refusals();
    sizes();
    enough();
    move();
    constants();
    flags();
    printf(failures == 0 ? "c: all as it should be\n" : "c: failed\n");
    return failures != 0;
}
