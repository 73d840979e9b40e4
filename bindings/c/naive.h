/* The explainer once more, for the tests: the plain calls of the engine, with a log of what happened to the pixel and a list of the blocks
 * queued, both kept by the words of documents 01 and 02 alone. */
#ifndef SMYRILOX_NAIVE_H
#define SMYRILOX_NAIVE_H

#include "smyrilox.h"
#include <stdlib.h>
#include <string.h>

/* A step and a child in it, both from 1; what marked it, if it is a mark. */
typedef struct {
    uint64_t step, child, point;
} naive_moment;

typedef struct {
    smyrilox_child child;
    uint64_t direction;
} naive_block;

/* All blocks ever queued, by number, and what happened to the pixel last. */
typedef struct {
    smyrilox_chosen chosen;
    uint32_t column, row;
    naive_block *blocks;
    uint64_t count;
    naive_moment mark, denial, up;
} naive_log;

/* The parameters in order, and which of them are integer. */
static const uint8_t naive_bits[4] = {SMYRILOX_M, SMYRILOX_N, SMYRILOX_THETA, SMYRILOX_T};

static smyrilox_interval *naive_parameter(smyrilox_child *b, int i) {
    return i == 0 ? &b->m : i == 1 ? &b->n : i == 2 ? &b->theta : &b->t;
}

/* The pixels of a square along one side: the first, and the one behind the last. */
static uint64_t naive_first(smyrilox_coordinate c) {
    return c.level < 0 ? c.index >> -c.level : c.index << c.level;
}

static uint64_t naive_behind(smyrilox_coordinate c) {
    return c.level < 0 ? (c.index >> -c.level) + 1 : (c.index + 1) << c.level;
}

static bool naive_covers(const naive_log *l, const smyrilox_child *b, uint64_t column, uint64_t row) {
    uint64_t y = l->chosen.height - 1 - row;
    return naive_first(b->x) <= column && column < naive_behind(b->x) && naive_first(b->y) <= y && y < naive_behind(b->y);
}

/* Whether every pixel of a child is True, in cells of which some were marked in this step. */
static bool naive_all_true(const naive_log *l, const smyrilox_child *b, const uint64_t *cells, uint64_t *places, bool mark) {
    bool all = true;
    for (uint64_t row = 0; row < l->chosen.height; row++) {
        for (uint64_t column = 0; column < l->chosen.width; column++) {
            uint64_t at = row * l->chosen.width + column;
            if (naive_covers(l, b, column, row)) {
                all = all && (cells[at] == (uint64_t)1 << 32 || places[at]);
                places[at] = places[at] || mark;
            }
        }
    }
    return all;
}

/* A child's direction if the search begins at this place among those in use, or -1. */
static int naive_direction(uint8_t set, smyrilox_child *b, uint64_t from) {
    int kinds[5], count = 0;
    if (set & (SMYRILOX_X | SMYRILOX_Y)) {
        kinds[count++] = 4;
    }
    for (int i = 0; i < 4; i++) {
        if (set & naive_bits[i]) {
            kinds[count++] = i;
        }
    }
    for (int i = 0; i < count; i++) {
        int at = (int)((from + (uint64_t)i) % (uint64_t)count), kind = kinds[at];
        if (kind == 4 ? b->x.level > -32 : smyrilox_is_subdivisible(*naive_parameter(b, kind), kind != 3).value == 1) {
            return at;
        }
    }
    return -1;
}

/* What a verdict makes of a child: 0 skipped, 1 answered false, 2 incomplete, 3 and a point marked. */
static uint64_t naive_outcome(const smyrilox_child *b, uint8_t verdict, bool all) {
    if (all) {
        return 0;
    }
    if (verdict >> 6 == 0) {
        return 1;
    }
    if (verdict >> 6 == 2) {
        return b->x.level >= 0 || verdict & SMYRILOX_AREA ? 3 : 2;
    }
    for (uint64_t point = 1; point <= 5; point++) {
        if (verdict & 0x20 >> point) {
            return 3 + point;
        }
    }
    return 2;
}

static void naive_queue(naive_log *l, smyrilox_child child, uint64_t direction) {
    l->blocks = realloc(l->blocks, (l->count + 1) * sizeof l->blocks[0]);
    l->blocks[l->count++] = (naive_block){child, direction};
}

/* The blocks of a setup: the one that covers the picture, cut first in each used parameter. */
static void naive_begin(naive_log *l, smyrilox_ranges ranges) {
    const smyrilox_interval whole = {-1.0 / 0.0, 1.0 / 0.0}, given[4] = {ranges.m, ranges.n, ranges.theta, ranges.t};
    uint32_t longer = l->chosen.width < l->chosen.height ? l->chosen.height : l->chosen.width;
    int32_t level = 0;
    while ((uint32_t)1 << level < longer) {
        level += 1;
    }
    naive_queue(l, (smyrilox_child){{0, level}, {0, level}, whole, whole, whole, whole}, 0);
    for (int i = 0; i < 4; i++) {
        if (l->chosen.set & naive_bits[i]) {
            naive_block *before = l->blocks;
            uint64_t count = l->count;
            smyrilox_pieces pieces = smyrilox_first_cut(given[i], i != 3);
            l->blocks = NULL;
            l->count = 0;
            for (uint64_t k = 0; k < count; k++) {
                for (size_t j = 0; j < pieces.count; j++) {
                    *naive_parameter(&before[k].child, i) = pieces.at[j];
                    naive_queue(l, before[k].child, 0);
                }
            }
            free(before);
        }
    }
}

/* What a step of this number is going to do, before it is taken. */
static void naive_note(naive_log *l, uint64_t step, smyrilox_listed listed, const uint8_t *verdicts, const uint64_t *cells) {
    uint64_t outcome[4], incomplete = 0, pixels = (uint64_t)l->chosen.width * l->chosen.height;
    uint64_t *marked = calloc(pixels, sizeof marked[0]);
    bool here = false;
    naive_moment denial = {step, 0, 0};
    for (size_t i = 0; i < listed.count; i++) {
        outcome[i] = naive_outcome(&listed.at[i], verdicts[i], naive_all_true(l, &listed.at[i], cells, marked, false));
        incomplete += outcome[i] == 2;
        if (outcome[i] >= 3) {
            naive_all_true(l, &listed.at[i], cells, marked, true);
        }
        if (naive_covers(l, &listed.at[i], l->column, l->row)) {
            here = true;
            if (outcome[i] >= 3) {
                l->mark = (naive_moment){step, i + 1, outcome[i] - 3};
            }
            if (outcome[i] == 1 && denial.child == 0) {
                denial.child = i + 1;
            }
        }
    }
    if (here) {
        l->denial = denial;
    }
    /* the direction of the block itself: x and y give four children, or fewer at the picture's edge; a parameter two or three of one square */
    uint64_t dir = l->blocks[step - 1].direction;
    bool xy = dir == 0 && l->chosen.set & (SMYRILOX_X | SMYRILOX_Y);
    uint64_t from = incomplete <= (xy ? 1 : 2) ? dir : dir + 1;
    bool gone = false;
    for (size_t i = 0; i < listed.count; i++) {
        int found = outcome[i] == 2 ? naive_direction(l->chosen.set, &listed.at[i], from) : -1;
        if (found >= 0) {
            naive_queue(l, listed.at[i], (uint64_t)found);
        } else if (outcome[i] == 2 && here && !gone) {
            l->up = (naive_moment){step, i + 1, 0};
            gone = true;
        }
    }
    free(marked);
}

static void naive_tell(smyrilox_explained *e, uint64_t reason, naive_moment at) {
    e->reason = reason;
    e->step = at.step;
    e->child = at.child;
    e->point = reason == 1 ? at.point : 0;
}

/* By what the pixel reads. */
static void naive_reason(smyrilox_explained *e, const naive_log *l, const uint64_t *cells) {
    uint64_t cell = cells[(uint64_t)l->row * l->chosen.width + l->column], yes = (uint64_t)1 << 32;
    if (cell == yes) {
        naive_tell(e, 1, l->mark);
    } else if (cell < e->state.taken) {
        naive_tell(e, 2, l->denial);
    } else if (cell == yes + 1) {
        naive_tell(e, 3, l->up);
    } else {
        e->reason = 4;
        e->number = cell;
        e->before = cell - e->state.taken;
        e->block = l->blocks[cell].child;
        e->direction = l->blocks[cell].direction;
    }
}

/* Whether a setup would begin, or its number, with nothing written. */
static uint64_t naive_refusal(smyrilox_chosen p, smyrilox_ranges ranges, size_t ring_len, size_t cells_len) {
    uint8_t *ring = calloc(ring_len + 1, 1);
    uint64_t *cells = calloc(cells_len + 1, sizeof cells[0]);
    uint64_t refusal = smyrilox_setup(p, ranges, ring, ring_len, cells, cells_len).refusal;
    free(ring);
    free(cells);
    return refusal;
}

/* The steps, one by one; what a run of them answers goes into e. */
static void naive_repeat(smyrilox_explained *e, naive_log *l, uint8_t *ring, size_t ring_len, uint64_t *cells, size_t cells_len,
                         const uint8_t *tape, size_t tape_len, uint32_t steps) {
    while (e->state.queued > e->state.taken && e->steps < steps) {
        smyrilox_listed listed = smyrilox_children(e->state, ring, ring_len);
        size_t left = tape_len - e->tape, count = listed.count < left ? listed.count : left;
        uint64_t *before = malloc((cells_len + 1) * sizeof before[0]);
        memcpy(before, cells, cells_len * sizeof before[0]);
        smyrilox_stepped s = smyrilox_step(e->state, ring, ring_len, cells, cells_len, tape + e->tape, count);
        if (s.refusal == 0) {
            naive_note(l, e->steps + 1, listed, tape + e->tape, before);
        }
        free(before);
        if (s.refusal != 0) {
            e->refusal = s.refusal;
            e->ending = SMYRILOX_STOP;
            return;
        }
        e->state = s.state;
        e->steps += 1;
        e->evaluations += s.evaluations;
        e->tape += s.tape;
    }
    e->ending = SMYRILOX_MORE;
    if (e->state.queued == e->state.taken) {
        e->ending = smyrilox_counts(e->state, cells, cells_len).counts.givenup > 0 ? SMYRILOX_LIMIT : SMYRILOX_DONE;
    }
}

static smyrilox_explained naive_explain(smyrilox_chosen p, smyrilox_ranges ranges, uint8_t *ring, size_t ring_len, uint64_t *cells, size_t cells_len,
                                        const uint8_t *tape, size_t tape_len, uint32_t steps, uint32_t column, uint32_t row) {
    const smyrilox_interval whole = {-1.0 / 0.0, 1.0 / 0.0};
    smyrilox_explained e = {0};
    e.block = (smyrilox_child){{0, 0}, {0, 0}, whole, whole, whole, whole};
    uint64_t refusal = naive_refusal(p, ranges, ring_len, cells_len);
    e.refusal = refusal == 0 && (column >= p.width || row >= p.height) ? SMYRILOX_PIXEL : refusal;
    if (e.refusal != 0) {
        smyrilox_chosen none = {0};
        e.state = smyrilox_setup(none, ranges, ring, 0, cells, 0).state;
        return e;
    }
    naive_log l = {.chosen = p, .column = column, .row = row};
    e.state = smyrilox_setup(p, ranges, ring, ring_len, cells, cells_len).state;
    naive_begin(&l, ranges);
    naive_repeat(&e, &l, ring, ring_len, cells, cells_len, tape, tape_len, steps);
    if (e.refusal == 0) {
        naive_reason(&e, &l, cells);
    }
    free(l.blocks);
    return e;
}

#endif
