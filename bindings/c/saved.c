/* A chart as bytes: see saved.h, and bindings/SAVED.md for the tables that the numbers below are from. */
#include "saved.h"
#include <string.h>

/* The bytes before the tag and those of the check in layout 2; before the ring, and of the check, in layout 1. */
enum { HEAD = 296, CHECK = 4, OLD_HEAD = 232, OLD_CHECK = 8 };

/* Bytes a cell, coding, mode, floor (-32) and shape, from byte 21 on: the one kind of chart that there is. */
static const uint8_t kind[5] = {8, 0, 0, 0xE0, 0};

static const uint8_t name[8] = {'S', 'M', 'Y', 'R', 'I', 'L', 'O', 'X'};

/* What is left of the bytes after division by a polynomial, its bits reversed, a bit at a time; `ones` has as many bits as that. */
static uint64_t crc(const uint8_t *bytes, size_t count, uint64_t polynomial, uint64_t ones) {
    uint64_t r = ones;
    for (size_t i = 0; i < count; i++) {
        r ^= bytes[i];
        for (int bit = 0; bit < 8; bit++) {
            r = r >> 1 ^ (r & 1) * polynomial;
        }
    }
    return r ^ ones;
}

/* zlib's crc32, and CRC-64/XZ. */
static uint64_t crc32_of(const uint8_t *bytes, size_t count) {
    return crc(bytes, count, 0xEDB88320, 0xFFFFFFFF);
}

static uint64_t crc64_of(const uint8_t *bytes, size_t count) {
    return crc(bytes, count, 0xC96C5795D7870F42, UINT64_MAX);
}

/* Numbers are little-endian on disk whatever the machine is. */
static void put(uint8_t **out, uint64_t number, int bytes) {
    for (int i = 0; i < bytes; i++) {
        *(*out)++ = (uint8_t)(number >> 8 * i);
    }
}

static uint64_t get(const uint8_t **in, int bytes) {
    uint64_t number = 0;
    for (int i = 0; i < bytes; i++) {
        number |= (uint64_t)*(*in)++ << 8 * i;
    }
    return number;
}

static void put_interval(uint8_t **out, smyrilox_interval x) {
    uint64_t bits[2];
    memcpy(bits, &x, sizeof bits);
    put(out, bits[0], 8);
    put(out, bits[1], 8);
}

static smyrilox_interval get_interval(const uint8_t **in) {
    smyrilox_interval x;
    uint64_t bits[2];
    bits[0] = get(in, 8);
    bits[1] = get(in, 8);
    memcpy(&x, bits, sizeof x);
    return x;
}

static void put_last(uint8_t **out, const smyrilox_last *l) {
    put(out, l->x, 8);
    put(out, l->y, 8);
    put_interval(out, l->m);
    put_interval(out, l->n);
    put_interval(out, l->theta);
    put_interval(out, l->t);
}

static smyrilox_last get_last(const uint8_t **in) {
    smyrilox_last l;
    l.x = get(in, 8);
    l.y = get(in, 8);
    l.m = get_interval(in);
    l.n = get_interval(in);
    l.theta = get_interval(in);
    l.t = get_interval(in);
    return l;
}

static const smyrilox_interval whole = {-1.0 / 0.0, 1.0 / 0.0};

/* The ranges, with the whole line for those that are not used or not known. */
static void put_ranges(uint8_t **out, uint8_t set, const smyrilox_ranges *r) {
    put_interval(out, r != NULL && set & SMYRILOX_M ? r->m : whole);
    put_interval(out, r != NULL && set & SMYRILOX_N ? r->n : whole);
    put_interval(out, r != NULL && set & SMYRILOX_THETA ? r->theta : whole);
    put_interval(out, r != NULL && set & SMYRILOX_T ? r->t : whole);
}

static smyrilox_ranges get_ranges(const uint8_t **in) {
    smyrilox_ranges r;
    r.m = get_interval(in);
    r.n = get_interval(in);
    r.theta = get_interval(in);
    r.t = get_interval(in);
    return r;
}

static size_t pixels_of(smyrilox_chosen c) {
    return (size_t)c.width * c.height;
}

size_t smyrilox_saved_size(smyrilox_state state, size_t tag_len) {
    return HEAD + tag_len + state.used + 8 * pixels_of(state.chosen) + CHECK;
}

static void put_head(uint8_t **out, const smyrilox_state *s, const smyrilox_ranges *ranges, size_t tag_len) {
    memcpy(*out, name, sizeof name);
    *out += sizeof name;
    put(out, 2, 4);
    put(out, s->chosen.width, 4);
    put(out, s->chosen.height, 4);
    put(out, s->chosen.set, 1);
    memcpy(*out, kind, sizeof kind);
    *out += sizeof kind;
    put(out, ranges != NULL, 1);
    put(out, 0, 1);
    put(out, tag_len, 4);
    put(out, s->taken, 8);
    put(out, s->queued, 8);
    put(out, s->len, 8);
    put(out, s->used, 8);
    put(out, pixels_of(s->chosen), 8);
    put_ranges(out, s->chosen.set, ranges);
    put_last(out, &s->front);
    put_last(out, &s->back);
}

uint64_t smyrilox_save(smyrilox_state state, const smyrilox_ranges *ranges, const uint8_t *ring, size_t ring_len, const uint64_t *cells,
                       size_t cells_len, const uint8_t *tag, size_t tag_len, uint8_t *out, size_t out_len) {
    uint8_t *at = out;
    if (smyrilox_counts(state, cells, cells_len).refusal != 0 || state.len != ring_len) {
        return SMYRILOX_SAVED_REFUSED;
    }
    if (tag_len >= (uint64_t)1 << 32 || out_len < smyrilox_saved_size(state, tag_len)) {
        return SMYRILOX_SAVED_MEMORY;
    }
    put_head(&at, &state, ranges, tag_len);
    memcpy(at, tag, tag_len);
    at += tag_len;
    for (size_t i = 0, from = state.head; i < state.used; i++, from = from + 1 == ring_len ? 0 : from + 1) {
        *at++ = ring[from];
    }
    for (size_t i = 0; i < pixels_of(state.chosen); i++) {
        put(&at, cells[i], 8);
    }
    put(&at, crc32_of(out, (size_t)(at - out)), 4);
    return SMYRILOX_SAVED_OK;
}

static void get_chosen(const uint8_t **in, smyrilox_chosen *c) {
    c->width = (uint32_t)get(in, 4);
    c->height = (uint32_t)get(in, 4);
    c->set = (uint8_t)get(in, 1);
}

/* Layout 2's head. */
static void get_head(const uint8_t *bytes, smyrilox_saved *s) {
    const uint8_t *at = bytes + 12;
    get_chosen(&at, &s->state.chosen);
    s->known = bytes[26] == 1;
    at = bytes + 28;
    s->tag_len = (size_t)get(&at, 4);
    s->state.taken = get(&at, 8);
    s->state.queued = get(&at, 8);
    s->state.len = (size_t)get(&at, 8);
    s->state.used = s->queue_len = (size_t)get(&at, 8);
    s->cells_len = (size_t)get(&at, 8);
    s->ranges = get_ranges(&at);
    s->state.front = get_last(&at);
    s->state.back = get_last(&at);
    s->tag_at = HEAD;
    s->queue_at = HEAD + s->tag_len;
}

/* Layout 1's, which has no ranges and no tag, and the whole ring. */
static void get_old_head(const uint8_t *bytes, smyrilox_saved *s) {
    const uint8_t *at = bytes + 12;
    get_chosen(&at, &s->state.chosen);
    at = bytes + 24;
    s->state.taken = get(&at, 8);
    s->state.queued = get(&at, 8);
    s->state.len = s->queue_len = (size_t)get(&at, 8);
    s->state.head = (size_t)get(&at, 8);
    s->state.used = (size_t)get(&at, 8);
    s->cells_len = (size_t)get(&at, 8);
    s->ranges = (smyrilox_ranges){whole, whole, whole, whole};
    s->state.front = get_last(&at);
    s->state.back = get_last(&at);
    s->tag_at = s->queue_at = OLD_HEAD;
}

/* Whether tag, queue and cells of so many bytes each are what is between head and check. */
static bool has_length(const smyrilox_saved *s, size_t left, uint8_t cell) {
    if (s->tag_len > left || s->queue_len > left - s->tag_len) {
        return false;
    }
    left -= s->tag_len + s->queue_len;
    return cell == 0 ? left == 0 : left % cell == 0 && left / cell == s->cells_len;
}

static uint64_t look_at_2(const uint8_t *bytes, size_t bytes_len, smyrilox_saved *s) {
    if (bytes_len < HEAD + CHECK) {
        return SMYRILOX_SAVED_LENGTH;
    }
    const uint8_t *check = bytes + bytes_len - CHECK;
    get_head(bytes, s);
    if (!has_length(s, bytes_len - HEAD - CHECK, bytes[21])) {
        return SMYRILOX_SAVED_LENGTH;
    }
    if (get(&check, CHECK) != crc32_of(bytes, bytes_len - CHECK)) {
        return SMYRILOX_SAVED_CHECK;
    }
    if (memcmp(bytes + 21, kind, sizeof kind) != 0) {
        return SMYRILOX_SAVED_KIND;
    }
    if (bytes[26] > 1 || bytes[27] != 0 || s->state.used > s->state.len || s->cells_len != pixels_of(s->state.chosen)) {
        return SMYRILOX_SAVED_LENGTH;
    }
    return SMYRILOX_SAVED_OK;
}

static uint64_t look_at_1(const uint8_t *bytes, size_t bytes_len, smyrilox_saved *s) {
    if (bytes_len < OLD_HEAD + OLD_CHECK) {
        return SMYRILOX_SAVED_LENGTH;
    }
    const uint8_t *check = bytes + bytes_len - OLD_CHECK;
    get_old_head(bytes, s);
    if (!has_length(s, bytes_len - OLD_HEAD - OLD_CHECK, 8) || bytes[21] != 0 || bytes[22] != 0 || bytes[23] != 0) {
        return SMYRILOX_SAVED_LENGTH;
    }
    return get(&check, OLD_CHECK) == crc64_of(bytes, bytes_len - OLD_CHECK) ? SMYRILOX_SAVED_OK : SMYRILOX_SAVED_CHECK;
}

smyrilox_saved smyrilox_look(const uint8_t *bytes, size_t bytes_len) {
    smyrilox_saved s;
    memset(&s, 0, sizeof s);
    if (bytes_len < 8 || memcmp(bytes, name, sizeof name) != 0) {
        s.why = SMYRILOX_SAVED_NAME;
        return s;
    }
    const uint8_t *at = bytes + 8;
    uint64_t layout = bytes_len < 12 ? 2 : get(&at, 4);
    s.why = layout == 2 ? look_at_2(bytes, bytes_len, &s) : layout == 1 ? look_at_1(bytes, bytes_len, &s) : SMYRILOX_SAVED_LAYOUT;
    s.cells_at = s.queue_at + s.queue_len;
    return s;
}

/* What the engine says of a chart that was read: of the record and the cells, the front block, and the ranges. */
static uint64_t refused(const smyrilox_loaded *l, const uint8_t *ring, size_t ring_len, const uint64_t *cells, size_t cells_len) {
    uint64_t refusal = smyrilox_counts(l->state, cells, cells_len).refusal;
    if (refusal == 0 && l->state.taken != l->state.queued) {
        refusal = smyrilox_children(l->state, ring, ring_len).refusal;
    }
    if (refusal == 0 && l->known) {
        refusal = smyrilox_least_ring(l->state.chosen, l->ranges).refusal;
    }
    return refusal;
}

/* Not loaded: the record is one that every call refuses, as a refused setup's, so that cells which were never read are not drawn. */
static smyrilox_loaded not_loaded(uint64_t why, uint64_t refusal) {
    smyrilox_loaded l;
    memset(&l, 0, sizeof l);
    l.why = why;
    l.refusal = refusal;
    return l;
}

smyrilox_loaded smyrilox_load(const uint8_t *bytes, size_t bytes_len, const uint8_t *tag, size_t tag_len, uint8_t *ring, size_t ring_len,
                              uint64_t *cells, size_t cells_len) {
    smyrilox_saved s = smyrilox_look(bytes, bytes_len);
    if (s.why != SMYRILOX_SAVED_OK) {
        return not_loaded(s.why, 0);
    }
    if (s.tag_len != tag_len || memcmp(bytes + s.tag_at, tag, tag_len) != 0) {
        return not_loaded(SMYRILOX_SAVED_TAG, 0);
    }
    if (ring_len != s.state.len || cells_len != s.cells_len) {
        return not_loaded(SMYRILOX_SAVED_MEMORY, 0);
    }
    const uint8_t *at = bytes + s.cells_at;
    memcpy(ring, bytes + s.queue_at, s.queue_len);
    for (size_t i = 0; i < cells_len; i++) {
        cells[i] = get(&at, 8);
    }
    smyrilox_loaded l = {SMYRILOX_SAVED_OK, 0, s.state, s.ranges, s.known};
    uint64_t refusal = refused(&l, ring, ring_len, cells, cells_len);
    return refusal == 0 ? l : not_loaded(SMYRILOX_SAVED_REFUSED, refusal);
}
