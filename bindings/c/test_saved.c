/* Charts saved and loaded from C, against the stored charts that all bindings read: test_saved FOLDER. */
#include "saved.h"
#include <stdio.h>
#include <string.h>

static int failures = 0;

static void check(bool right, const char *what) {
    if (!right) {
        printf("c: not so: %s\n", what);
        failures += 1;
    }
}

/* A chart that was not loaded draws nothing over zeroed cells, which would read white. */
static void drawn_by_none(smyrilox_loaded l) {
    uint64_t zeroed[35] = {0};
    uint8_t picture[35];
    memset(picture, SMYRILOX_UNCERTAIN, sizeof picture);
    check(l.why != 0 && smyrilox_picture(l.state, zeroed, 35, picture, sizeof picture) == SMYRILOX_DAMAGED, "not loaded, not drawn");
    check(picture[0] == SMYRILOX_UNCERTAIN && smyrilox_counts(l.state, zeroed, 35).refusal == SMYRILOX_DAMAGED, "nor counted");
}

static const uint8_t tag[] = {'d', 'o', 'o', 'r', 's', ',', ' ', 'e', 'v', 'a', 'l', 'u', 'a', 't', 'o', 'r', ' ', '7'};
static const uint8_t no_tag[1];

static size_t read_file(const char *folder, const char *name, uint8_t *bytes, size_t room) {
    char path[4096];
    snprintf(path, sizeof path, "%s/%s", folder, name);
    FILE *file = fopen(path, "rb");
    size_t count = file == NULL ? 0 : fread(bytes, 1, room, file);
    if (file != NULL) {
        fclose(file);
    }
    check(count > 0, path);
    return count;
}

/* The chart of test.c's parameters after 28 steps, in a ring of 900 bytes: its queue stands around the end. */
static void stored(const uint8_t *bytes, size_t count) {
    uint8_t ring[900], out[700];
    uint64_t cells[35];
    smyrilox_saved s = smyrilox_look(bytes, count);
    check(s.why == 0 && s.state.len == 900 && s.state.used == 22 && s.cells_len == 35 && s.tag_len == sizeof tag, "what it asks for");
    check(memcmp(bytes + s.tag_at, tag, sizeof tag) == 0, "its tag");
    smyrilox_loaded l = smyrilox_load(bytes, count, tag, sizeof tag, ring, sizeof ring, cells, 35);
    check(l.why == 0 && l.refusal == 0 && l.known && l.state.taken == 28 && l.state.queued == 30 && l.state.head == 0, "loaded");
    check(l.ranges.m.lower == 2 && l.ranges.n.upper == 15 && l.ranges.t.upper == 0.75 && l.state.chosen.set == 61, "its ranges");
    smyrilox_listed c = smyrilox_children(l.state, ring, sizeof ring);
    check(c.refusal == 0 && c.count == 3 && c.at[1].m.lower == 6 && c.at[1].x.index == 2 && c.at[1].x.level == 1, "its children");
    check(smyrilox_saved_size(l.state, sizeof tag) == count, "its size");
    check(smyrilox_save(l.state, &l.ranges, ring, sizeof ring, cells, 35, tag, sizeof tag, out, sizeof out) == 0, "saved again");
    check(memcmp(out, bytes, count) == 0, "the same bytes");
    check(smyrilox_save(l.state, &l.ranges, ring, sizeof ring, cells, 35, tag, sizeof tag, out, count - 1) == SMYRILOX_SAVED_MEMORY, "a byte too few");
    check(smyrilox_save(l.state, &l.ranges, ring, 899, cells, 35, tag, sizeof tag, out, sizeof out) == SMYRILOX_SAVED_REFUSED, "another ring");
    check(smyrilox_load(bytes, count, tag, sizeof tag - 1, ring, 900, cells, 35).why == SMYRILOX_SAVED_TAG, "another tag");
    drawn_by_none(smyrilox_load(bytes, count, tag, sizeof tag - 1, ring, 900, cells, 35));
    drawn_by_none(smyrilox_load(bytes, count - 1, tag, sizeof tag, ring, 900, cells, 35));
    drawn_by_none(smyrilox_load(bytes, count, tag, sizeof tag, ring, 899, cells, 35));
    check(smyrilox_load(bytes, count, no_tag, 0, ring, 900, cells, 35).why == SMYRILOX_SAVED_TAG, "no tag");
    check(smyrilox_load(bytes, count, tag, sizeof tag, ring, 899, cells, 35).why == SMYRILOX_SAVED_MEMORY, "a shorter ring");
    check(smyrilox_load(bytes, count, tag, sizeof tag, ring, 900, cells, 34).why == SMYRILOX_SAVED_MEMORY, "fewer cells");
}

/* The same chart in layout 1: no ranges, no tag, and the queue around the end of its ring. Saved again it is layout 2, from byte 136 on as
 * it was stored, but for the tag. */
static void stored_in_layout_1(const uint8_t *one, size_t one_len, const uint8_t *two, size_t two_len) {
    uint8_t ring[900], out[700], spoiled[2000];
    uint64_t cells[35];
    size_t rest = two_len - 296 - sizeof tag - 4;
    smyrilox_loaded l = smyrilox_load(one, one_len, no_tag, 0, ring, sizeof ring, cells, 35);
    check(l.why == 0 && l.refusal == 0 && !l.known && l.state.head == 896 && l.state.used == 22 && l.state.taken == 28, "layout 1");
    check(smyrilox_load(one, one_len, tag, sizeof tag, ring, sizeof ring, cells, 35).why == SMYRILOX_SAVED_TAG, "it has no tag");
    check(smyrilox_saved_size(l.state, 0) == two_len - sizeof tag, "its size in layout 2");
    check(smyrilox_save(l.state, NULL, ring, sizeof ring, cells, 35, no_tag, 0, out, sizeof out) == 0, "saved in layout 2");
    check(memcmp(out, two, 26) == 0 && out[26] == 0 && memcmp(out + 32, two + 32, 40) == 0, "sides, kind and counters");
    check(memcmp(out + 136, two + 136, 160) == 0 && memcmp(out + 296, two + 296 + sizeof tag, rest) == 0, "blocks, queue and cells");
    for (size_t i = 0; i < one_len; i++) {
        memcpy(spoiled, one, one_len);
        spoiled[i] ^= 0x10;
        check(smyrilox_load(spoiled, one_len, no_tag, 0, ring, sizeof ring, cells, 35).why != 0, "a changed byte of layout 1 is noticed");
        check(smyrilox_load(one, i, no_tag, 0, ring, sizeof ring, cells, 35).why != 0, "missing bytes of layout 1 are noticed");
    }
}

/* zlib's crc32 of all but the last four bytes, which are set to it. */
static void right_check(uint8_t *bytes, size_t count) {
    uint32_t r = ~(uint32_t)0;
    for (size_t i = 0; i < 8 * (count - 4); i++) {
        r = (r ^ (uint32_t)(bytes[i / 8] >> i % 8 & 1)) & 1 ? r >> 1 ^ 0xEDB88320 : r >> 1;
    }
    for (int i = 0; i < 4; i++) {
        bytes[count - 4 + i] = (uint8_t)(~r >> 8 * i);
    }
}

/* Every byte changed, one at a time, and every length. */
static void damaged(const uint8_t *bytes, size_t count) {
    uint8_t ring[900], spoiled[700];
    uint64_t cells[35];
    for (size_t i = 0; i < count; i++) {
        for (int bit = 0; bit < 8; bit++) {
            memcpy(spoiled, bytes, count);
            spoiled[i] ^= (uint8_t)(1 << bit);
            check(smyrilox_load(spoiled, count, tag, sizeof tag, ring, 900, cells, 35).why != 0, "a changed byte is noticed");
        }
        check(smyrilox_load(bytes, i, tag, sizeof tag, ring, 900, cells, 35).why != 0, "missing bytes are noticed");
    }
    memcpy(spoiled, bytes, count);
    spoiled[count] = 0;
    check(smyrilox_load(spoiled, count + 1, tag, sizeof tag, ring, 900, cells, 35).why == SMYRILOX_SAVED_LENGTH, "a byte left over");
}

/* One byte changed, with a check that is right for it. */
static void made_up(const uint8_t *bytes, size_t count, size_t at, uint8_t to, uint64_t why, uint64_t refusal, const char *what) {
    uint8_t ring[900], spoiled[700];
    uint64_t cells[35];
    memcpy(spoiled, bytes, count);
    right_check(spoiled, count);
    check(memcmp(spoiled, bytes, count) == 0, "the check is zlib's");
    spoiled[at] = to;
    right_check(spoiled, count);
    smyrilox_loaded l = smyrilox_load(spoiled, count, tag, sizeof tag, ring, 900, cells, 35);
    check(l.why == why && l.refusal == refusal, what);
}

int main(int count, char **words) {
    uint8_t one[2000], two[700];
    const char *folder = count == 2 ? words[1] : ".";
    size_t one_len = read_file(folder, "layout1.chart", one, sizeof one), two_len = read_file(folder, "layout2.chart", two, sizeof two);
    if (failures == 0) {
        stored(two, two_len);
        damaged(two, two_len);
        stored_in_layout_1(one, one_len, two, two_len);
        made_up(two, two_len, 0, 'X', SMYRILOX_SAVED_NAME, 0, "another name");
        made_up(two, two_len, 8, 3, SMYRILOX_SAVED_LAYOUT, 0, "layout 3");
        made_up(two, two_len, 23, 1, SMYRILOX_SAVED_KIND, 0, "another mode");
        made_up(two, two_len, 24, 0xD0, SMYRILOX_SAVED_KIND, 0, "another floor");
        made_up(two, two_len, 27, 1, SMYRILOX_SAVED_LENGTH, 0, "a reserved byte");
        made_up(two, two_len, 32, 99, SMYRILOX_SAVED_REFUSED, 8, "more taken than queued");
        made_up(two, two_len, 79, 0x7F, SMYRILOX_SAVED_REFUSED, 3, "a range upside down");
        made_up(two, two_len, 296 + sizeof tag + 22 + 5, 1, SMYRILOX_SAVED_REFUSED, 8, "a cell that no picture holds");
    }
    printf(failures == 0 ? "c: saved charts as they should be\n" : "c: failed\n");
    return failures != 0;
}
