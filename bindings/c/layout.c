/* The number of the records' layout: the size of each record that a chart's or a plot's calls take or answer, and the places of its fields, in the order of the header,
 * folded into 64 bits by FNV-1a, a number at a time. The Rust crate and the Python module make the same number of their own declarations. */
#include "smyrilox.h"

#define SIZE(record) sizeof(smyrilox_##record)
#define PLACE(record, field) offsetof(smyrilox_##record, field)

static const uint16_t numbers[] = {
    SIZE(interval), PLACE(interval, lower), PLACE(interval, upper),
    SIZE(ranges), PLACE(ranges, m), PLACE(ranges, n), PLACE(ranges, theta), PLACE(ranges, t),
    SIZE(coordinate), PLACE(coordinate, index), PLACE(coordinate, level),
    SIZE(last), PLACE(last, x), PLACE(last, y), PLACE(last, m), PLACE(last, n), PLACE(last, theta), PLACE(last, t),
    SIZE(chosen), PLACE(chosen, width), PLACE(chosen, height), PLACE(chosen, set), PLACE(chosen, reserved1),
    PLACE(chosen, reserved2), PLACE(chosen, reserved3),
    SIZE(state), PLACE(state, chosen), PLACE(state, taken), PLACE(state, queued), PLACE(state, len), PLACE(state, head),
    PLACE(state, used), PLACE(state, front), PLACE(state, back),
    SIZE(child), PLACE(child, x), PLACE(child, y), PLACE(child, m), PLACE(child, n), PLACE(child, theta), PLACE(child, t),
    SIZE(number), PLACE(number, refusal), PLACE(number, value),
    SIZE(point), PLACE(point, refusal), PLACE(point, value),
    SIZE(started), PLACE(started, refusal), PLACE(started, state),
    SIZE(moved), PLACE(moved, refusal), PLACE(moved, state),
    SIZE(listed), PLACE(listed, refusal), PLACE(listed, count), PLACE(listed, at),
    SIZE(stepped), PLACE(stepped, refusal), PLACE(stepped, evaluations), PLACE(stepped, tape), PLACE(stepped, state),
    SIZE(ran), PLACE(ran, refusal), PLACE(ran, ending), PLACE(ran, stop), PLACE(ran, steps), PLACE(ran, evaluations),
    PLACE(ran, tape), PLACE(ran, state),
    SIZE(explained), PLACE(explained, refusal), PLACE(explained, reason), PLACE(explained, step), PLACE(explained, child),
    PLACE(explained, point), PLACE(explained, number), PLACE(explained, before), PLACE(explained, block), PLACE(explained, direction),
    PLACE(explained, ending), PLACE(explained, steps), PLACE(explained, evaluations), PLACE(explained, tape), PLACE(explained, state),
    SIZE(tally), PLACE(tally, trues), PLACE(tally, falses), PLACE(tally, uncertain), PLACE(tally, givenup),
    PLACE(tally, queued), PLACE(tally, share),
    SIZE(counted), PLACE(counted, refusal), PLACE(counted, counts),
    SIZE(pieces), PLACE(pieces, refusal), PLACE(pieces, count), PLACE(pieces, at),
    SIZE(padding), PLACE(padding, left), PLACE(padding, right), PLACE(padding, bottom), PLACE(padding, top),
    SIZE(edges), PLACE(edges, left), PLACE(edges, right), PLACE(edges, bottom), PLACE(edges, top),
    SIZE(plot), PLACE(plot, width), PLACE(plot, height), PLACE(plot, padding), PLACE(plot, edges),
    SIZE(boxed), PLACE(boxed, refusal), PLACE(boxed, edges), PLACE(boxed, x), PLACE(boxed, y),
};

uint64_t smyrilox_layout(void) {
    uint64_t folded = 0xCBF29CE484222325;
    for (size_t i = 0; i < sizeof numbers / sizeof numbers[0]; i++) {
        folded = (folded ^ numbers[i]) * 0x100000001B3;
    }
    return folded;
}
