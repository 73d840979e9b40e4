/* Boxes called from C: values worked out by hand from document 02's rule for bounds, a plot in which every field differs from its
 * neighbours, and every refusal, in its order and with the whole line in all six places. */
#define SUBJECT "boxes: "
#include "check.h"
#include <string.h>

/* By their bits: a zero's sign counts. */
static bool is(smyrilox_interval x, double lower, double upper) {
    const smyrilox_interval wanted = {lower, upper};
    return memcmp(&x, &wanted, sizeof x) == 0;
}

/* An edge that is known exactly. */
static smyrilox_interval at(double x) {
    return (smyrilox_interval){x, x};
}

/* 4 by 4 pixels, from 0 to 1 along x and from 0 to 2 along y. */
static smyrilox_plot four(void) {
    return (smyrilox_plot){.width = 4, .height = 4, .edges = {at(0), at(1), at(0), at(2)}};
}

static smyrilox_boxed boxed(smyrilox_plot plot, uint8_t kind, uint64_t x, uint64_t y, int32_t level) {
    return smyrilox_block_box(plot, kind, (smyrilox_coordinate){x, level}, (smyrilox_coordinate){y, level});
}

/* ---- answers */

/* Pixels 2 to 4 by 0 to 2, above a pixel: x and y are the outer box. */
static void above(void) {
    smyrilox_boxed q = boxed(four(), SMYRILOX_QUICK, 1, 0, 1), p = boxed(four(), SMYRILOX_PRECISE, 1, 0, 1);
    check(q.refusal == 0 && is(q.edges.left, 0x1.ffffffffffffap-2, 0x1.0000000000005p-1), "quick: left");
    check(is(q.edges.right, 0x1.ffffffffffffap-1, 0x1.0000000000005p+0), "quick: right");
    check(is(q.edges.bottom, -0x0.0000000000004p-1022, 0x0.0000000000004p-1022), "quick: bottom");
    check(is(q.edges.top, 0x1.ffffffffffffap-1, 0x1.0000000000005p+0), "quick: top");
    check(is(q.x, 0x1.ffffffffffffap-2, 0x1.0000000000005p+0), "quick: x");
    check(is(q.y, -0x0.0000000000004p-1022, 0x1.0000000000005p+0), "quick: y");
    check(p.refusal == 0 && is(p.edges.left, 0x1.ffffffffffff9p-2, 0x1.0000000000006p-1), "precise: left");
    check(is(p.edges.right, 0x1.ffffffffffff9p-1, 0x1.0000000000006p+0), "precise: right");
    smyrilox_interval x = smyrilox_outer_x(q), y = smyrilox_outer_y(p);
    check(is(x, q.x.lower, q.x.upper) && is(y, p.y.lower, p.y.upper), "outer");
}

/* A quarter of a pixel: an end on the pixel's edge is the outer one, the other the midpoint. */
static void below(void) {
    smyrilox_boxed q = boxed(four(), SMYRILOX_QUICK, 3, 4, -1), p = boxed(four(), SMYRILOX_PRECISE, 3, 4, -1);
    check(is(q.edges.left, 0x1.7fffffffffffbp-2, 0x1.8000000000006p-2), "quick: left of a quarter");
    check(is(q.edges.top, 0x1.3fffffffffffcp+0, 0x1.4000000000006p+0), "quick: top of a quarter");
    check(is(q.x, 0x1.8p-2, 0x1.0000000000005p-1) && is(q.y, 0x1.ffffffffffffap-1, 0x1.4000000000001p+0), "quick: narrowed");
    check(is(p.x, 0x1.8p-2, 0x1.0000000000006p-1) && is(p.y, 0x1.ffffffffffff9p-1, 0x1.4p+0), "precise: narrowed");
    check(is(smyrilox_outer_x(q), 0x1.7fffffffffffbp-2, 0x1.0000000000005p-1), "outer is wider along x");
    check(is(smyrilox_outer_y(q), 0x1.ffffffffffffap-1, 0x1.4000000000006p+0), "outer is wider along y");
}

/* 12 by 10 pixels, all paddings and edges different; the block from pixel 8 by 0 is clipped at 12. */
static const smyrilox_plot different = {12, 10, {1, 3, 2, 1}, {{0.5, 0.75}, {8, 9}, {-3, -2.5}, {4, 5.5}}};

static void fields(void) {
    smyrilox_boxed q = boxed(different, SMYRILOX_QUICK, 1, 0, 3), p = boxed(different, SMYRILOX_PRECISE, 1, 0, 3);
    check(is(q.edges.left, 0x1.abffffffffff9p+2, 0x1.0b00000000005p+3), "quick: left, padded");
    check(is(q.edges.right, 0x1.49ffffffffffap+3, 0x1.9300000000006p+3), "quick: right, clipped");
    check(is(q.edges.bottom, -0x1.5b6db6db6db72p+2, -0x1.16db6db6db6d8p+2), "quick: bottom, in the padding");
    check(is(q.edges.top, 0x1.fffffffffffe3p+0, 0x1.56db6db6db6e6p+2), "quick: top");
    check(is(p.edges.left, 0x1.b5ffffffffffap+2, 0x1.0600000000004p+3), "precise: left, padded");
    check(is(p.edges.right, 0x1.4effffffffffbp+3, 0x1.8e00000000007p+3), "precise: right, clipped");
    check(is(p.edges.bottom, -0x1.5b6db6db6db71p+2, -0x1.16db6db6db6d9p+2), "precise: bottom, in the padding");
    check(is(p.edges.top, 0x1.492492492491bp+1, 0x1.3249249249251p+2), "precise: top");
}

/* Every byte but 0 is precise. */
static void kinds(void) {
    smyrilox_boxed q = boxed(four(), 0, 1, 0, 1), p = boxed(four(), 1, 1, 0, 1);
    smyrilox_boxed two = boxed(four(), 2, 1, 0, 1), most = boxed(four(), 255, 1, 0, 1);
    check(SMYRILOX_QUICK == 0 && SMYRILOX_PRECISE == 1 && memcmp(&p, &q, sizeof p) != 0, "two kinds");
    check(memcmp(&p, &two, sizeof p) == 0 && memcmp(&p, &most, sizeof p) == 0, "2 and 255 are precise");
}

/* ---- refused by number, with the whole line everywhere */

static void refused(uint64_t number, smyrilox_boxed box, const char *what) {
    const smyrilox_interval all[] = {box.edges.left, box.edges.right, box.edges.bottom, box.edges.top, box.x, box.y};
    check(box.refusal == number, what);
    for (int i = 0; i < 6; i++) {
        check(is(all[i], -INFINITE, INFINITE), what);
    }
}

/* A plot and a block in which all is wrong; then one fault after the other is mended. */
static void order(void) {
    smyrilox_plot plot = {0, 4, {2, 2, 3, 1}, {{0, INFINITE}, {1, 0}, at(0), at(2)}};
    refused(SMYRILOX_SIDE, boxed(plot, 0, 4, 0, 0), "a side of 0 comes first");
    plot.width = 32769;
    refused(SMYRILOX_SIDE, boxed(plot, 0, 4, 0, 0), "a side over 32768 too");
    plot.width = 4;
    refused(SMYRILOX_PADDING, boxed(plot, 0, 4, 0, 0), "padding that leaves no width");
    plot.padding.right = 1;
    refused(SMYRILOX_PADDING, boxed(plot, 0, 4, 0, 0), "padding that leaves no height");
    plot.padding.top = 0;
    refused(SMYRILOX_PARAMETER, boxed(plot, 0, 4, 0, 0), "an edge upside down");
    plot.edges.right.upper = 2;
    refused(SMYRILOX_DAMAGED, boxed(plot, 0, 4, 0, 0), "a block outside comes before an infinite edge");
    refused(SMYRILOX_BOUNDS, boxed(plot, 0, 3, 0, 0), "an infinite edge is legal, and gives no box");
    plot.edges.left.upper = 0;
    check(boxed(plot, 0, 3, 0, 0).refusal == 0, "with all mended there is a box");
}

static void paddings(void) {
    smyrilox_plot plot = four();
    plot.padding = (smyrilox_padding){2, 2, 0, 0};
    refused(16, boxed(plot, 0, 0, 0, 0), "no pixel between left and right");
    plot.padding = (smyrilox_padding){0, 0, 3, 1};
    refused(16, boxed(plot, 0, 0, 0, 0), "no pixel between bottom and top");
    plot.padding = (smyrilox_padding){UINT32_MAX, 1, 0, 0};
    refused(16, boxed(plot, 0, 0, 0, 0), "a sum over 32 bits");
    plot.padding = (smyrilox_padding){0, 0, UINT32_MAX, UINT32_MAX};
    refused(16, boxed(plot, 0, 0, 0, 0), "another");
    plot.padding = (smyrilox_padding){0, 3, 3, 0};
    check(boxed(plot, 0, 0, 0, 0).refusal == 0, "one pixel is enough");
}

static void coordinates(void) {
    const smyrilox_coordinate zero = {0, 0}, half = {0, -1};
    refused(8, boxed(four(), 0, 0, 0, -33), "no level so low");
    refused(8, boxed(four(), 0, 0, 0, 16), "no level so high");
    refused(8, boxed(four(), 0, (uint64_t)1 << 47, 0, -32), "no such index");
    refused(8, boxed(four(), 0, 0, 8, -1), "above the picture");
    refused(8, smyrilox_block_box(four(), 0, zero, half), "two levels");
    check(boxed(four(), 0, ((uint64_t)4 << 32) - 1, 0, -32).refusal == 0, "the last part of the last pixel");
    check(boxed(four(), 0, 0, 0, 15).refusal == 0, "a block larger than the picture");
}

/* 15 is about this box: a plot upside down by a hair has small ones, and a legal plot may have one that is crossed by narrowing. */
static void bounds(void) {
    smyrilox_plot plot = four();
    plot.edges.right = at(-1);
    refused(15, boxed(plot, 0, 1, 0, 0), "the right edge left of the left one");
    plot.edges = (smyrilox_edges){at(-1.7976931348623157e308), at(1.7976931348623157e308), at(0), at(2)};
    refused(15, boxed(plot, 1, 1, 0, 0), "a span that is no double");
    plot.edges.left = at(1 + 0x1p-48);
    plot.edges.right = at(1);
    refused(15, boxed(plot, SMYRILOX_QUICK, 0, 0, 1), "edges in the wrong order by a hair: a large block");
    check(boxed(plot, SMYRILOX_QUICK, 0, 0, 0).refusal == 0, "and a small one, narrower than what its bounds are wide");
    plot = (smyrilox_plot){1, 1, {0, 0, 0, 0}, {at(0), at(5e-324), at(0), at(1)}};
    refused(15, boxed(plot, SMYRILOX_QUICK, 4, 0, -3), "narrowed ends that cross");
    check(is(boxed(plot, SMYRILOX_PRECISE, 4, 0, -3).x, -0.0, 0.0), "equal ends do not, and zeros are -0 and +0");
    plot.edges.left = at(0x1.999999999999ap-4);
    plot.edges.right = at(0x1.9999999999998p-4);
    check(is(boxed(plot, SMYRILOX_PRECISE, 0, 0, 0).x, 0x1.9999999999999p-4, 0x1.9999999999999p-4), "equal outermost ends");
}

static void numbers(void) {
    check(SMYRILOX_BOUNDS == 15 && SMYRILOX_PADDING == 16, "the numbers of refusal");
    smyrilox_plot plot = four();
    plot.edges.top.lower = 0.0 / 0.0;
    refused(3, boxed(plot, 0, 0, 0, 0), "no number for an edge");
    plot.edges.top = (smyrilox_interval){INFINITE, INFINITE};
    refused(3, boxed(plot, 0, 0, 0, 0), "an infinity alone");
}

int main(void) {
    above();
    below();
    fields();
    kinds();
    order();
    paddings();
    coordinates();
    bounds();
    numbers();
    printf(failures == 0 ? "c: boxes as they should be\n" : "c: boxes failed\n");
    return failures != 0;
}
