/* Smyrilox: verified picture refinement, for programs in C and whatever calls C.
 *
 * Link libsmyrilox, which `bindings/build` writes and `bindings/install PREFIX` installs, or target/staticlib/libcapi.a, which
 * `bindings/archive` proves and writes and which libsmyrilox holds (x86-64 Linux, System V calling convention).
 * A picture is refined by a caller who owns three things: the record (smyrilox_state, by value), the ring (bytes that hold the queue of
 * blocks) and the cells (64-bit numbers, one a pixel, rows from the top). The engine keeps nothing between calls and allocates nothing.
 *
 *     setup                      the ring, the cells and the record are begun
 *     children, verdicts, step   the caller is asked about up to four blocks, answers each with a byte, and the step is taken;
 *                                or run, which takes the verdicts from a tape
 *     picture, counts            what is known so far
 *     move_queue                 a step that finds no room is refused, and goes on in a longer ring
 *     .._with_table, fill_table  setup, step and run that also keep how many pixels of each tile read what, in a table of the caller's
 *     explain                    why a pixel reads what it reads: by a setup and its tape, repeated in a spare ring and spare cells
 *     block_box                  where a child's square lies in the caller's own units: what an evaluator judges
 *
 * What a caller owes. No function can test these, and a call without the first five has no meaning at all:
 *     pointers     none is NULL, also where its count is 0; one to cells is aligned as a uint64_t is, one to a table as a uint32_t; a bool
 *                  is 0 or 1
 *     counts       a buffer has as many elements as the count beside its pointer says
 *     no overlap   a buffer that is written shares no byte with another buffer of the call
 *     alone        while a call lasts, nobody else writes its buffers, or reads those that it writes
 *     stack        it has room for the call, some kilobytes: docs/SPEED.md has what was measured, and no theorem bounds it
 *     together     record, ring and cells are the ones that setup and the calls since left, in one piece, and a ring or cells in use get
 *                  no second setup. Made up or mixed, they cost the meaning of the picture and nothing else: every call still ends, and
 *                  writes only where it says below. A table that is out of date costs its own meaning alone
 * Nothing else is owed: all other numbers, records and bytes may be handed in, and what is wrong with them is refused by number.
 *
 * Refusals. Every answer has a refusal: 0, or one of the numbers below. A refused call has written nothing, and a step, a run or a move
 * that is refused hands back the record that it was given. Where several apply, the one that its function lists first is given. There is
 * one exception: where a step refuses while smyrilox_explain repeats the steps, the spare ring and cells hold what the steps before it left.
 *
 * Zero is not a safe filler. A zeroed verdict says no, a zeroed picture is all white, and zeroed cells read white once a block was taken:
 * fill verdicts with SMYRILOX_UNDECIDED and pictures with SMYRILOX_UNCERTAIN before use, or look at every answer's refusal.
 */
#ifndef SMYRILOX_H
#define SMYRILOX_H

#include <stdbool.h>
#include <stddef.h>
#include <stdint.h>

#ifdef __cplusplus
extern "C" {
#endif

/* The numbers of refusal. */
enum {
    SMYRILOX_OK = 0,
    SMYRILOX_SIDE = 1,       /* a side must be 1 to 32768 pixels */
    SMYRILOX_CELLS = 2,      /* too few cells: one a pixel is needed, and spare ones stay as they are */
    SMYRILOX_PARAMETER = 3,  /* the set has a bit that is no variable's, or an interval (a plot's edge too) is not legal */
    SMYRILOX_VERDICTS = 4,   /* not one verdict for each child; a run's tape ends before them */
    SMYRILOX_VERDICT = 5,    /* a verdict that a child of its level cannot have, looked at or not */
    SMYRILOX_ROOM = 6,       /* the ring has no room for the new blocks */
    SMYRILOX_NUMBERS = 7,    /* the 2^32 numbers of blocks are used up */
    SMYRILOX_DAMAGED = 8,    /* damaged: the record, the front block, a cell; or a coordinate, or a block outside the plot, asked about alone */
    SMYRILOX_TOO_LARGE = 9,  /* only numbers below 2^56 have a code */
    SMYRILOX_ENDS_EARLY = 10,/* the bytes end before the code does */
    SMYRILOX_HEAD_ZERO = 11, /* no code begins with 0 */
    SMYRILOX_PICTURE = 12,   /* too few bytes for the picture */
    SMYRILOX_EMPTY = 13,     /* nothing is queued: no step, and no children to list */
    SMYRILOX_BOUNDS = 15,    /* a bound of the box is not finite, or ends of it cross */
    SMYRILOX_PADDING = 16,   /* the padding leaves no width or no height */
    SMYRILOX_TABLE = 17,     /* too few numbers in the table: four a tile are needed, and spare ones stay as they are */
    SMYRILOX_PIXEL = 18      /* a pixel outside the picture */
};

/* The bits of a variable set: which of the variables a relation uses. */
enum {
    SMYRILOX_X = 32,
    SMYRILOX_Y = 16,
    SMYRILOX_M = 8,       /* an integer parameter */
    SMYRILOX_N = 4,       /* an integer parameter */
    SMYRILOX_THETA = 2,   /* an integer parameter */
    SMYRILOX_T = 1        /* a real parameter */
};

/* A verdict: a byte for each child of a step, in the order of the listing. A child's square, and a pixel's, has its edges included:
 * docs/EVALUATOR.md says what that asks of an evaluator.
 *     SMYRILOX_NO            in the pixels that the child covers, no mix of the child is a solution
 *     SMYRILOX_UNDECIDED     always right
 *     SMYRILOX_YES           each pixel that the child covers holds a solution; below level 0 this counts as undecided
 * Below level 0, where a child is a part of one pixel, also:
 *     SMYRILOX_AREA          added to one of these: points of the child may be sampled. A yes is SMYRILOX_YES | SMYRILOX_AREA there
 *     SMYRILOX_AT_..         added to SMYRILOX_UNDECIDED | SMYRILOX_AREA: a solution was found at this point of the child
 * Every other byte is refused by 5. SMYRILOX_NO is 0: a verdict that nobody has written, in zeroed memory, says no, and its pixels turn
 * white. The bytes of a picture (SMYRILOX_FALSE and so on) are no verdicts. */
enum {
    SMYRILOX_NO = 0x00,
    SMYRILOX_UNDECIDED = 0x40,
    SMYRILOX_YES = 0x80,
    SMYRILOX_AREA = 0x20,
    SMYRILOX_AT_SIMPLE_FRACTION = 0x10,
    SMYRILOX_AT_BOTTOM_LEFT = 0x08,
    SMYRILOX_AT_BOTTOM_RIGHT = 0x04,
    SMYRILOX_AT_TOP_LEFT = 0x02,
    SMYRILOX_AT_TOP_RIGHT = 0x01
};

/* How a run ended. */
enum {
    SMYRILOX_NOT_RUN = 0, /* it was refused */
    SMYRILOX_DONE = 1,    /* the queue is empty, and no pixel is given up */
    SMYRILOX_LIMIT = 2,   /* the queue is empty, and a pixel is given up */
    SMYRILOX_MORE = 3,    /* the budget is spent */
    SMYRILOX_STOP = 4     /* a step was refused; the steps before it are finished */
};

/* The bytes of a picture: white, grey, black. */
enum {
    SMYRILOX_FALSE = 0,
    SMYRILOX_UNCERTAIN = 1,
    SMYRILOX_TRUE = 2
};

/* Why a pixel reads what it reads. */
enum {
    SMYRILOX_REASON_NONE = 0,     /* it was not explained: look at the refusal */
    SMYRILOX_REASON_TRUE = 1,     /* it reads True: a child marked it */
    SMYRILOX_REASON_FALSE = 2,    /* it reads False: no block that covers it is left, and none marked it or gave it up */
    SMYRILOX_REASON_GIVEN_UP = 3, /* it is uncertain, and given up */
    SMYRILOX_REASON_WAITING = 4   /* it is uncertain, not given up, and a queued block covers it */
};

/* What marked a pixel that reads True: the area verdict, or the sample point at this place. */
enum {
    SMYRILOX_POINT_NONE = 0,      /* the area verdict; from level 0 up that is every SMYRILOX_YES */
    SMYRILOX_POINT_SIMPLE_FRACTION = 1,
    SMYRILOX_POINT_BOTTOM_LEFT = 2,
    SMYRILOX_POINT_BOTTOM_RIGHT = 3,
    SMYRILOX_POINT_TOP_LEFT = 4,
    SMYRILOX_POINT_TOP_RIGHT = 5
};

/* A tile's side in pixels, how many numbers of a table it has, and the place of each among them. */
enum {
    SMYRILOX_TILE_SIDE = 16,
    SMYRILOX_TILE_NUMBERS = 4,
    SMYRILOX_TILE_TRUE = 0,
    SMYRILOX_TILE_FALSE = 1,
    SMYRILOX_TILE_UNCERTAIN = 2,
    SMYRILOX_TILE_GIVEN_UP = 3
};

/* An interval: lower <= upper, no NaN, and neither infinity alone. An integer parameter's finite bounds are whole. */
typedef struct {
    double lower;
    double upper;
} smyrilox_interval;

/* The ranges that the parameters are given at setup. Those of parameters that are not in the set are not looked at. */
typedef struct {
    smyrilox_interval m;
    smyrilox_interval n;
    smyrilox_interval theta;
    smyrilox_interval t;
} smyrilox_ranges;

/* A coordinate: from index * 2^level to (index + 1) * 2^level in pixels, both edges included. Legal with an index below 2^47 and a level from -32 to 15. */
typedef struct {
    uint64_t index;
    int32_t level;
} smyrilox_coordinate;

/* What is remembered of the last block queued or taken. */
typedef struct {
    uint64_t x;
    uint64_t y;
    smyrilox_interval m;
    smyrilox_interval n;
    smyrilox_interval theta;
    smyrilox_interval t;
} smyrilox_last;

/* What a setup chooses, and no step changes: the sides in pixels and the variables in use. The reserved bytes are kept for what later
 * releases let a setup choose. Write them 0. Today setup makes them 0 whatever they are, and nothing looks at them, so that a record that
 * is stored raw means the same to a later release. */
typedef struct {
    uint32_t width;
    uint32_t height;
    uint8_t set;
    uint8_t reserved1;
    uint8_t reserved2;
    uint8_t reserved3;
} smyrilox_chosen;

/* The record. A caller hands it on as it came; `taken` is also the number of steps finished, `queued - taken` the blocks waiting,
 * and `used` the bytes of the ring that hold them. Bytes 12 to 15, behind `chosen`, are padding and belong to no field: nothing looks at
 * them, and what they hold in an answer is not said. So compare two records by their fields, and write these bytes 0 in one that is
 * stored raw. */
typedef struct {
    smyrilox_chosen chosen;
    uint64_t taken;
    uint64_t queued;
    size_t len;
    size_t head;
    size_t used;
    smyrilox_last front;
    smyrilox_last back;
} smyrilox_state;

/* A child of the front block: its square of the picture (y counts from the bottom) and its part of each parameter's range; of a
 * parameter that is not used, the whole line. Both levels are equal. */
typedef struct {
    smyrilox_coordinate x;
    smyrilox_coordinate y;
    smyrilox_interval m;
    smyrilox_interval n;
    smyrilox_interval theta;
    smyrilox_interval t;
} smyrilox_child;

typedef struct {
    uint64_t refusal;
    uint64_t value;
} smyrilox_number;

typedef struct {
    uint64_t refusal;
    double value;
} smyrilox_point;

typedef struct {
    uint64_t refusal;
    smyrilox_state state;
} smyrilox_started;

typedef struct {
    uint64_t refusal;
    smyrilox_state state;
} smyrilox_moved;

typedef struct {
    uint64_t refusal;
    size_t count;
    smyrilox_child at[4];
} smyrilox_listed;

typedef struct {
    uint64_t refusal;
    uint64_t evaluations;
    size_t tape;
    smyrilox_state state;
} smyrilox_stepped;

typedef struct {
    uint64_t refusal;
    uint64_t ending;
    uint64_t stop;
    uint64_t steps;
    uint64_t evaluations;
    size_t tape;
    smyrilox_state state;
} smyrilox_ran;

/* An explanation. Steps count from 1 from the setup on, and a child's place counts from 1 over all children of its step, skipped ones too.
 *     SMYRILOX_REASON_TRUE      `child` of `step` marked the pixel last, by `point`
 *     SMYRILOX_REASON_FALSE     `step` took the last block that covers it, and `child` is the first covering one that was answered false;
 *                               every covering child of that step was
 *     SMYRILOX_REASON_GIVEN_UP  `step` was the last to give it up, and `child` is the first one there that found no direction to be cut in
 *     SMYRILOX_REASON_WAITING   `block` is the last queued block that covers it; blocks are numbered from 0 as they are queued, and `number`
 *                               is its number, `before` how many stand before it, and `direction` the place, from 0, of the direction in
 *                               which it is cut next: x and y together where either is used, then the used parameters in order
 * What does not apply is 0; a block that does not is (0, level 0) with whole lines. Behind the reason stands what a run of the same steps
 * answers: ending, steps, evaluations, tape bytes, and the record, which goes with the spare ring and cells. */
typedef struct {
    uint64_t refusal;
    uint64_t reason;
    uint64_t step;
    uint64_t child;
    uint64_t point;
    uint64_t number;
    uint64_t before;
    smyrilox_child block;
    uint64_t direction;
    uint64_t ending;
    uint64_t steps;
    uint64_t evaluations;
    size_t tape;
    smyrilox_state state;
} smyrilox_explained;

/* Pixels by reading; given-up cells, which are uncertain too; blocks waiting; settled pixels (True or False) in thousandths of all, rounded down:
 * share is 1000 exactly if no pixel is uncertain. */
typedef struct {
    uint64_t trues;
    uint64_t falses;
    uint64_t uncertain;
    uint64_t givenup;
    uint64_t queued;
    uint64_t share;
} smyrilox_tally;

typedef struct {
    uint64_t refusal;
    smyrilox_tally counts;
} smyrilox_counted;

typedef struct {
    uint64_t refusal;
    size_t count;
    smyrilox_interval at[3];
} smyrilox_pieces;

typedef struct {
    uint64_t refusal;
    uint8_t head;
    uint64_t tail;
    size_t count;
} smyrilox_code;

typedef struct {
    uint64_t refusal;
    uint64_t value;
    size_t count;
} smyrilox_read;

typedef struct {
    uint64_t refusal;
    smyrilox_coordinate low;
    smyrilox_coordinate high;
} smyrilox_halved;

/* The kinds of map from pixels to units: quick by slope and offset, precise from the left or the lower edge by the part of the way. Both
 * enclose; docs/EVALUATOR.md says which is the closer one where. As a byte, any other value than 0 is read as precise. */
enum {
    SMYRILOX_QUICK = 0,
    SMYRILOX_PRECISE = 1
};

/* Pixels at the rim of a picture, outside of its edges. */
typedef struct {
    uint32_t left;
    uint32_t right;
    uint32_t bottom;
    uint32_t top;
} smyrilox_padding;

/* Four intervals, in units: somewhere in each stands the edge of that name, of a picture or of a block. */
typedef struct {
    smyrilox_interval left;
    smyrilox_interval right;
    smyrilox_interval bottom;
    smyrilox_interval top;
} smyrilox_edges;

/* A plot: a picture, and where it lies in the caller's units (arrivals, crew). Pixel padding.left stands at the left edge and pixel
 * width - padding.right at the right one, padding.bottom at the lower edge and height - padding.top at the upper one, and the pixels
 * between share the way evenly; those of the padding go on outside. An edge that is no double, as 1/10, is given by two around it
 * (0.1 is another number). */
typedef struct {
    uint32_t width;
    uint32_t height;
    smyrilox_padding padding;
    smyrilox_edges edges;
} smyrilox_plot;

/* A block's box. */
typedef struct {
    uint64_t refusal;
    smyrilox_edges edges;
    smyrilox_interval x;
    smyrilox_interval y;
} smyrilox_boxed;

/* THE ENGINE */

/* How many cells a picture of these sides takes: one a pixel.
 * Refused by 1; then the value is 0. Writes nothing. */
smyrilox_number smyrilox_cells(uint32_t width, uint32_t height);

/* The shortest ring, in bytes, with which a setup is not refused by 6. It does not depend on the sides. Later steps need more: a step that
 * finds no room is refused by 6, and the way on is a move of the queue to a longer ring.
 * Refused by 1, 3 in this order; then the value is 0. Writes nothing. */
smyrilox_number smyrilox_least_ring(smyrilox_chosen chosen, smyrilox_ranges ranges);

/* A ring, in bytes, with which none of the first `steps` steps from this setup is refused by 6, whatever the verdicts: the least ring, and
 * for each step 27 bytes, or 50 + 18 u where the set has u parameters. A 64-bit number that has not wrapped.
 * Refused by 1, 3 in this order; then the value is 0. Writes nothing. */
smyrilox_number smyrilox_enough_ring(smyrilox_chosen chosen, smyrilox_ranges ranges, uint32_t steps);

/* Begins a picture: the block that covers all of it, cut first in each used parameter, is queued, and every pixel's cell names the last
 * block queued. Answers the record.
 * Refused by 1, 2, 3, 6 in this order; the record is then one that every call refuses by 8.
 * Writes the blocks' codes to ring[0..state.used) and the first width * height cells. */
smyrilox_started smyrilox_setup(smyrilox_chosen chosen, smyrilox_ranges ranges, uint8_t *ring, size_t ring_len,
                                uint64_t *cells, size_t cells_len);

/* The children of the front block, the first `count` of `at`, one to four: what the next step asks verdicts for, in this order. The
 * places behind hold no child.
 * Refused by 8 for the record, 13, 8 for the block (its cells are not looked at); then the count is 0. Writes nothing. */
smyrilox_listed smyrilox_children(smyrilox_state state, const uint8_t *ring, size_t ring_len);

/* One step: takes the front block, judges each child by its verdict, marks the pixels found True, queues what is left to do, and gives
 * up what can no longer be divided. Answers the record afterwards, the evaluations that the verdicts stand for, and in `tape` how many
 * verdict bytes it took.
 * Refused by 8 for the record, 2, 13, 8 for the block, 4, 5, 7, 6 in this order; then evaluations and tape are 0.
 * Writes ring bytes behind those used, in a full ring also those that the block just taken has freed, and cells of pixels that the block
 * covers. */
smyrilox_stepped smyrilox_step(smyrilox_state state, uint8_t *ring, size_t ring_len, uint64_t *cells, size_t cells_len,
                               const uint8_t *verdicts, size_t verdicts_len);

/* Steps on a tape of verdicts until, tested in this order, the queue is empty (done, or limit), `budget` steps are finished (more), or
 * a step is refused (stop; its number is in `stop`, which is 0 otherwise). Answers the record that the finished steps leave, their
 * number, and the sums of their evaluations and tape bytes. The tape has one byte for each child of each step, also for a child that is
 * skipped: one byte left out shifts all that follow to other children, and nothing can notice.
 * Refused by 8 for the record, 2; then ending, stop and all sums are 0. Writes what the finished steps write. */
smyrilox_ran smyrilox_run(smyrilox_state state, uint8_t *ring, size_t ring_len, uint64_t *cells, size_t cells_len,
                          const uint8_t *tape, size_t tape_len, uint32_t budget);

/* Moves the queue to another ring, longer or shorter: the same blocks in the same order, their codes from other[0] on. Answers the record
 * that goes with the other ring; cells and counts are as they were. The cells go on with the new record: the old record and the old ring
 * are not to be used any more.
 * Refused by 8 for the record, which has the old ring's length, then by 6 where the codes do not fit or the other ring has no byte; the
 * record is then the one that was given. Writes other[0..state.used). The two rings share no byte. */
smyrilox_moved smyrilox_move_queue(smyrilox_state state, const uint8_t *ring, size_t ring_len, uint8_t *other, size_t other_len);

/* Writes a byte for each pixel, rows from the top: SMYRILOX_FALSE, SMYRILOX_UNCERTAIN or SMYRILOX_TRUE. Bytes beyond the pixels stay.
 * Answers the refusal, or 0: 8 for the record, 2, 12, 8 for a cell. A refused picture has drawn nothing: the buffer is as it was, and a
 * zeroed one then looks all white. Fill it with SMYRILOX_UNCERTAIN first, or look at the answer. */
uint64_t smyrilox_picture(smyrilox_state state, const uint64_t *cells, size_t cells_len, uint8_t *picture, size_t picture_len);

/* The counts of the picture as it is.
 * Refused by 8 for the record, 2, 8 for a cell; then all counts are 0, `uncertain` too, which does not mean that all is decided: look at the refusal.
 * Writes nothing. */
smyrilox_counted smyrilox_counts(smyrilox_state state, const uint64_t *cells, size_t cells_len);

/* THE TABLE: how many pixels of each tile read what, beside the picture.
 * A tile has 16 by 16 pixels; those at the right and the lower edge may be smaller. Tiles count row by row from the top left: the one in
 * column c and row r is tile r * columns + c, where columns is (width + 15) / 16. Tile i has four numbers from table[4 * i] on: its pixels
 * that read True, False and Uncertain, which add up to all of its pixels, and those of the uncertain ones that are given up. What lies beyond
 * four numbers a tile is never read or written.
 * After smyrilox_setup_with_table or smyrilox_fill_table, and while every step takes the table as the call before left it, it equals a
 * recount of the picture after every finished step, and a step changes only tiles that its block touches. So nobody else may write it. A
 * step or a run without the table leaves it out of date, and no call can notice: then fill it again. A move of the queue changes no
 * pixel, so the table goes on with the moved record. A refused call changes no number of it. */

/* How many tiles a picture of these sides has: a table has four numbers for each.
 * Refused by 1; then the value is 0. Writes nothing. */
smyrilox_number smyrilox_tile_count(uint32_t width, uint32_t height);

/* smyrilox_setup, which fills the table too.
 * Refused by 1, 2, 17, 3, 6 in this order. Writes what smyrilox_setup writes, and the table's first four numbers a tile. */
smyrilox_started smyrilox_setup_with_table(smyrilox_chosen chosen, smyrilox_ranges ranges, uint8_t *ring, size_t ring_len,
                                           uint64_t *cells, size_t cells_len, uint32_t *table, size_t table_len);

/* smyrilox_step, which brings the table up to date: the tiles that the taken block touches are counted anew, whatever the table held.
 * Refused by 8 for the record, 2, 17, 13, 8 for the block, 4, 5, 7, 6 in this order; here 8 for the block also speaks of every cell in a
 * touched tile, also one that the block does not cover. Writes what smyrilox_step writes, and the numbers of the touched tiles. */
smyrilox_stepped smyrilox_step_with_table(smyrilox_state state, uint8_t *ring, size_t ring_len, uint64_t *cells, size_t cells_len,
                                          uint32_t *table, size_t table_len, const uint8_t *verdicts, size_t verdicts_len);

/* smyrilox_run, whose steps are those with the table.
 * Refused by 8 for the record, 2, 17 in this order. Writes what the finished steps write. */
smyrilox_ran smyrilox_run_with_table(smyrilox_state state, uint8_t *ring, size_t ring_len, uint64_t *cells, size_t cells_len,
                                     uint32_t *table, size_t table_len, const uint8_t *tape, size_t tape_len, uint32_t budget);

/* Fills a table by a recount of all pixels: for a picture that was begun without one, that was loaded, or whose table is out of date.
 * Answers the refusal, or 0: 8 for the record, 2, 17, 8 for a cell. Writes the table's first four numbers a tile. */
uint64_t smyrilox_fill_table(smyrilox_state state, const uint64_t *cells, size_t cells_len, uint32_t *table, size_t table_len);

/* THE EXPLAINER */

/* Why the pixel in this column, and in this row from the top, reads what it reads after `steps` steps of the picture that was begun with
 * this `chosen` and these `ranges` and stepped with the verdicts of `tape`, one byte for each child of each step. The steps are repeated
 * in a ring and cells that are lent for it, not in the picture's own. If the queue empties sooner, it answers for that end: `steps` of the
 * answer says for which.
 * Refused by 1, 2, 3, 6 as a setup is, then by 18; then nothing is written, the ending is 0 and the record one that every call refuses by 8.
 * A step that refuses on the way gives its number: 4 where the tape ends early, 5, 7, or 6 where the spare ring has no room. A spare ring
 * that is shorter than the picture's may come to 6 where the picture did not; one as long as the longest that the picture had does not.
 * Then the ending is SMYRILOX_STOP, and the spare ring, the cells, the record and the sums are those of the steps before it: the one
 * refused call that has written.
 * Writes what the setup and the finished steps write, so that the spare ring and cells then are the picture as it was after those steps. */
smyrilox_explained smyrilox_explain(smyrilox_chosen chosen, smyrilox_ranges ranges, uint8_t *ring, size_t ring_len, uint64_t *cells,
                                    size_t cells_len, const uint8_t *tape, size_t tape_len, uint32_t steps, uint32_t column, uint32_t row);

/* THE LEAVES: none writes anything. */

/* The midpoint as IEEE 1788 has it, rounded once; a zero is +0. Refused by 3; then the value is 0. */
smyrilox_point smyrilox_midpoint(smyrilox_interval x);

/* A number between the bounds with few digits, the first sample point; it may be -0 or infinite. Refused by 3; then the value is 0. */
smyrilox_point smyrilox_simple_fraction(smyrilox_interval x);

/* Where the later cut divides the range of a parameter, an integer one or a real one. Refused by 3; then the value is 0. */
smyrilox_point smyrilox_subdivision_point(smyrilox_interval x, bool integer);

/* Whether the midpoint, rounded to whole for an integer parameter, equals neither bound: 1 yes, 0 no. Refused by 3; then the value is 0. */
smyrilox_number smyrilox_is_subdivisible(smyrilox_interval x, bool integer);

/* The pieces of a range at setup, the first `count` of `at`, one to three. Refused by 3; then the count is 0. Unused places hold the
 * whole line. */
smyrilox_pieces smyrilox_first_cut(smyrilox_interval x, bool integer);

/* The pieces of a range in a step, likewise. */
smyrilox_pieces smyrilox_later_cut(smyrilox_interval x, bool integer);

/* The code of a number: the head byte, then the `count` low bytes of `tail`, lowest first. Refused by 9; then all is 0. */
smyrilox_code smyrilox_write_small(uint64_t x);

/* The number whose code stands at the front of some bytes, and in `count` how many of them it takes; a code may be longer than needed.
 * Refused by 10 without a byte, 11, 10 where the tail ends early; then all is 0. */
smyrilox_read smyrilox_read_small(const uint8_t *bytes, size_t bytes_len);

/* The pixel that a coordinate begins in. Refused by 8 for an index or a level outside the ranges; then the value is 0. */
smyrilox_number smyrilox_pixel_index(smyrilox_coordinate c);

/* The two halves, one level down. Refused by 8, also where they would leave the ranges; then both are index 0 on level 0. */
smyrilox_halved smyrilox_halves(smyrilox_coordinate c);

/* Whether a coordinate has a level below it: 1 yes, 0 no; its halves may still be refused for their index. Refused by 8 for an index or a
 * level outside the ranges; then the value is 0. */
smyrilox_number smyrilox_is_halvable(smyrilox_coordinate c);

/* THE BOXES: a block's square in the caller's units. None writes anything. */

/* The box of the block with these two coordinates. `edges` has four intervals: wherever in their own intervals the plot's edges stand, the
 * exact place of the block's left, right, lower and upper edge lies in the interval of that name. A block that reaches over the picture's
 * right or upper edge is clipped to it. If the plot's left edge is not right of its right one, and its lower one not above its upper one,
 * every point of the block lies in the OUTER box, smyrilox_outer_x by smyrilox_outer_y: judge that one, so that a no for all of it is a no
 * for the block.
 * `x` and `y` are what graphest hands to its evaluator. Above level 0 they are the outer box. From level 0 down an end on a pixel's edge is
 * the outer one too, and any other is the midpoint of its interval, which the part beside it shares; of a box narrowed so nothing is proved.
 * Refused by 1, 16, 3 for an edge (an infinite one is legal), 8 for a coordinate outside the ranges, two levels that differ or a block that
 * begins outside the picture, 15 where a bound is not finite or ends of the box cross, in this order; then all six intervals are the whole
 * line, so that an evaluator that did not look judges all there is, and is not wrong. */
smyrilox_boxed smyrilox_block_box(smyrilox_plot plot, uint8_t kind, smyrilox_coordinate x, smyrilox_coordinate y);

/* The outer box: from the least place of the one edge to the greatest of the other. */
static inline smyrilox_interval smyrilox_outer_x(smyrilox_boxed box) {
    smyrilox_interval x = {box.edges.left.lower, box.edges.right.upper};
    return x;
}

static inline smyrilox_interval smyrilox_outer_y(smyrilox_boxed box) {
    smyrilox_interval y = {box.edges.bottom.lower, box.edges.top.upper};
    return y;
}

/* THE LAYOUT: where each field lies, in bytes, as the library has it; bytes that no field holds are padding. A compiler that is told to
 * lay records out otherwise stops here. */

/* A number made of the sizes and places below, which libsmyrilox (not libcapi.a) was built with: a program that loads a library at run
 * time compares it with the number of its own records before it hands one over. bindings/c/layout.c says how it is made. */
uint64_t smyrilox_layout(void);

#ifdef __cplusplus
#define SMYRILOX_SURE(fact) static_assert(fact, #fact)
#else
#define SMYRILOX_SURE(fact) _Static_assert(fact, #fact)
#endif
#define SMYRILOX_SIZE(record, bytes) SMYRILOX_SURE(sizeof(smyrilox_##record) == bytes)
#define SMYRILOX_PLACE(record, field, byte) SMYRILOX_SURE(offsetof(smyrilox_##record, field) == byte)

SMYRILOX_SIZE(interval, 16); SMYRILOX_PLACE(interval, lower, 0); SMYRILOX_PLACE(interval, upper, 8);
SMYRILOX_SIZE(ranges, 64); SMYRILOX_PLACE(ranges, m, 0); SMYRILOX_PLACE(ranges, n, 16); SMYRILOX_PLACE(ranges, theta, 32);
    SMYRILOX_PLACE(ranges, t, 48);
SMYRILOX_SIZE(coordinate, 16); SMYRILOX_PLACE(coordinate, index, 0); SMYRILOX_PLACE(coordinate, level, 8);
SMYRILOX_SIZE(last, 80); SMYRILOX_PLACE(last, x, 0); SMYRILOX_PLACE(last, y, 8); SMYRILOX_PLACE(last, m, 16); SMYRILOX_PLACE(last, n, 32);
    SMYRILOX_PLACE(last, theta, 48); SMYRILOX_PLACE(last, t, 64);
SMYRILOX_SIZE(chosen, 12); SMYRILOX_PLACE(chosen, width, 0); SMYRILOX_PLACE(chosen, height, 4); SMYRILOX_PLACE(chosen, set, 8);
    SMYRILOX_PLACE(chosen, reserved1, 9); SMYRILOX_PLACE(chosen, reserved2, 10); SMYRILOX_PLACE(chosen, reserved3, 11);
SMYRILOX_SIZE(state, 216); SMYRILOX_PLACE(state, chosen, 0); SMYRILOX_PLACE(state, taken, 16); SMYRILOX_PLACE(state, queued, 24);
    SMYRILOX_PLACE(state, len, 32); SMYRILOX_PLACE(state, head, 40); SMYRILOX_PLACE(state, used, 48); SMYRILOX_PLACE(state, front, 56);
    SMYRILOX_PLACE(state, back, 136);
SMYRILOX_SIZE(child, 96); SMYRILOX_PLACE(child, x, 0); SMYRILOX_PLACE(child, y, 16); SMYRILOX_PLACE(child, m, 32);
    SMYRILOX_PLACE(child, n, 48); SMYRILOX_PLACE(child, theta, 64); SMYRILOX_PLACE(child, t, 80);
SMYRILOX_SIZE(number, 16); SMYRILOX_PLACE(number, refusal, 0); SMYRILOX_PLACE(number, value, 8);
SMYRILOX_SIZE(point, 16); SMYRILOX_PLACE(point, refusal, 0); SMYRILOX_PLACE(point, value, 8);
SMYRILOX_SIZE(started, 224); SMYRILOX_PLACE(started, refusal, 0); SMYRILOX_PLACE(started, state, 8);
SMYRILOX_SIZE(moved, 224); SMYRILOX_PLACE(moved, refusal, 0); SMYRILOX_PLACE(moved, state, 8);
SMYRILOX_SIZE(listed, 400); SMYRILOX_PLACE(listed, refusal, 0); SMYRILOX_PLACE(listed, count, 8); SMYRILOX_PLACE(listed, at, 16);
SMYRILOX_SIZE(stepped, 240); SMYRILOX_PLACE(stepped, refusal, 0); SMYRILOX_PLACE(stepped, evaluations, 8);
    SMYRILOX_PLACE(stepped, tape, 16); SMYRILOX_PLACE(stepped, state, 24);
SMYRILOX_SIZE(ran, 264); SMYRILOX_PLACE(ran, refusal, 0); SMYRILOX_PLACE(ran, ending, 8); SMYRILOX_PLACE(ran, stop, 16);
    SMYRILOX_PLACE(ran, steps, 24); SMYRILOX_PLACE(ran, evaluations, 32); SMYRILOX_PLACE(ran, tape, 40); SMYRILOX_PLACE(ran, state, 48);
SMYRILOX_SIZE(explained, 408); SMYRILOX_PLACE(explained, refusal, 0); SMYRILOX_PLACE(explained, reason, 8);
    SMYRILOX_PLACE(explained, step, 16); SMYRILOX_PLACE(explained, child, 24); SMYRILOX_PLACE(explained, point, 32);
    SMYRILOX_PLACE(explained, number, 40); SMYRILOX_PLACE(explained, before, 48); SMYRILOX_PLACE(explained, block, 56);
    SMYRILOX_PLACE(explained, direction, 152); SMYRILOX_PLACE(explained, ending, 160); SMYRILOX_PLACE(explained, steps, 168);
    SMYRILOX_PLACE(explained, evaluations, 176); SMYRILOX_PLACE(explained, tape, 184); SMYRILOX_PLACE(explained, state, 192);
SMYRILOX_SIZE(tally, 48); SMYRILOX_PLACE(tally, trues, 0); SMYRILOX_PLACE(tally, falses, 8); SMYRILOX_PLACE(tally, uncertain, 16);
    SMYRILOX_PLACE(tally, givenup, 24); SMYRILOX_PLACE(tally, queued, 32); SMYRILOX_PLACE(tally, share, 40);
SMYRILOX_SIZE(counted, 56); SMYRILOX_PLACE(counted, refusal, 0); SMYRILOX_PLACE(counted, counts, 8);
SMYRILOX_SIZE(pieces, 64); SMYRILOX_PLACE(pieces, refusal, 0); SMYRILOX_PLACE(pieces, count, 8); SMYRILOX_PLACE(pieces, at, 16);
SMYRILOX_SIZE(code, 32); SMYRILOX_PLACE(code, refusal, 0); SMYRILOX_PLACE(code, head, 8); SMYRILOX_PLACE(code, tail, 16);
    SMYRILOX_PLACE(code, count, 24);
SMYRILOX_SIZE(read, 24); SMYRILOX_PLACE(read, refusal, 0); SMYRILOX_PLACE(read, value, 8); SMYRILOX_PLACE(read, count, 16);
SMYRILOX_SIZE(halved, 40); SMYRILOX_PLACE(halved, refusal, 0); SMYRILOX_PLACE(halved, low, 8); SMYRILOX_PLACE(halved, high, 24);
SMYRILOX_SIZE(padding, 16); SMYRILOX_PLACE(padding, left, 0); SMYRILOX_PLACE(padding, right, 4); SMYRILOX_PLACE(padding, bottom, 8);
    SMYRILOX_PLACE(padding, top, 12);
SMYRILOX_SIZE(edges, 64); SMYRILOX_PLACE(edges, left, 0); SMYRILOX_PLACE(edges, right, 16); SMYRILOX_PLACE(edges, bottom, 32);
    SMYRILOX_PLACE(edges, top, 48);
SMYRILOX_SIZE(plot, 88); SMYRILOX_PLACE(plot, width, 0); SMYRILOX_PLACE(plot, height, 4); SMYRILOX_PLACE(plot, padding, 8);
    SMYRILOX_PLACE(plot, edges, 24);
SMYRILOX_SIZE(boxed, 104); SMYRILOX_PLACE(boxed, refusal, 0); SMYRILOX_PLACE(boxed, edges, 8); SMYRILOX_PLACE(boxed, x, 72);
    SMYRILOX_PLACE(boxed, y, 88);

#undef SMYRILOX_PLACE
#undef SMYRILOX_SIZE
#undef SMYRILOX_SURE

#ifdef __cplusplus
}
#endif

#endif
