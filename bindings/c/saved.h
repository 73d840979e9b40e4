/* A chart on disk, from C: record, queue and cells together, in layout 2 of bindings/SAVED.md, which the Rust crate and the Python module
 * read and write too; layout 1 is read. Over smyrilox.h alone; nothing is allocated or kept. What a caller owes is said at the top of that header.
 *
 *     saved_size, save        a chart as bytes
 *     look, load              what memory a saved chart asks for, and the chart in that memory
 *
 * A tag is the caller's bytes for what the chart is of: the relation, the evaluator and its version. A load must name it. */
#ifndef SMYRILOX_SAVED_H
#define SMYRILOX_SAVED_H

#include "smyrilox.h"

#ifdef __cplusplus
extern "C" {
#endif

/* Why bytes are not loaded, or a chart is not saved. */
enum {
    SMYRILOX_SAVED_OK = 0,
    SMYRILOX_SAVED_NAME = 1,    /* they do not begin as a saved chart does */
    SMYRILOX_SAVED_LAYOUT = 2,  /* saved in a layout that is neither 1 nor 2 */
    SMYRILOX_SAVED_LENGTH = 3,  /* more or fewer bytes than the head asks for, or a field with a value that it cannot have */
    SMYRILOX_SAVED_CHECK = 4,   /* a byte was changed */
    SMYRILOX_SAVED_KIND = 5,    /* a kind of chart that this release does not have */
    SMYRILOX_SAVED_TAG = 6,     /* saved with another tag */
    SMYRILOX_SAVED_MEMORY = 7,  /* the buffers have other lengths than the chart; of a save, too few bytes for it */
    SMYRILOX_SAVED_REFUSED = 8  /* the engine refuses it, by the number in `refusal` */
};

/* What a saved chart asks for, and where its parts lie among the bytes. `known` says whether its ranges are: a chart that came from layout 1
 * does not say them. */
typedef struct {
    uint64_t why;
    smyrilox_state state;
    smyrilox_ranges ranges;
    bool known;
    size_t tag_at, tag_len, queue_at, queue_len, cells_at, cells_len;
} smyrilox_saved;

typedef struct {
    uint64_t why;
    uint64_t refusal;
    smyrilox_state state;
    smyrilox_ranges ranges;
    bool known;
} smyrilox_loaded;

/* How many bytes the chart takes, saved with a tag of so many bytes. */
size_t smyrilox_saved_size(smyrilox_state state, size_t tag_len);

/* Writes the chart to out[0..smyrilox_saved_size(state, tag_len)). `ranges` are the setup's, or NULL where they are not known. Answers 0, or
 * SMYRILOX_SAVED_REFUSED where the engine refuses the record or a cell, SMYRILOX_SAVED_MEMORY where `out` is too short or the tag has 2^32
 * bytes or more; then nothing is written. */
uint64_t smyrilox_save(smyrilox_state state, const smyrilox_ranges *ranges, const uint8_t *ring, size_t ring_len, const uint64_t *cells,
                       size_t cells_len, const uint8_t *tag, size_t tag_len, uint8_t *out, size_t out_len);

/* What saved bytes ask for: a ring of state.len bytes and cells_len cells. Bytes that are not whole are told by `why`. */
smyrilox_saved smyrilox_look(const uint8_t *bytes, size_t bytes_len);

/* Reads the chart that was saved with this tag into a ring and cells of its lengths. Not loaded, they may have been written, and the record
 * is one that every call refuses by 8: a picture of cells that were never read would be white. */
smyrilox_loaded smyrilox_load(const uint8_t *bytes, size_t bytes_len, const uint8_t *tag, size_t tag_len, uint8_t *ring, size_t ring_len,
                              uint64_t *cells, size_t cells_len);

#ifdef __cplusplus
}
#endif

#endif
