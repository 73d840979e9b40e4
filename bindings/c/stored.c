/* Charts with n_theta that an earlier release stored, taken to their ends: stored.c FILE. bindings/stored has the file, and says what each
 * line holds. Record, ring and cells are put into memory as they were stored there, run along the tape, and compared. */
#define _POSIX_C_SOURCE 200809L /* strdup */
#include "smyrilox.h"

#include <stdio.h>
#include <stdlib.h>
#include <string.h>

enum { MOST = 4096 };

static const char *const WORDS[] = {
    "chart", "begun", "before", "record", "front", "back", "ring", "cells", "raw", "saved", "tape", "budget", "run",
    "end-record", "end-front", "end-back", "end-ring", "end-cells", "end-raw", "end-saved", "picture", "counts",
};

/* What stands behind each word, in the chart that is read. */
static char *values[sizeof WORDS / sizeof *WORDS];

static const char *line_of(const char *word)
{
    for (size_t i = 0; i < sizeof WORDS / sizeof *WORDS; i++)
        if (!strcmp(WORDS[i], word) && values[i])
            return values[i];
    fprintf(stderr, "stored: no line %s\n", word);
    exit(1);
}

/* The bytes of a line of hexadecimal digits. */
static size_t bytes_of(const char *word, uint8_t *out)
{
    const char *text = line_of(word);
    size_t count = strlen(text) / 2;
    for (size_t i = 0; i < count && i < MOST; i++) {
        unsigned byte;
        sscanf(text + 2 * i, "%2x", &byte);
        out[i] = (uint8_t)byte;
    }
    return count;
}

static size_t numbers_of(const char *text, uint64_t *out)
{
    size_t count = 0;
    for (char *end; *text && count < MOST; text = end + (*end == ' '))
        out[count++] = strtoull(text, &end, 10);
    return count;
}

static void must(int fine, const char *what)
{
    if (!fine) {
        fprintf(stderr, "stored: chart %s: %s differs\n", line_of("chart"), what);
        exit(1);
    }
}

/* A record as it was stored; the bytes between its fields say nothing. */
static smyrilox_state record_of(const char *word)
{
    uint8_t raw[MOST];
    smyrilox_state state;
    must(bytes_of(word, raw) == sizeof state, "the size of a record");
    memcpy(&state, raw, sizeof state);
    return state;
}

static int same_record(smyrilox_state a, smyrilox_state b)
{
    return !memcmp(&a.chosen, &b.chosen, sizeof a.chosen) && !memcmp(&a.taken, &b.taken, sizeof a - offsetof(smyrilox_state, taken));
}

static uint64_t ending_of(const char *text)
{
    return !strncmp(text, "done ", 5) ? SMYRILOX_DONE : !strncmp(text, "limit ", 6) ? SMYRILOX_LIMIT : SMYRILOX_NOT_RUN;
}

static uint8_t ring[MOST], ring_wanted[MOST], tape[MOST], picture[MOST], picture_wanted[MOST];
static uint64_t cells[MOST], cells_wanted[MOST], answer[MOST], counted[MOST];

static void play(void)
{
    size_t ring_len = bytes_of("ring", ring), cells_len = numbers_of(line_of("cells"), cells), tape_len = bytes_of("tape", tape);
    smyrilox_state state = record_of("raw");
    const char *run = line_of("run");
    smyrilox_ran ran = smyrilox_run(state, ring, ring_len, cells, cells_len, tape, tape_len, (uint32_t)strtoul(line_of("budget"), NULL, 10));
    must(ran.refusal == 0 && ran.ending == ending_of(run), "the ending");
    must(numbers_of(strchr(run, ' ') + 1, answer) == 4, "the line of the run");
    must(ran.stop == answer[0] && ran.steps == answer[1] && ran.evaluations == answer[2] && ran.tape == answer[3], "the run");
    must(same_record(ran.state, record_of("end-raw")), "the record");
    must(bytes_of("end-ring", ring_wanted) == ring_len && !memcmp(ring, ring_wanted, ring_len), "the ring");
    must(numbers_of(line_of("end-cells"), cells_wanted) == cells_len && !memcmp(cells, cells_wanted, 8 * cells_len), "the cells");

    size_t pixels = bytes_of("picture", picture_wanted);
    memset(picture, 1, sizeof picture);
    must(smyrilox_picture(ran.state, cells, cells_len, picture, pixels) == 0 && !memcmp(picture, picture_wanted, pixels), "the picture");
    smyrilox_counted got = smyrilox_counts(ran.state, cells, cells_len);
    must(got.refusal == 0 && numbers_of(line_of("counts"), counted) == 6, "the line of the counts");
    must(got.counts.trues == counted[0] && got.counts.falses == counted[1] && got.counts.uncertain == counted[2] &&
             got.counts.givenup == counted[3] && got.counts.queued == counted[4] && got.counts.share == counted[5],
         "the counts");
}

/* One line into its place; a chart is whole with its last line. */
static int keep(char *line)
{
    char *space = strchr(line, ' ');
    if (line[0] == '#' || !space)
        return 0;
    *space = 0;
    space[1 + strcspn(space + 1, "\n")] = 0;
    for (size_t i = 0; i < sizeof WORDS / sizeof *WORDS; i++)
        if (!strcmp(WORDS[i], line)) {
            free(values[i]);
            values[i] = strdup(space + 1);
        }
    return !strcmp(line, "counts");
}

int main(int count, char **words)
{
    static char line[16 * MOST];
    FILE *file = count == 2 ? fopen(words[1], "r") : NULL;
    int played = 0;
    if (!file) {
        fprintf(stderr, "stored: FILE is wanted: bindings/stored/charts.txt\n");
        return 1;
    }
    while (fgets(line, sizeof line, file))
        if (keep(line)) {
            play();
            played++;
        }
    printf("c: %d stored charts came to their ends\n", played);
    return played < 24;
}
