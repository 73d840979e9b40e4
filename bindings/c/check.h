/* What the C tests share: a count of failures, and the words in which a chart is asked for. SUBJECT, defined before, says which test speaks. */
#ifndef CHECK_H
#define CHECK_H
#include "smyrilox.h"
#include <stdio.h>

static int failures = 0;

static inline void check(bool right, const char *what) {
    if (!right) {
        printf("c: " SUBJECT "not so: %s\n", what);
        failures += 1;
    }
}

#define INFINITE (1.0 / 0.0)
#define WHOLE {-INFINITE, INFINITE}

static const smyrilox_ranges whole = {WHOLE, WHOLE, WHOLE, WHOLE};

static inline smyrilox_chosen chosen(uint32_t width, uint32_t height, uint8_t set) {
    return (smyrilox_chosen){.width = width, .height = height, .set = set};
}
#endif
