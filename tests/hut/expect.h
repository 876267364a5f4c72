/* What the examples share: how they count, and the paper's first list with its plan. */
#ifndef EXPECT_H
#define EXPECT_H

#include "hut.h"

#include <stdio.h>

static int passed, failed;

static inline void expect(const char *what, int good)
{
    if (good) {
        passed++;
    } else {
        failed++;
        printf("FAILED: %s\n", what);
    }
}

/* The last line, and the program's exit status. */
static inline int counted(void)
{
    printf("%d passed, %d failed\n", passed, failed);
    return failed != 0;
}

/* An answer's number and whole place. */
static inline int is(struct hut_answer a, size_t number, size_t fault, size_t slot, size_t job, size_t pred, size_t switched, size_t edge)
{
    return a.number == number && a.place.fault == fault && a.place.slot == slot && a.place.job == job
        && a.place.pred == pred && a.place.switched == switched && a.place.edge == edge;
}

#define NO HUT_ABSENT

/* An answer with no place. */
static inline int bare(struct hut_answer a, size_t number)
{
    return is(a, number, NO, NO, NO, NO, NO, NO);
}

/* An order, and nothing else. */
static inline int orders(struct hut_answer a, size_t job)
{
    return bare(a, 0) && a.order == job && a.length == NO;
}

static inline int all(const void *bytes, size_t from, size_t to, uint8_t value)
{
    const uint8_t *b = bytes;
    for (size_t i = from; i < to; i++) {
        if (b[i] != value) {
            return 0;
        }
    }
    return 1;
}

/* List A: job 0 (0, 5, high, 1, 3) and job 1 (0, 3, low, 2, 2). */
static const uint8_t list_a[28] = {
    0x02, 0x00, 0x00, 0x00, 0x05, 0x00, 0x00, 0x00,
    0x00, 0x00, 0x05, 0x00, 0x01, 0x00, 0x03, 0x00, 0x01, 0x00,
    0x00, 0x00, 0x03, 0x00, 0x02, 0x00, 0x02, 0x00, 0x00, 0x00,
};

/* P1: its whole plan. */
static const uint8_t plan_a[46] = {
    0x02, 0x00, 0x00, 0x00, 0x05, 0x00, 0x00, 0x00,
    0x00, 0x00, 0x05, 0x00, 0x01, 0x00, 0x03, 0x00, 0x01, 0x00,
    0x00, 0x00, 0x03, 0x00, 0x02, 0x00, 0x02, 0x00, 0x00, 0x00,
    0x01, 0x01, 0x00, 0xFF, 0xFF,
    0x01, 0x01, 0x00, 0x00, 0x00,
    0x26, 0x00, 0x00, 0x00, 0x54, 0x54, 0x50, 0x31,
};

#endif
