/* What the reference's files share: the words of a table, and a complement as it is explored. */
#ifndef REFERENCE_PARTS_H
#define REFERENCE_PARTS_H

#include "reference.h"

#include <stdbool.h>
#include <stddef.h>
#include <stdint.h>

enum { PATTERN_STATES = 32, PATTERN_RECORDS = 4096, WIDE_MOST = 65535, LETTERS_MOST = 16, RECORD_WORDS = 4 };

/* Which of 2 to 9 refuses a table, or 0. */
uint32_t reference_table_refusal(const uint16_t *t, size_t len, uint32_t states_most, uint32_t records_most);

/* What a lasso decision answers with so many work words. */
struct reference_decision reference_decide(const uint16_t *table, size_t len, const uint8_t *prefix, size_t prefix_len,
                                           const uint8_t *loop, size_t loop_len, size_t work_len);

static inline uint32_t flags_of(const uint16_t *t, uint32_t state)
{
    return t[3 + 2 * state];
}

static inline uint32_t head_of(const uint16_t *t, uint32_t state)
{
    return t[4 + 2 * state];
}

/* The three words of a record: letter, target, next. */
static inline const uint16_t *record_of(const uint16_t *t, uint32_t record)
{
    return t + 3 + 2 * (size_t)t[0] + 3 * (size_t)(record - 1);
}

/* A state of the complement: the sets N, C, S and B. */
struct quadruple {
    uint32_t n, c, s, b;
};

struct found {
    struct quadruple quadruple;
    uint32_t smaller, larger; /* a search tree over the quadruples: state numbers, 0 for none (0 is its root) */
};

struct edge {
    uint32_t source, letter, target;
};

struct reference_complement {
    struct reference_checked checked; /* why the pattern is refused, or number 0 */
    uint32_t states;                  /* stops soon after WIDE_MOST */
    uint32_t initials;                /* the initial states are those below */
    uint32_t letters;
    size_t states_room, edges_room;
    uint64_t edges; /* all of them; only the first WIDE_MOST are kept */
    struct found *state;
    struct edge *edge;
};

#endif
