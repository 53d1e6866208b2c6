/* The same five jobs without any proof, written for speed: what the library's times are measured against. */
#ifndef FAST_H
#define FAST_H

#include <stddef.h>
#include <stdint.h>

/* Where a pattern forks that is refused by 10; zero and zero with every other number. */
struct fast_place {
    uint32_t state, letter;
};

struct fast_checked {
    uint32_t number;
    struct fast_place place;
};

struct fast_counts {
    uint32_t number, states, edges; /* the benchmark builds no pattern that forks */
};

struct fast_decision {
    uint32_t number, taken;
};

struct fast_written {
    uint32_t number;
    uint64_t count;
};

/* How a build looks a quadruple up: in a hash table, or by going through all states found so far. */
enum fast_lookup { FAST_HASH, FAST_SCAN };

struct fast_checked fast_check(const uint16_t *table, size_t len);

/* Allocates its hash table and its list of edges within the call. */
struct fast_counts fast_build(const uint16_t *table, size_t len, uint16_t *words, size_t words_len, uint32_t *sets,
                              size_t sets_len, enum fast_lookup lookup);

/* The words of work that fast_lasso is lent: five for each state and position. */
size_t fast_work_words(uint32_t states, size_t prefix_len, size_t loop_len);

/* Allocates lists of targets by state and letter within the call, and clears the part of the work words that it needs
 * cleared. It leaves the work words as they are in the end. */
struct fast_decision fast_lasso(const uint16_t *table, size_t len, const uint8_t *prefix, size_t prefix_len,
                                const uint8_t *loop, size_t loop_len, uint32_t *work);

/* Checks the table and lists its targets once, and then searches for each lasso as fast_lasso does, in the work words
 * that the largest of them takes there. It measures none against them: the benchmark lends enough. */
struct fast_written fast_tray(const uint16_t *table, size_t len, const uint16_t *list, size_t list_len,
                              uint8_t *answers, size_t answers_len, uint32_t *work);

struct fast_written fast_merge(const uint16_t *first, size_t first_len, const uint16_t *second, size_t second_len,
                               uint16_t *words, size_t words_len);

#endif
