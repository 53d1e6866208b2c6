/* An independent implementation of the check, the build, the lasso decision, the tray, the merge and the listing, to
 * compare with.
 *
 * It follows the rules by their words and not by a clever way: chains are proved sound by sorting all links, the states
 * behind an accepting one come from a transitive closure, forks from comparing each two records, a successor is any
 * quadruple that meets all conditions, found by trying every candidate, a lasso is decided by powers of its loop's
 * relation, what a list holds is found from its end, and the number of a state or record in a merged pattern is found
 * by looking for it in a line of all. It shares no code, no algorithm and no header with the library. It is slow, and
 * right only as far as reading it shows. It ends the program where memory runs out. */
#ifndef REFERENCE_H
#define REFERENCE_H

#include <stddef.h>
#include <stdint.h>

/* Where a pattern forks that is refused by 10; zero and zero with every other number. */
struct reference_place {
    uint32_t state, letter;
};

struct reference_checked {
    uint32_t number;
    struct reference_place place;
};

struct reference_counts {
    uint32_t number, states, edges;
    struct reference_place place;
};

struct reference_decision {
    uint32_t number, taken; /* 1 taken, 0 not taken or refused: number tells which */
};

struct reference_written {
    uint32_t number;
    uint64_t count;
};

/* Number 0, or which of 2 to 10 refuses a pattern. */
struct reference_checked reference_check(const uint16_t *table, size_t len);

/* A complement, explored once, that can be laid into rooms of any size; or what refused the pattern. */
struct reference_complement;
struct reference_complement *reference_explore(const uint16_t *table, size_t len);
void reference_forget(struct reference_complement *complement);

/* What a build answers where there is room for all of it. */
struct reference_counts reference_sizes(const struct reference_complement *complement);

/* What a build answers and leaves in buffers of these sizes. */
struct reference_counts reference_lay(const struct reference_complement *complement, uint16_t *words, size_t words_len,
                                      uint32_t *sets, size_t sets_len);

/* What a lasso decision answers; it leaves zeros in the work words and needs none of them. */
struct reference_decision reference_lasso(const uint16_t *table, size_t len, const uint8_t *prefix, size_t prefix_len,
                                          const uint8_t *loop, size_t loop_len, uint32_t *work, size_t work_len);

/* What a tray answers, and leaves in bytes and work words. */
struct reference_written reference_tray(const uint16_t *table, size_t len, const uint16_t *list, size_t list_len,
                                        uint8_t *answers, size_t answers_len, uint32_t *work, size_t work_len);

/* What a merge answers, and leaves in the words. */
struct reference_written reference_merge(const uint16_t *first, size_t first_len, const uint16_t *second,
                                         size_t second_len, uint16_t *words, size_t words_len);

/* How many accepting runs a valid wide table has over a lasso over its letters: 0, 1, or 2 for more than one. */
unsigned reference_runs(const uint16_t *table, const uint8_t *prefix, size_t prefix_len, const uint8_t *loop,
                        size_t loop_len);

/* 2^p 3^a 4^r for a pattern that passes the check; UINT64_MAX where it does not fit. */
uint64_t reference_bound(const uint16_t *table);

/* What the listing program prints for this input; the caller frees it. */
char *reference_listing(const char *text, size_t len, size_t *printed);

#endif
