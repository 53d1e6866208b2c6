/* Random patterns, tables, damages, lassos and lists, each decided by a seed alone. */
#ifndef DRAW_H
#define DRAW_H

#include <stddef.h>
#include <stdint.h>

/* splitmix64: small, and good enough to draw test cases. */
struct random {
    uint64_t state;
};

struct random random_from(uint64_t seed);
uint64_t random_next(struct random *r);
uint32_t random_below(struct random *r, uint32_t bound); /* 0 to bound - 1; 0 where the bound is 0 */
uint32_t random_between(struct random *r, uint32_t low, uint32_t high);
int random_chance(struct random *r, uint32_t in_a_hundred);

/* Room for the words of each drawn table; the largest pattern has 12,355. */
enum { DRAWN_WORDS = 16384, DRAWN_LETTERS = 4100 };

struct drawn_table {
    size_t len;
    uint16_t words[DRAWN_WORDS];
};

struct drawn_lasso {
    size_t prefix_len, loop_len;
    uint8_t prefix[DRAWN_LETTERS], loop[DRAWN_LETTERS];
};

struct drawn_edge {
    uint16_t source, letter, target;
};

/* A valid table with these flags and edges as its records, in this order. */
void draw_from_edges(struct drawn_table *t, uint32_t states, uint32_t letters, const uint8_t *flags,
                     const struct drawn_edge *edges, uint32_t count);

/* A pattern in valid form: mostly semi-deterministic by construction, of 1 to 6 states, sometimes of up to 32. */
void draw_pattern(struct random *r, struct drawn_table *t);

/* Any automaton of up to about 60 states in valid form. */
void draw_wide(struct random *r, struct drawn_table *t);

/* Damages a table: it may still be valid afterwards. */
void draw_damage(struct random *r, struct drawn_table *t);

/* A lasso over so many letters; the parts are short, seldom long. */
void draw_lasso(struct random *r, struct drawn_lasso *l, uint32_t letters);

/* A lasso of which something may be wrong: an empty loop, a part too long, a letter too large. */
void draw_odd_lasso(struct random *r, struct drawn_lasso *l, uint32_t letters);

/* Room for each drawn list: some lassos, the longest that a list can hold among them. */
enum { DRAWN_LIST = 250000 };

struct drawn_list {
    size_t len;
    uint16_t words[DRAWN_LIST];
};

/* A whole list of some lassos over so many letters; of some of them something is wrong, as above, or a letter does not
 * fit a byte, or the lengths are huge. */
void draw_list(struct random *r, struct drawn_list *l, uint32_t letters);

/* Damages a list: it is cut, words are left over, lengths are others, or it is garbage. It may still be whole. */
void draw_list_damage(struct random *r, struct drawn_list *l);

/* Fills a buffer with bytes that no call would leave there. */
void draw_garbage(struct random *r, void *bytes, size_t len);

#endif
