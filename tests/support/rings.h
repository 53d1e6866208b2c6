/* Tables that can be made of any size, and of which all is known beforehand. */
#ifndef RINGS_H
#define RINGS_H

#include <stdint.h>

/* A pattern: a ring of p outer states of which the first is initial, a ring of r inner states, all initial, and an
 * accepting state that leads into the inner ring; each of k letters moves every state on. Its complement has p * 2^r
 * states, k times as many edges, and takes every lasso. It has p + r + 1 states and k times as many records. */
void ring_pattern(uint16_t *words, uint32_t p, uint32_t r, uint32_t k);

/* n states, each with an edge on letter 0 to the next, and the last to the first; m - n more records repeat the edge of
 * state 0. State 0 is initial, the last accepting. m is n at least. */
void ring_table(uint16_t *words, uint32_t n, uint32_t k, uint32_t m);

/* n states with m records in all: record 1 is state 0's, record 2 state 1's, and so on, round and round. The records of
 * a state go through the k letters in turn, and each letter has one target, so that a pattern of these sizes passes the
 * check. Flags are 0 to 3 in turn. */
void full_table(uint16_t *words, uint32_t n, uint32_t k, uint32_t m);

/* n states, all initial, with three edges each on the only letter, of which no accepting state lies on a cycle, while
 * every state is reached at every place: the table takes no lasso, and no search can stop early. One edge of three or
 * two leads anywhere up to `reach` states on. n is 8 at least. */
void barren_table(uint16_t *words, uint32_t n, uint32_t reach);

#endif
