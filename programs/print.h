/* Tables, complements and graphs on standard output. */
#ifndef PRINT_H
#define PRINT_H

#include "complement.h"

/* The words of a table that passes 2 to 9, as a pattern file has them: a line for n, k and m, then one for each state
 * and one for each record. */
void print_words(const uint16_t *words);

/* A line for each state, as the listing has it: number, N, C, S, B, flags. */
void print_states(const struct complement *c);

/* A table that passes 2 to 9, or a complement, as a graph in DOT: accepting states have a double ring, an arrow from
 * nowhere marks initial ones, and all letters from one state to another stand on one arrow. fork is where the
 * table forks, or NULL where it does not: that state's arrows with that letter are red. */
void print_pattern_graph(const uint16_t *words, const struct tubochre_place *fork);
void print_complement_graph(const struct complement *c);

#endif
