/* Where a refusal lies, in words. Of a fork the library answers the state and the letter, and these find two of its
 * targets in the table. Of every other refusal it answers the number alone, and these look for the place again: the
 * first refusal by the rules, and of one refusal the first place in the table. */
#ifndef PLACES_H
#define PLACES_H

#include "lassos.h"

#include <stddef.h>
#include <stdint.h>

#define NO_WORD ((size_t)-1)

/* A sentence without a full stop, and the word at fault, of the table or of the two that a lasso is written in, or
 * NO_WORD. Of a lasso's word also the letter at fault, counted from 0; 0 where the word is at fault as a whole. */
struct place {
    char sentence[200];
    size_t word, letter;
};

/* Of a pattern that the check refuses by 2 to 10, with the check's answer. Of a fork it names the first two targets
 * that differ, in the order of the state's chain, and the word is the second of them. */
struct place place_in_pattern(struct tubochre_checked checked, const uint16_t *words, size_t len);

/* Of a complement that a build refuses by 11 or 12 though it was lent all the room that there can be. */
struct place place_in_complement(uint32_t number);

/* Of two patterns that pass the check, and that a merge refuses by 19 to 21; it names the numbers of both. */
struct place place_in_merge(uint32_t number, const uint16_t *first, const uint16_t *second);

/* Of a lasso that is refused by 13 to 15: word 0 is the prefix, 1 the loop. */
enum lasso_word { PREFIX_WORD, LOOP_WORD };
struct place place_in_lasso(uint32_t number, const uint16_t *words, const struct lasso *l);

#endif
