/* How the programs say that something is refused: its number, its place in the text, and why. */
#ifndef REFUSALS_H
#define REFUSALS_H

#include "text.h"
#include "tubochre.h"
#include "words.h"

#include <stdint.h>
#include <stdio.h>

/* Says that something is refused, where in the text its word stands, if it is a word, and why. What is refused is
 * printed as a word. The status. */
int say_refused(FILE *out, const char *what, uint32_t number, const struct spot *at, const char *why);

/* The same of a pattern that the check refuses, with the check's answer. */
int pattern_refused(FILE *out, const char *what, struct tubochre_checked checked, const struct words *w);

/* And of a complement that the build refuses. */
int complement_refused(FILE *out, uint32_t number);

#endif
