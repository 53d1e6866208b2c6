/* A pattern file's words: decimal numbers from 0 to 65,535, divided by spaces and newlines (docs/RULES.md,
 * "Refusals", 1). */
#ifndef WORDS_H
#define WORDS_H

#include "text.h"
#include "tubochre.h"

#include <stddef.h>
#include <stdint.h>

/* The words of a text, and where each of them begins. */
struct words {
    size_t len;
    uint16_t word[TUBOCHRE_PATTERN_WORDS_MOST];
    struct spot at[TUBOCHRE_PATTERN_WORDS_MOST];
};

/* Reads a file, or standard input for "-", up to its end or its first fault, by which it is refused (1): whether there
 * was none. What is kept does not grow with the input. A file that cannot be read is trouble. */
int read_words(const char *name, struct words *words, struct fault *fault);

#endif
