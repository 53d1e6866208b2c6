/* Lassos as people write them: a prefix and a loop, each as digits or as numbers divided by commas. */
#ifndef LASSOS_H
#define LASSOS_H

#include "tubochre.h"

#include <stddef.h>
#include <stdint.h>

/* Letters up to the largest word of a list, so that the library refuses those that no table has. */
struct letters {
    uint16_t *letter;
    size_t len;
};

struct lasso {
    char *name; /* its number and both parts as they were written, "-" for an empty one: "lasso 1 (- 01)" */
    struct letters prefix, loop;
};

/* Why a text is no part: the first byte that may not stand there, counted from 0, and a sentence without a full stop,
 * which is NULL where nothing is wrong. */
struct part_fault {
    size_t byte;
    const char *why;
};

/* Reads one part, "-" for an empty one. The caller frees the letters; where there is a fault there are none. */
struct letters read_letters(const char *text, struct part_fault *fault);

/* Reads a lasso from its parts. One that is none is trouble: the lasso is quoted whole, and the place of the fault is
 * said. */
struct lasso read_lasso(size_t number, const char *prefix, const char *loop);
void free_lasso(struct lasso *l);

/* So many lassos from the command line, two arguments each. */
struct lasso *read_lassos(size_t count, char **arguments);
void free_lassos(struct lasso *all, size_t count);

/* Asks the library, with as many work words as it needs. */
struct tubochre_decision decide(const uint16_t *words, size_t len, const struct lasso *l);

#endif
