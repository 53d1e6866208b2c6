/* A pattern's complement in all the room that there can be, so that only the complement's own size can refuse it. */
#ifndef COMPLEMENT_H
#define COMPLEMENT_H

#include "tubochre.h"

#include <stddef.h>
#include <stdint.h>

struct complement {
    struct tubochre_counts counts;
    uint16_t *words;
    uint32_t *sets;
};

/* Builds with room for 65,535 records and the words of the largest wide table (1.7 MB). */
struct complement build(const uint16_t *words, size_t len);
void free_complement(struct complement *c);

#endif
