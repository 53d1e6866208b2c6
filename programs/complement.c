#include "complement.h"

#include "common.h"
#include "progress.h"

#include <stdlib.h>

struct complement build(const uint16_t *words, size_t len)
{
    const size_t words_len = TUBOCHRE_WIDE_WORDS_MOST, sets_len = tubochre_sets_words(TUBOCHRE_WIDE_STATES_MOST);
    struct complement c;
    c.words = memory(words_len, sizeof *c.words, "the complement");
    c.sets = memory(sets_len, sizeof *c.sets, "the complement");
    progress_begin("building the complement");
    c.counts = tubochre_build(words, len, c.words, words_len, c.sets, sets_len);
    progress_end();
    return c;
}

void free_complement(struct complement *c)
{
    free(c->words);
    free(c->sets);
}
