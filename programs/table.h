/* Where each word of a chained table stands (docs/RULES.md, "The chained table"). The place behind a table of fewer
 * states or records is where the next one begins. */
#ifndef TABLE_H
#define TABLE_H

#include "tubochre.h"

#include <stddef.h>
#include <stdint.h>

/* What adds up to a state's flags. */
enum { INITIAL_FLAG = 1, ACCEPTING_FLAG = 2, FLAGS_MOST = 3 };

static inline size_t flags_word(uint32_t state)
{
    return tubochre_table_words(state, 0);
}

static inline size_t head_word(uint32_t state)
{
    return flags_word(state) + 1;
}

static inline size_t letter_word(const uint16_t *words, uint32_t record)
{
    return tubochre_table_words(words[0], record - 1);
}

static inline size_t target_word(const uint16_t *words, uint32_t record)
{
    return letter_word(words, record) + 1;
}

static inline size_t next_word(const uint16_t *words, uint32_t record)
{
    return letter_word(words, record) + 2;
}

#endif
