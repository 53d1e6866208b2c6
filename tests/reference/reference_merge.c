/* A merge: the states of both patterns are put into one line, and their records into another. A number of the merged
 * pattern is the place in the line, which is looked for: nothing is added to any number. */
#include "reference.h"
#include "reference_parts.h"
#include "room.h"

#include <stdlib.h>

/* A state or a record by the pattern that it is of, and its number there. */
struct item {
    const uint16_t *table;
    bool of_second; /* both patterns may be the same words */
    uint32_t number;
};

struct line {
    size_t len;
    struct item *item;
};

/* So many items of the first, then of the second, each numbered from a first number on. */
static struct line line_up(const uint16_t *first, uint32_t of_first, const uint16_t *second, uint32_t of_second,
                           uint32_t from)
{
    struct line line = {0, room_for((size_t)of_first + of_second, sizeof *line.item)};
    uint32_t i;
    for (i = 0; i < of_first; i++)
        line.item[line.len++] = (struct item){first, false, from + i};
    for (i = 0; i < of_second; i++)
        line.item[line.len++] = (struct item){second, true, from + i};
    return line;
}

/* Where in the line an item stands that is of the same pattern as this one, and has another number; its length where
 * there is none. */
static size_t place_of(const struct line *line, const struct item *of, uint32_t number)
{
    size_t i = 0;
    while (i < line->len && (line->item[i].of_second != of->of_second || line->item[i].number != number))
        i++;
    return i;
}

/* What a head or a next becomes: records are numbered from 1 on, and 0 is none. */
static uint16_t link_to(const struct line *records, const struct item *of, uint32_t record)
{
    const size_t place = place_of(records, of, record);
    return (uint16_t)(place < records->len ? place + 1 : 0);
}

static void lay_merged(const struct line *states, const struct line *records, uint16_t *words)
{
    size_t i;
    *words++ = (uint16_t)states->len;
    *words++ = states->item[0].table[1];
    *words++ = (uint16_t)records->len;
    for (i = 0; i < states->len; i++) {
        const struct item *const q = &states->item[i];
        *words++ = (uint16_t)flags_of(q->table, q->number);
        *words++ = link_to(records, q, head_of(q->table, q->number));
    }
    for (i = 0; i < records->len; i++) {
        const struct item *const r = &records->item[i];
        const uint16_t *const record = record_of(r->table, r->number);
        *words++ = record[0];
        *words++ = (uint16_t)place_of(states, r, record[1]);
        *words++ = link_to(records, r, record[2]);
    }
}

static uint32_t merge_refusal(const struct line *states, const struct line *records, size_t words_len)
{
    const uint16_t *const first = states->item[0].table, *const second = states->item[states->len - 1].table;
    if (first[1] != second[1])
        return 19;
    if (states->len > PATTERN_STATES)
        return 20;
    if (records->len > PATTERN_RECORDS)
        return 21;
    return words_len < 3 + 2 * states->len + 3 * records->len ? 22 : 0;
}

struct reference_written reference_merge(const uint16_t *first, size_t first_len, const uint16_t *second,
                                         size_t second_len, uint16_t *words, size_t words_len)
{
    struct reference_written w = {reference_check(first, first_len).number, 0};
    struct line states, records;
    size_t i;
    if (w.number == 0)
        w.number = reference_check(second, second_len).number;
    for (i = 0; i < words_len; i++)
        words[i] = 0;
    if (w.number != 0)
        return w;
    states = line_up(first, first[0], second, second[0], 0);
    records = line_up(first, first[2], second, second[2], 1);
    w.number = merge_refusal(&states, &records, words_len);
    if (w.number == 0) {
        lay_merged(&states, &records, words);
        w.count = 3 + 2 * states.len + 3 * records.len;
    }
    free(states.item);
    free(records.item);
    return w;
}
