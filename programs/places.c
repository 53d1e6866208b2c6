#include "places.h"

#include "table.h"

#include <stdarg.h>
#include <stdio.h>

static struct place place(size_t word, const char *format, ...)
#if defined(__GNUC__)
    __attribute__((format(printf, 2, 3)))
#endif
    ;

static struct place place(size_t word, const char *format, ...)
{
    struct place p;
    va_list more;
    va_start(more, format);
    vsnprintf(p.sentence, sizeof p.sentence, format, more);
    va_end(more);
    p.word = word;
    p.letter = 0;
    return p;
}

/* A refusal of which there is no more to say than its number does. */
static struct place nowhere(uint32_t number)
{
    return place(NO_WORD, "%s", tubochre_refusal_text(number));
}

/* ---- 2 to 8: sizes, flags and records. */

static struct place bad_length(const uint16_t *t, size_t len)
{
    return place(NO_WORD,
                 "the number of words is %zu, and by those of states and records it is 3 + 2 * %u + 3 * %u = %zu", len,
                 t[0], t[2], tubochre_table_words(t[0], t[2]));
}

static struct place bad_flags(const uint16_t *t)
{
    unsigned q;
    for (q = 0; q < t[0]; q++)
        if (t[flags_word(q)] > FLAGS_MOST)
            return place(flags_word(q), "state %u has flags %u, and flags are 0 to %d", q, t[flags_word(q)],
                         FLAGS_MOST);
    return nowhere(TUBOCHRE_FLAGS);
}

static struct place bad_record(const uint16_t *t)
{
    unsigned r;
    for (r = 1; r <= t[2]; r++) {
        const size_t letter = letter_word(t, r), target = target_word(t, r);
        if (t[letter] >= t[1])
            return place(letter, "record %u has letter %u, and the letters are 0 to %u", r, t[letter], t[1] - 1U);
        if (t[target] >= t[0])
            return place(target, "record %u has target %u, and the states are 0 to %u", r, t[target], t[0] - 1U);
    }
    return nowhere(TUBOCHRE_RECORD);
}

/* ---- 9: chains. */

/* A link that leads nowhere or back, heads before nexts. */
static struct place bad_link(const uint16_t *t)
{
    unsigned q, r;
    for (q = 0; q < t[0]; q++)
        if (t[head_word(q)] > t[2])
            return place(head_word(q), "state %u has head %u, and the number of records is %u", q, t[head_word(q)],
                         t[2]);
    for (r = 1; r <= t[2]; r++) {
        const unsigned next = t[next_word(t, r)];
        if (next > t[2])
            return place(next_word(t, r), "record %u has next %u, and the number of records is %u", r, next, t[2]);
        if (next != 0 && next <= r)
            return place(next_word(t, r),
                         "record %u has next %u, and a next is 0 or larger than its own record's number", r, next);
    }
    return nowhere(TUBOCHRE_CHAIN);
}

/* A state's head or a record's next, and its word; NO_WORD where there is none. */
struct link {
    size_t word;
    const char *is, *of;
    unsigned number;
};

/* The first link from a word on that names a record, heads before nexts. */
static struct link naming(const uint16_t *t, unsigned record, size_t from)
{
    unsigned q, r;
    for (q = 0; q < t[0]; q++)
        if (head_word(q) >= from && t[head_word(q)] == record)
            return (struct link){head_word(q), "head", "state", q};
    for (r = 1; r <= t[2]; r++)
        if (next_word(t, r) >= from && t[next_word(t, r)] == record)
            return (struct link){next_word(t, r), "next", "record", r};
    return (struct link){NO_WORD, "", "", 0};
}

static struct place bad_chain(const uint16_t *t)
{
    const struct place wrong = bad_link(t);
    unsigned r;
    if (wrong.word != NO_WORD)
        return wrong;
    for (r = 1; r <= t[2]; r++) {
        const struct link first = naming(t, r, 0);
        struct link second;
        if (first.word == NO_WORD)
            return place(NO_WORD, "record %u is in no chain: no head and no next names it", r);
        second = naming(t, r, first.word + 1);
        if (second.word != NO_WORD)
            return place(second.word, "record %u is named twice, by the %s of %s %u and by the %s of %s %u", r,
                         first.is, first.of, first.number, second.is, second.of, second.number);
    }
    return nowhere(TUBOCHRE_CHAIN);
}

/* ---- 10: forks. */

/* From record r of a chain on, the first with this letter and another target than this; 0 where there is none. */
static unsigned record_on(const uint16_t *t, unsigned r, unsigned letter, unsigned target)
{
    while (r != 0 && (t[letter_word(t, r)] != letter || t[target_word(t, r)] == target))
        r = t[next_word(t, r)];
    return r;
}

/* Names two targets of a fork: the first in the state's chain, and the first that differs from it. */
static struct place fork_at(const uint16_t *t, struct tubochre_place at)
{
    const unsigned state = at.state, letter = at.letter;
    const unsigned no_state = t[0]; /* the target of no record */
    const unsigned first = record_on(t, t[head_word(state)], letter, no_state);
    const unsigned second = first == 0 ? 0 : record_on(t, first, letter, t[target_word(t, first)]);
    if (second == 0)
        return nowhere(TUBOCHRE_FORK);
    return place(target_word(t, second),
                 "the pattern is not semi-deterministic: state %u is accepting or behind an accepting one, "
                 "and on letter %u it leads to state %u (record %u) and to state %u (record %u)",
                 state, letter, t[target_word(t, first)], first, t[target_word(t, second)], second);
}

/* ---- All of them. */

struct place place_in_pattern(struct tubochre_checked checked, const uint16_t *words, size_t len)
{
    switch (checked.number) {
    case TUBOCHRE_SHORT: return place(NO_WORD, "the number of words is %zu, and a table has at least 3", len);
    case TUBOCHRE_STATES:
        return place(0, "the number of states is %u, and a pattern has 1 to %d", words[0],
                     TUBOCHRE_PATTERN_STATES_MOST);
    case TUBOCHRE_LETTERS:
        return place(1, "the number of letters is %u, and a table has 1 to %d", words[1], TUBOCHRE_LETTERS_MOST);
    case TUBOCHRE_RECORDS:
        return place(2, "the number of records is %u, and a pattern has at most %d", words[2],
                     TUBOCHRE_PATTERN_RECORDS_MOST);
    case TUBOCHRE_LENGTH: return bad_length(words, len);
    case TUBOCHRE_FLAGS: return bad_flags(words);
    case TUBOCHRE_RECORD: return bad_record(words);
    case TUBOCHRE_CHAIN: return bad_chain(words);
    case TUBOCHRE_FORK: return fork_at(words, checked.place);
    default: return nowhere(checked.number);
    }
}

struct place place_in_complement(uint32_t number)
{
    switch (number) {
    case TUBOCHRE_MANY_STATES:
        return place(NO_WORD, "it has more than %d states, the most that a table has", TUBOCHRE_WIDE_STATES_MOST);
    case TUBOCHRE_MANY_EDGES:
        return place(NO_WORD, "it has more than %d edges, the most that a table has", TUBOCHRE_WIDE_RECORDS_MOST);
    default: return nowhere(number);
    }
}

/* More of something than a pattern may have: so many in the first, and so many in the second. */
static struct place too_many(const char *what, unsigned first, unsigned second, int most)
{
    return place(NO_WORD,
                 "the number of %s is %u in the first pattern and %u in the second, and a pattern has at most %d", what,
                 first, second, most);
}

struct place place_in_merge(uint32_t number, const uint16_t *first, const uint16_t *second)
{
    switch (number) {
    case TUBOCHRE_MERGE_LETTERS:
        return place(NO_WORD,
                     "the number of letters is %u in the first pattern and %u in the second, and has to be the same",
                     first[1], second[1]);
    case TUBOCHRE_MERGE_STATES: return too_many("states", first[0], second[0], TUBOCHRE_PATTERN_STATES_MOST);
    case TUBOCHRE_MERGE_RECORDS: return too_many("records", first[2], second[2], TUBOCHRE_PATTERN_RECORDS_MOST);
    default: return nowhere(number);
    }
}

/* Where the first letter stands that is none of the table's; the length where there is none. */
static size_t bad_letter(const uint16_t *words, const struct letters *l)
{
    size_t i = 0;
    while (i < l->len && l->letter[i] < words[1])
        i++;
    return i;
}

static struct place bad_letter_in(const uint16_t *words, const struct lasso *l)
{
    const int in_prefix = bad_letter(words, &l->prefix) < l->prefix.len;
    const struct letters *const part = in_prefix ? &l->prefix : &l->loop;
    const size_t at = bad_letter(words, part);
    struct place p;
    if (at == part->len)
        return nowhere(TUBOCHRE_LETTER);
    p = place(in_prefix ? PREFIX_WORD : LOOP_WORD,
              "letter %u stands at place %zu of the %s, and the letters are 0 to %u", part->letter[at], at + 1,
              in_prefix ? "prefix" : "loop", words[1] - 1U);
    p.letter = at;
    return p;
}

struct place place_in_lasso(uint32_t number, const uint16_t *words, const struct lasso *l)
{
    const int prefix_long = l->prefix.len > TUBOCHRE_LASSO_PART_MOST;
    switch (number) {
    case TUBOCHRE_LOOP_EMPTY: return place(LOOP_WORD, "%s", tubochre_refusal_text(number));
    case TUBOCHRE_LASSO_LONG:
        return place(prefix_long ? PREFIX_WORD : LOOP_WORD, "the %s has %zu letters, and a part has at most %d",
                     prefix_long ? "prefix" : "loop", prefix_long ? l->prefix.len : l->loop.len,
                     TUBOCHRE_LASSO_PART_MOST);
    case TUBOCHRE_LETTER: return bad_letter_in(words, l);
    default: return nowhere(number);
    }
}
