/* The bench program finds a place for every refusal of a table; the word that it names is really at fault, and of flags
 * and records the first that is. Of a fork its sentence says what the table has. Tables are random patterns and damaged
 * ones. */
#include "places.h"

#include "draw.h"
#include "expect.h"

#include <stdio.h>
#include <string.h>

enum { TRIALS = 20000 };

static unsigned tried[11], forks_elsewhere; /* not at state 0 and letter 0 */

static const uint16_t *record_of(const struct drawn_table *t, uint32_t record)
{
    return t->words + tubochre_table_words(t->words[0], record - 1);
}

/* From a record of a chain on, the first that has a letter; 0 where there is none. */
static uint32_t first_on(const struct drawn_table *t, uint32_t record, uint32_t letter)
{
    while (record != 0 && record_of(t, record)[0] != letter)
        record = record_of(t, record)[2];
    return record;
}

static uint32_t first_at(const struct drawn_table *t, struct tubochre_place at)
{
    return first_on(t, t->words[4 + 2 * at.state], at.letter);
}

/* Whether the state's chain has this word as a target on the letter, and before it one other target, once or more. */
static int is_second_target(const struct drawn_table *t, struct tubochre_place at, size_t word)
{
    uint32_t r, before = 0;
    for (r = first_at(t, at); r != 0; r = first_on(t, record_of(t, r)[2], at.letter)) {
        const uint16_t *const target = record_of(t, r) + 1;
        if (target == t->words + word)
            return before != 0 && before != UINT32_C(1) << *target && (before & (before - 1)) == 0;
        before |= UINT32_C(1) << *target;
    }
    return 0;
}

/* Whether this word alone shows what the refusal says; of a fork, whether it is the second target of the place. */
static int at_fault(struct tubochre_checked checked, const struct drawn_table *t, size_t word)
{
    const size_t records = 3 + 2 * (size_t)t->words[0];
    switch (checked.number) {
    case TUBOCHRE_STATES: return word == 0;
    case TUBOCHRE_LETTERS: return word == 1;
    case TUBOCHRE_RECORDS: return word == 2;
    case TUBOCHRE_FLAGS: return word >= 3 && word < records && word % 2 == 1 && t->words[word] > 3;
    case TUBOCHRE_RECORD:
        return word >= records && (word - records) % 3 < 2 &&
               t->words[word] >= t->words[(word - records) % 3 == 0 ? 1 : 0];
    case TUBOCHRE_CHAIN: /* a head or a next that names a record; NO_WORD where one is not named */
        return word == NO_WORD || ((word < records ? word % 2 == 0 : (word - records) % 3 == 2) && t->words[word] != 0);
    case TUBOCHRE_FORK: return is_second_target(t, checked.place, word);
    default: return word == NO_WORD;
    }
}

/* Whether a word before this one shows it too; asked of flags and records, whose order is the table's. */
static int fault_before(struct tubochre_checked checked, const struct drawn_table *t, size_t word)
{
    size_t i;
    for (i = 0; (checked.number == TUBOCHRE_FLAGS || checked.number == TUBOCHRE_RECORD) && i < word; i++)
        if (at_fault(checked, t, i))
            return 1;
    return 0;
}

/* Whether a fork's sentence names the place, the first record there, the one that has the word, and their targets. */
static int sentence_holds(const struct drawn_table *t, struct tubochre_place at, const struct place *p)
{
    unsigned state, letter, target[2], record[2];
    if (sscanf(p->sentence,
               "the pattern is not semi-deterministic: state %u is accepting or behind an accepting one, and on letter "
               "%u it leads to state %u (record %u) and to state %u (record %u)",
               &state, &letter, &target[0], &record[0], &target[1], &record[1]) != 6)
        return 0;
    return state == at.state && letter == at.letter && record[0] == first_at(t, at) &&
           record_of(t, record[1]) + 1 == t->words + p->word && target[0] == record_of(t, record[0])[1] &&
           target[1] == record_of(t, record[1])[1];
}

static void try_fork(const struct drawn_table *t, struct tubochre_place at, const struct place *p)
{
    forks_elsewhere += at.state != 0 || at.letter != 0;
    expect(sentence_holds(t, at, p), "state %u and letter %u: the sentence holds: %s", (unsigned)at.state,
           (unsigned)at.letter, p->sentence);
}

static void try_place(uint64_t seed)
{
    static struct drawn_table t;
    struct random r = random_from(seed);
    struct tubochre_checked checked;
    struct place p;
    draw_pattern(&r, &t);
    if (random_chance(&r, 90))
        draw_damage(&r, &t);
    checked = tubochre_check(t.words, t.len);
    tried[checked.number]++;
    if (checked.number == TUBOCHRE_OK)
        return;
    p = place_in_pattern(checked, t.words, t.len);
    expect(strcmp(p.sentence, tubochre_refusal_text(checked.number)) != 0, "seed %lu: refusal %u has a place",
           (unsigned long)seed, (unsigned)checked.number);
    expect(p.word == NO_WORD || p.word < t.len, "seed %lu: the word is one of the table", (unsigned long)seed);
    expect(at_fault(checked, &t, p.word), "seed %lu: the word is at fault: %s", (unsigned long)seed, p.sentence);
    expect(!fault_before(checked, &t, p.word), "seed %lu: no word before it is: %s", (unsigned long)seed, p.sentence);
    if (checked.number == TUBOCHRE_FORK)
        try_fork(&t, checked.place, &p);
}

int main(void)
{
    uint64_t seed;
    unsigned number;
    for (seed = 0; seed < TRIALS; seed++)
        try_place(seed);
    for (number = 2; number <= 10; number++)
        expect(tried[number] > 0, "refusal %u occurred", number);
    expect(forks_elsewhere > 0, "a fork occurred that is not at state 0 and letter 0");
    section("a place for every refusal of a table");
    return summary("test_places");
}
