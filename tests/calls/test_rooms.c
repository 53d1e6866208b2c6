/* What the calls do in rooms of every size: exact, one short, larger, none. Each buffer lies between unreadable pages,
 * holds garbage before the call, and is compared whole after it. */
#include "rings.h"
#include "test.h"

#include <stdio.h>
#include <string.h>

/* A build in other room gives the same complement, or refuses by 11 where records lack, and by 12 where words do. */
static void try_room(const uint16_t *table, size_t len, const struct built *whole, size_t words_len, size_t sets_len)
{
    const size_t words = tubochre_table_words(whole->counts.states, whole->counts.edges);
    const size_t sets = tubochre_sets_words(whole->counts.states);
    const uint32_t number = sets_len < sets ? 11 : words_len < words ? 12 : 0;
    struct built b = lent_build(table, len, words_len, sets_len);
    expect(b.counts.number == number, "%zu words and %zu sets words: %u instead of %u", words_len, sets_len,
           (unsigned)b.counts.number, (unsigned)number);
    if (number == 0) {
        expect(b.counts.states == whole->counts.states && b.counts.edges == whole->counts.edges, "the same counts");
        expect(memcmp(b.words, whole->words, words * sizeof *b.words) == 0, "the same words");
        expect(memcmp(b.sets, whole->sets, sets * sizeof *b.sets) == 0, "the same sets");
    }
    built_free(&b);
}

static void try_rooms(uint32_t p, uint32_t r, uint32_t k)
{
    const uint32_t states = p << r;
    const size_t words = tubochre_table_words(states, states * k), sets = tubochre_sets_words(states);
    static const size_t less[] = {1, 2, 3, 4, 5, 100};
    static uint16_t table[500];
    const size_t len = tubochre_table_words(p + r + 1, (p + r + 1) * k);
    struct built whole;
    size_t i, j;
    ring_pattern(table, p, r, k);
    whole = lent_build(table, len, words, sets);
    expect(whole.counts.number == 0 && whole.counts.states == states && whole.counts.edges == states * k,
           "rings of %u and %u with %u letters: %u states", p, r, k, (unsigned)whole.counts.states);
    expect(states <= tubochre_bound(p, 1, r), "the bound");
    for (i = 0; i < sizeof less / sizeof less[0]; i++) {
        const size_t fewer_words = words > less[i] ? words - less[i] : 0;
        const size_t fewer_sets = sets > less[i] ? sets - less[i] : 0;
        try_room(table, len, &whole, fewer_words, sets);
        try_room(table, len, &whole, words, fewer_sets);
        try_room(table, len, &whole, fewer_words, fewer_sets);
        try_room(table, len, &whole, words + less[i], sets + less[i]);
    }
    for (i = 0; i <= 4; i++)
        for (j = 0; j <= 9; j++)
            try_room(table, len, &whole, i, j);
    built_free(&whole);
}

/* Whatever room there is, a table that is refused leaves zeros in all of it, and forks at the same place. */
static void try_refused_in_rooms(void)
{
    static const uint16_t fork[] = {2, 1, 2, 1, 0, 2, 1, 0, 0, 2, 0, 1, 0};
    const struct tubochre_place place = {1, 0};
    size_t i, j;
    for (i = 0; i < 12; i++)
        for (j = 0; j < 12; j++) {
            struct built b = lent_build(fork, sizeof fork / sizeof fork[0], i * i, j * j);
            expect(b.counts.number == 10 && same_place(b.counts.place, place),
                   "a fork in %zu words and %zu sets words", i * i, j * j);
            built_free(&b);
            b = lent_build(fork, 2, i * i, j * j);
            expect(b.counts.number == 2, "a short table in %zu words and %zu sets words", i * i, j * j);
            built_free(&b);
        }
}

static void try_work_rooms(void)
{
    static const uint8_t letters[] = {0, 0, 0, 0, 0, 0, 0, 0, 0, 0};
    static uint16_t words[100];
    size_t u, v, more;
    ring_table(words, 5, 1, 7);
    for (u = 0; u <= 5; u++)
        for (v = 1; v <= 5; v++) {
            const struct lasso l = {letters, u, letters, v};
            const size_t need = tubochre_work_words(5, u, v), len = tubochre_table_words(5, 7);
            for (more = 0; more <= 5; more++)
                expect(lent_lasso(words, len, l, need + more).taken == TUBOCHRE_TAKEN, "%zu work words more", more);
            expect(lent_lasso(words, len, l, need - 1).number == 16, "one work word short");
            expect(lent_lasso(words, len, l, need / 2).number == 16, "half the work words");
            expect(lent_lasso(words, len, l, 0).number == 16, "no work words");
        }
}

int main(void)
{
    static const uint16_t none[1];
    static const uint8_t letter[] = {0};
    const struct lasso nothing = {letter, 0, letter, 0};
    struct built b;
    try_rooms(1, 0, 1);
    try_rooms(1, 3, 2);
    try_rooms(3, 4, 1);
    try_rooms(5, 6, 3);
    section("builds in exact, smaller, larger and no room");
    try_refused_in_rooms();
    section("refused tables leave zeros in any room");
    try_work_rooms();
    section("decisions with exact, fewer, more and no work words");
    expect(lent_check(none, 0).number == 2, "a check of nothing");
    b = lent_build(none, 0, 0, 0);
    expect(b.counts.number == 2, "a build of nothing into nothing");
    built_free(&b);
    expect(lent_lasso(none, 0, nothing, 0).number == 2, "a decision on nothing");
    section("buffers without elements throughout");
    return summary("test_rooms");
}
