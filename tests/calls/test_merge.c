/* Two patterns made into one: every word of it, every refusal and their order, and which lassos it takes. */
#include "rings.h"
#include "room.h"
#include "test.h"

#include <stdio.h>
#include <stdlib.h>
#include <string.h>

#define LENGTH(array) (sizeof(array) / sizeof(array)[0])

enum {
    STATES_MOST = TUBOCHRE_PATTERN_STATES_MOST,
    RECORDS_MOST = TUBOCHRE_PATTERN_RECORDS_MOST,
    LETTERS_MOST = TUBOCHRE_LETTERS_MOST,
    WORDS_MOST = TUBOCHRE_PATTERN_WORDS_MOST,
    BOTH_MOST = 2 * WORDS_MOST /* room for any two patterns, merged or not */
};

/* ---- A merge, and what is expected of it. */

static void expect_number(const char *name, struct merged m, uint32_t number)
{
    expect(m.written.number == number, "%s: %u instead of %u", name, (unsigned)m.written.number, (unsigned)number);
    merged_free(&m);
}

static uint16_t *put_states(uint16_t *at, const uint16_t *table, uint32_t records_before)
{
    uint32_t q;
    for (q = 0; q < table[0]; q++) {
        const uint16_t head = table[4 + 2 * q];
        *at++ = table[3 + 2 * q];
        *at++ = (uint16_t)(head == 0 ? 0 : head + records_before);
    }
    return at;
}

static uint16_t *put_records(uint16_t *at, const uint16_t *table, uint32_t states_before, uint32_t records_before)
{
    const uint16_t *record = table + tubochre_table_words(table[0], 0);
    uint32_t r;
    for (r = 0; r < table[2]; r++, record += 3) {
        *at++ = record[0];
        *at++ = (uint16_t)(record[1] + states_before);
        *at++ = (uint16_t)(record[2] == 0 ? 0 : record[2] + records_before);
    }
    return at;
}

/* The merged pattern by the rules; how many words it has. */
static size_t by_rule(uint16_t *words, const uint16_t *first, const uint16_t *second)
{
    uint16_t *at = words;
    *at++ = (uint16_t)(first[0] + second[0]);
    *at++ = first[1];
    *at++ = (uint16_t)(first[2] + second[2]);
    at = put_states(at, first, 0);
    at = put_states(at, second, first[2]);
    at = put_records(at, first, 0, 0);
    at = put_records(at, second, first[0], first[2]);
    return (size_t)(at - words);
}

static void expect_words(const char *name, struct merged m, const uint16_t *words, size_t len)
{
    size_t i = 0;
    expect(m.written.number == TUBOCHRE_OK, "%s: accepted, not %u", name, (unsigned)m.written.number);
    expect(m.written.count == len && m.words_len >= len, "%s: %llu words instead of %zu", name,
           (unsigned long long)m.written.count, len);
    while (i < len && i < m.words_len && m.words[i] == words[i])
        i++;
    expect(i == len, "%s: word %zu is not %u", name, i, i < len ? (unsigned)words[i] : 0);
    expect(lent_check(m.words, len).number == TUBOCHRE_OK, "%s: the merged pattern passes the check", name);
    merged_free(&m);
}

/* By the rules, in exactly the room that it needs, and in more. */
static void expect_merge(const char *name, const uint16_t *first, size_t first_len, const uint16_t *second,
                         size_t second_len)
{
    static uint16_t words[BOTH_MOST];
    const size_t need = by_rule(words, first, second);
    struct merge m = {first, first_len, second, second_len, need};
    expect_words(name, lent_merge(m), words, need);
    m.words_len = need + 1;
    expect_words(name, lent_merge(m), words, need);
    m.words_len = first_len + second_len;
    expect_words(name, lent_merge(m), words, need);
    m.words_len = WORDS_MOST;
    expect_words(name, lent_merge(m), words, need);
    m.words_len = need - 1;
    expect_number(name, lent_merge(m), TUBOCHRE_MERGE_WORDS);
}

/* ---- Merges worked out by hand. */

/* Over two letters: finitely many ones; infinitely many; a one somewhere; ones alone; 0 1 in turn for ever. */
static const uint16_t few_ones[] = {2, 2, 4, 1, 1, 2, 4, 0, 0, 2, 1, 0, 3, 0, 1, 0, 0, 1, 0};
static const uint16_t many_ones[] = {2, 2, 4, 1, 1, 2, 3, 0, 0, 2, 1, 1, 0, 0, 0, 4, 1, 1, 0};
static const uint16_t some_one[] = {2, 2, 4, 1, 1, 2, 3, 0, 0, 2, 1, 1, 0, 0, 1, 4, 1, 1, 0};
static const uint16_t all_ones[] = {1, 2, 1, 3, 1, 1, 0, 0};
static const uint16_t in_turn[] = {2, 2, 2, 3, 1, 0, 2, 0, 1, 0, 1, 0, 0};
/* Patterns that take nothing: without edges, without an accepting state, without an initial one, all in a dead end. */
static const uint16_t no_edges[] = {1, 2, 0, 3, 0};
static const uint16_t no_accepting[] = {1, 2, 2, 1, 1, 0, 0, 2, 1, 0, 0};
static const uint16_t no_initial[] = {1, 2, 2, 2, 1, 0, 0, 2, 1, 0, 0};
static const uint16_t dead_end[] = {2, 2, 2, 1, 1, 2, 0, 0, 1, 2, 1, 1, 0};

static void try_by_hand(void)
{
    static const uint16_t few_many[] = {4, 2, 8, 1, 1, 2, 4, 1, 5, 2, 7, 0, 0, 2, 1, 0, 3, 0,
                                        1, 0, 0, 1, 0, 0, 2, 6, 1, 3, 0, 0, 2, 8, 1, 3, 0};
    static const uint16_t many_few[] = {4, 2, 8, 1, 1, 2, 3, 1, 5, 2, 8, 0, 0, 2, 1, 1, 0, 0,
                                        0, 4, 1, 1, 0, 0, 2, 6, 1, 2, 7, 0, 3, 0, 0, 3, 0};
    static const uint16_t none_none[] = {2, 2, 0, 3, 0, 3, 0};
    static const uint16_t none_ones[] = {2, 2, 1, 3, 0, 3, 1, 1, 1, 0};
    static const uint16_t ones_none[] = {2, 2, 1, 3, 1, 3, 0, 1, 0, 0};
    static const uint16_t ones_turn[] = {3, 2, 3, 3, 1, 3, 2, 0, 3, 1, 0, 0, 0, 2, 0, 1, 1, 0};
    static const uint16_t dead_dead[] = {4, 2, 4, 1, 1, 2, 0, 1, 3, 2, 0, 0, 1, 2, 1, 1, 0, 0, 3, 4, 1, 3, 0};
#define BY_HAND(name, first, second, words) \
    expect_words(name, lent_merge((struct merge){first, LENGTH(first), second, LENGTH(second), LENGTH(words) + 9}), \
                 words, LENGTH(words))
    BY_HAND("few ones, many ones", few_ones, many_ones, few_many);
    BY_HAND("many ones, few ones", many_ones, few_ones, many_few);
    BY_HAND("the example of the rules", all_ones, in_turn, ones_turn);
    BY_HAND("no record in either", no_edges, no_edges, none_none);
    BY_HAND("no record in the first", no_edges, all_ones, none_ones);
    BY_HAND("no record in the second", all_ones, no_edges, ones_none);
    BY_HAND("a head that stays zero", dead_end, dead_end, dead_dead);
#undef BY_HAND
}

/* ---- Merges of all sizes, by the rules. */

static void try_pair(uint32_t k, uint32_t n1, uint32_t m1, uint32_t n2, uint32_t m2)
{
    static uint16_t first[WORDS_MOST], second[WORDS_MOST];
    char name[100];
    full_table(first, n1, k, m1);
    full_table(second, n2, k, m2);
    snprintf(name, sizeof name, "%u letters, %u and %u states, %u and %u records", k, n1, n2, m1, m2);
    expect_merge(name, first, tubochre_table_words(n1, m1), second, tubochre_table_words(n2, m2));
}

/* Fewer records than states leave heads zero; the last records of all states have no next. */
static void try_sizes(void)
{
    static const uint32_t states[] = {1, 2, 5, 16}, records[] = {0, 1, 3, 16, 41}, letters[] = {1, 3, 16};
    size_t i, j, a, b, c;
    for (i = 0; i < LENGTH(states); i++)
        for (j = 0; j < LENGTH(states); j++)
            for (a = 0; a < LENGTH(records); a++)
                for (b = 0; b < LENGTH(records); b++)
                    for (c = 0; c < LENGTH(letters); c++)
                        try_pair(letters[c], states[i], records[a], states[j], records[b]);
}

/* The largest merged pattern, its states and records shared out between the two in every way that is near an end. */
static void try_largest(void)
{
    static const uint32_t states[] = {1, 2, 15, 16, 30, 31}, records[] = {0, 1, 2047, 2048, 4095, 4096};
    size_t i, j;
    for (i = 0; i < LENGTH(states); i++)
        for (j = 0; j < LENGTH(records); j++)
            try_pair(LETTERS_MOST, states[i], records[j], STATES_MOST - states[i], RECORDS_MOST - records[j]);
}

/* ---- 22: rooms. */

/* In every room from none to more than it needs. */
static void try_rooms(void)
{
    static uint16_t words[BOTH_MOST];
    const size_t need = by_rule(words, few_ones, dead_end);
    struct merge m = {few_ones, LENGTH(few_ones), dead_end, LENGTH(dead_end), 0};
    for (m.words_len = 0; m.words_len < need; m.words_len++)
        expect_number("too few words", lent_merge(m), TUBOCHRE_MERGE_WORDS);
    for (; m.words_len < need + 40; m.words_len++)
        expect_words("enough words", lent_merge(m), words, need);
    m.words_len = 300000;
    expect_words("far more words than any pattern has", lent_merge(m), words, need);
}

/* ---- 19 to 21: the ends of what two patterns may have together. */

/* Full tables of these sizes, in so many words. */
static struct merged merge_full(uint32_t k1, uint32_t n1, uint32_t m1, uint32_t k2, uint32_t n2, uint32_t m2,
                                size_t words_len)
{
    static uint16_t first[WORDS_MOST], second[WORDS_MOST];
    full_table(first, n1, k1, m1);
    full_table(second, n2, k2, m2);
    return lent_merge((struct merge){first, tubochre_table_words(n1, m1), second, tubochre_table_words(n2, m2),
                                     words_len});
}

static void try_letters(void)
{
    uint32_t k1, k2;
    for (k1 = 1; k1 <= LETTERS_MOST; k1++)
        for (k2 = 1; k2 <= LETTERS_MOST; k2++)
            expect_number("letters of both", merge_full(k1, 2, 4, k2, 2, 4, 100),
                          k1 == k2 ? TUBOCHRE_OK : TUBOCHRE_MERGE_LETTERS);
}

static void try_states(void)
{
    uint32_t n;
    for (n = 1; n <= STATES_MOST; n++) {
        if (n < STATES_MOST)
            expect_number("32 states", merge_full(2, n, 7, 2, STATES_MOST - n, 9, 200), TUBOCHRE_OK);
        expect_number("33 states", merge_full(2, n, 7, 2, STATES_MOST + 1 - n, 9, 200), TUBOCHRE_MERGE_STATES);
        expect_number("32 states and more", merge_full(2, STATES_MOST, 7, 2, n, 9, 200), TUBOCHRE_MERGE_STATES);
        expect_number("the same the other way", merge_full(2, n, 7, 2, STATES_MOST, 9, 200), TUBOCHRE_MERGE_STATES);
    }
}

static void try_records(void)
{
    static const uint32_t records[] = {1, 2, 2047, 2048, 2049, 4095, 4096};
    size_t i;
    for (i = 0; i < LENGTH(records); i++) {
        const uint32_t m = records[i];
        expect_number("4,096 records", merge_full(2, 3, m, 2, 3, RECORDS_MOST - m, BOTH_MOST), TUBOCHRE_OK);
        expect_number("4,097 records", merge_full(2, 3, m, 2, 3, RECORDS_MOST + 1 - m, BOTH_MOST),
                      TUBOCHRE_MERGE_RECORDS);
        expect_number("4,096 records and more", merge_full(2, 3, m, 2, 3, RECORDS_MOST, BOTH_MOST),
                      TUBOCHRE_MERGE_RECORDS);
    }
    expect_number("no records beside 4,096", merge_full(2, 3, 0, 2, 3, RECORDS_MOST, BOTH_MOST), TUBOCHRE_OK);
    expect_number("4,096 records beside none", merge_full(2, 3, RECORDS_MOST, 2, 3, 0, BOTH_MOST), TUBOCHRE_OK);
}

/* Each choice of the four faults of two patterns together: the smallest number is the answer. */
static void try_order(void)
{
    unsigned faults;
    for (faults = 0; faults < 16; faults++) {
        const uint32_t k2 = faults & 1 ? 3 : 2, n2 = faults & 2 ? 17 : 16, m2 = faults & 4 ? 2049 : 2048;
        const size_t need = tubochre_table_words(16 + n2, 2048 + m2), words_len = faults & 8 ? need - 1 : need;
        uint32_t number = TUBOCHRE_OK;
        if (faults & 8)
            number = TUBOCHRE_MERGE_WORDS;
        if (faults & 4)
            number = TUBOCHRE_MERGE_RECORDS;
        if (faults & 2)
            number = TUBOCHRE_MERGE_STATES;
        if (faults & 1)
            number = TUBOCHRE_MERGE_LETTERS;
        expect_number("19 before 20 before 21 before 22", merge_full(2, 16, 2048, k2, n2, m2, words_len), number);
        expect_number("the same in no room", merge_full(2, 16, 2048, k2, n2, m2, 0),
                      number == TUBOCHRE_OK ? TUBOCHRE_MERGE_WORDS : number);
    }
}

/* ---- 2 to 10: the first table, and then the second. */

static const struct refused_table {
    uint32_t number;
    size_t len;
    uint16_t words[14];
} refused_tables[] = {
    {2, 0, {0}},
    {2, 2, {1, 1}},
    {3, 3, {0, 1, 0}},
    {3, 3, {33, 1, 0}},
    {4, 5, {1, 0, 0, 0, 0}},
    {4, 5, {1, 17, 0, 0, 0}},
    {5, 3, {1, 1, 4097}},
    {6, 4, {1, 1, 0, 0}},
    {6, 6, {1, 1, 0, 0, 0, 0}},
    {7, 5, {1, 1, 0, 4, 0}},
    {8, 8, {1, 1, 1, 3, 1, 1, 0, 0}},
    {8, 8, {1, 1, 1, 3, 1, 0, 1, 0}},
    {9, 8, {1, 1, 1, 3, 1, 0, 0, 1}},
    {9, 8, {1, 1, 1, 3, 0, 0, 0, 0}},
    {10, 13, {2, 1, 2, 1, 0, 2, 1, 0, 0, 2, 0, 1, 0}},
};

/* One letter as these tables have, two, and all that there can be. */
static uint16_t one_letter[WORDS_MOST], two_letters[WORDS_MOST], largest[WORDS_MOST];

static const struct passing_table {
    const char *name;
    const uint16_t *words;
    uint32_t states, letters, records;
} passing_tables[] = {
    {"a pattern of one letter", one_letter, 2, 1, 2},
    {"a pattern of two letters", two_letters, 3, 2, 6},
    {"the largest pattern", largest, STATES_MOST, LETTERS_MOST, RECORDS_MOST},
};

static void fill_passing_tables(void)
{
    full_table(one_letter, 2, 1, 2);
    full_table(two_letters, 3, 2, 6);
    full_table(largest, STATES_MOST, LETTERS_MOST, RECORDS_MOST);
}

/* In no room, in little, and in enough for any two patterns. */
static void expect_in_any_room(const char *name, struct merge m, uint32_t number)
{
    static const size_t rooms[] = {0, 1, 20, BOTH_MOST};
    size_t i;
    for (i = 0; i < LENGTH(rooms); i++) {
        m.words_len = rooms[i];
        expect_number(name, lent_merge(m), number);
    }
}

/* A refused table beside every kind of other: as the first it decides, and as the second behind one that passes. */
static void try_refused(const uint16_t *words, size_t len, uint32_t number)
{
    char name[100];
    size_t i;
    for (i = 0; i < LENGTH(passing_tables); i++) {
        const struct passing_table *const p = &passing_tables[i];
        const size_t p_len = tubochre_table_words(p->states, p->records);
        snprintf(name, sizeof name, "a first table that %u refuses, and %s", (unsigned)number, p->name);
        expect_in_any_room(name, (struct merge){words, len, p->words, p_len, 0}, number);
        snprintf(name, sizeof name, "%s, and a second table that %u refuses", p->name, (unsigned)number);
        expect_in_any_room(name, (struct merge){p->words, p_len, words, len, 0}, number);
    }
    for (i = 0; i < LENGTH(refused_tables); i++) {
        const struct refused_table *const other = &refused_tables[i];
        snprintf(name, sizeof name, "%u of the first before %u of the second", (unsigned)number,
                 (unsigned)other->number);
        expect_in_any_room(name, (struct merge){words, len, other->words, other->len, 0}, number);
    }
}

/* The largest pattern with one fault at its very end, which only a look at all of the table finds. Beside the largest
 * one, or one of other letters, it would also be refused by 19, 20, 21 and 22. */
static void try_late_fault(size_t word, uint16_t value, uint32_t number)
{
    static uint16_t words[WORDS_MOST];
    memcpy(words, largest, sizeof words);
    words[word] = value;
    expect(lent_check(words, WORDS_MOST).number == number, "a fault in word %zu is found by the check", word);
    try_refused(words, WORDS_MOST, number);
}

static void try_late_faults(void)
{
    const size_t last_flags = tubochre_table_words(STATES_MOST - 1, 0);
    try_late_fault(last_flags, 4, TUBOCHRE_FLAGS);
    try_late_fault(WORDS_MOST - 3, LETTERS_MOST, TUBOCHRE_RECORD);
    try_late_fault(WORDS_MOST - 2, STATES_MOST, TUBOCHRE_RECORD);
    try_late_fault(WORDS_MOST - 1, RECORDS_MOST, TUBOCHRE_CHAIN);
    try_late_fault(WORDS_MOST - 2, largest[WORDS_MOST - 2] ^ 1, TUBOCHRE_FORK);
}

/* ---- Tables that share their memory. */

static void try_overlap(void)
{
    static const uint16_t both[] = {2, 1, 1, 0, 0, 1, 1, 0, 1, 0}; /* its last five words are a table too */
    static uint16_t words[BOTH_MOST];
    size_t need = by_rule(words, few_ones, few_ones);
    struct merge m = {few_ones, LENGTH(few_ones), few_ones, LENGTH(few_ones), need};
    expect_words("a pattern with itself, by one pointer", lent_merge_inside(m), words, need);
    m.words_len = need - 1;
    expect_number("the same, one word short", lent_merge_inside(m), TUBOCHRE_MERGE_WORDS);
    need = by_rule(words, both, both + 5);
    m = (struct merge){both, LENGTH(both), both + 5, 5, need};
    expect_words("a second pattern among the words of the first", lent_merge_inside(m), words, need);
    m.second_len = 4;
    expect_number("the same, cut", lent_merge_inside(m), TUBOCHRE_LENGTH);
    m = (struct merge){largest, WORDS_MOST, largest, WORDS_MOST, BOTH_MOST};
    expect_number("the largest pattern with itself", lent_merge_inside(m), TUBOCHRE_MERGE_STATES);
}

/* ---- What the merged pattern takes. */

#define TABLE(words, barren) {#words, words, LENGTH(words), barren}

/* Barren ones take nothing. */
static const struct pattern {
    const char *name;
    const uint16_t *words;
    size_t len;
    int barren;
} patterns[] = {
    TABLE(few_ones, 0), TABLE(many_ones, 0),    TABLE(some_one, 0),   TABLE(all_ones, 0), TABLE(in_turn, 0),
    TABLE(no_edges, 1), TABLE(no_accepting, 1), TABLE(no_initial, 1), TABLE(dead_end, 1),
};

/* All lassos over two letters with prefixes of up to 2 letters and loops of 1 to 3. */
enum { PREFIX_MOST = 2, LOOP_MOST = 3, LASSOS = (1 + 2 + 4) * (2 + 4 + 8), LIST_ROOM = LASSOS * 7 };

static uint16_t list[LIST_ROOM];
static size_t list_len;

static void put_lasso(uint32_t prefix_len, uint32_t prefix, uint32_t loop_len, uint32_t loop)
{
    uint32_t i;
    list[list_len++] = (uint16_t)prefix_len;
    list[list_len++] = (uint16_t)loop_len;
    for (i = 0; i < prefix_len; i++)
        list[list_len++] = prefix >> i & 1;
    for (i = 0; i < loop_len; i++)
        list[list_len++] = loop >> i & 1;
}

static void fill_list(void)
{
    uint32_t prefix_len, prefix, loop_len, loop;
    for (prefix_len = 0; prefix_len <= PREFIX_MOST; prefix_len++)
        for (prefix = 0; prefix < 1U << prefix_len; prefix++)
            for (loop_len = 1; loop_len <= LOOP_MOST; loop_len++)
                for (loop = 0; loop < 1U << loop_len; loop++)
                    put_lasso(prefix_len, prefix, loop_len, loop);
    expect(tubochre_list_lassos(list, list_len) == LASSOS, "%d lassos", LASSOS);
}

/* The bytes of all lassos on a table. */
static struct tried take_all(const uint16_t *table, size_t len)
{
    const size_t work_len = tubochre_tray_work_words(table[0], list, list_len);
    struct tried t = lent_tray((struct tray){table, len, list, list_len, LASSOS, work_len});
    expect(t.written.number == TUBOCHRE_OK, "the lassos are tried");
    return t;
}

/* How many lassos neither, the first, the second or both of two patterns took, over all pairs. */
static unsigned long taken_by[4];

static void expect_either(const struct pattern *a, const struct pattern *b, const uint16_t *merged, size_t len)
{
    struct built complement = lent_build(merged, len, 60000, 40000);
    const size_t used = tubochre_table_words(complement.counts.states, complement.counts.edges);
    struct tried by_a = take_all(a->words, a->len), by_b = take_all(b->words, b->len), by_both = take_all(merged, len);
    struct tried by_neither;
    size_t i;
    expect(complement.counts.number == TUBOCHRE_OK, "%s and %s: the complement is built", a->name, b->name);
    by_neither = take_all(complement.words, used);
    for (i = 0; i < LASSOS; i++) {
        taken_by[by_a.byte[i] + 2 * by_b.byte[i]]++;
        expect(by_both.byte[i] == (by_a.byte[i] || by_b.byte[i]), "%s and %s: lasso %zu by either", a->name, b->name,
               i);
        expect(by_neither.byte[i] == 1 - by_both.byte[i], "%s and %s: lasso %zu by neither", a->name, b->name, i);
    }
    expect(!a->barren || memcmp(by_both.byte, by_b.byte, LASSOS) == 0, "%s changes no verdict of %s", a->name,
           b->name);
    expect(!b->barren || memcmp(by_both.byte, by_a.byte, LASSOS) == 0, "%s changes no verdict of %s", b->name,
           a->name);
    tried_free(&by_a);
    tried_free(&by_b);
    tried_free(&by_both);
    tried_free(&by_neither);
    built_free(&complement);
}

static void try_lassos(void)
{
    size_t i, j;
    fill_list();
    for (i = 0; i < LENGTH(patterns); i++)
        for (j = 0; j < LENGTH(patterns); j++) {
            const struct pattern *const a = &patterns[i], *const b = &patterns[j];
            struct merged m = lent_merge((struct merge){a->words, a->len, b->words, b->len, a->len + b->len});
            expect(m.written.number == TUBOCHRE_OK, "%s and %s: merged", a->name, b->name);
            expect_either(a, b, m.words, (size_t)m.written.count);
            merged_free(&m);
        }
    for (i = 0; i < 4; i++)
        expect(taken_by[i] > 0, "no lasso is taken by neither, the first, the second or both (case %zu)", i);
}

int main(void)
{
    size_t i;
    fill_passing_tables();
    try_by_hand();
    section("merges worked out by hand, word for word");
    try_sizes();
    try_largest();
    section("merges of all sizes by the rules, in exact room, in more, and in one word fewer");
    try_rooms();
    section("every room from none on: 22");
    try_letters();
    try_states();
    try_records();
    section("letters that differ, 32 and 33 states, 4,096 and 4,097 records: 19, 20, 21");
    try_order();
    section("19 before 20 before 21 before 22");
    for (i = 0; i < LENGTH(refused_tables); i++)
        try_refused(refused_tables[i].words, refused_tables[i].len, refused_tables[i].number);
    try_late_faults();
    section("2 to 10 of the first table before 2 to 10 of the second before 19 to 22");
    try_overlap();
    section("both tables in the same memory");
    try_lassos();
    section("lassos by either and by neither, and patterns that take nothing");
    return summary("test_merge");
}
