/* The calls on the tables that the rules work out by hand, and every refusal from 2 to 16; those of a tray alone are in
 * test_tray.c, those of a merge alone in test_merge.c. */
#include "rings.h"
#include "test.h"

#include <stdio.h>
#include <string.h>

#define LENGTH(array) (sizeof(array) / sizeof(array)[0])

static const uint16_t pattern_a[] = {2, 2, 4, 1, 1, 2, 4, 0, 0, 2, 1, 0, 3, 0, 1, 0, 0, 1, 0};
static const uint16_t pattern_b[] = {2, 2, 4, 1, 1, 2, 3, 0, 0, 2, 1, 1, 0, 0, 0, 4, 1, 1, 0};
static const uint16_t no_initial[] = {1, 1, 0, 0, 0};
static const uint16_t forking[] = {2, 1, 2, 1, 0, 2, 1, 0, 0, 2, 0, 1, 0};
static const uint16_t edge_twice[] = {1, 1, 2, 3, 1, 0, 0, 2, 0, 0, 0};

/* 0 waits for letter 1, which leads to 1 for ever. */
static const uint16_t waiting[] = {2, 2, 4, 1, 1, 2, 3, 0, 0, 2, 1, 1, 0, 0, 1, 4, 1, 1, 0};
/* 0 accepts and leads to 1, a dead end: a 1 in C blocks the step, a 0 in C does not. */
static const uint16_t dead_end[] = {2, 1, 1, 3, 1, 0, 0, 0, 1, 0};
/* Both states lead to 1: from an accepting one it may be guessed, from the other it must stay in C. */
static const uint16_t joining[] = {2, 1, 2, 3, 1, 1, 2, 0, 1, 0, 0, 1, 0};
/* 0 waits and enters 1, which accepts and leads to 2 for ever: B must not be refilled before it is empty. */
static const uint16_t entering[] = {3, 1, 4, 1, 1, 2, 3, 0, 4, 0, 0, 2, 0, 1, 0, 0, 2, 0, 0, 2, 0};

/* ---- Complements worked out by hand. */

struct piece {
    const char *name;
    const uint16_t *table;
    size_t len;
    const uint16_t *words;
    size_t words_len;
    const uint32_t *sets;
    size_t sets_len;
};

static const uint16_t pattern_a_words[] = {2, 2, 4, 3, 1, 0, 3, 0, 1, 2, 1, 0, 0, 0, 1, 4, 1, 0, 0};
static const uint32_t pattern_a_sets[] = {1, 0, 0, 0, 1, 2, 0, 2};
static const uint16_t pattern_b_words[] = {3, 2, 6, 1, 1, 3, 3, 0, 4, 0, 0, 2, 1, 2,
                                           0, 0, 1, 0, 0, 0, 5, 0, 1, 6, 1, 2, 0};
static const uint32_t pattern_b_sets[] = {0, 1, 0, 1, 0, 0, 1, 0, 0, 2, 0, 2};
static const uint16_t no_initial_words[] = {1, 1, 1, 3, 1, 0, 0, 0};
static const uint32_t no_initial_sets[] = {0, 0, 0, 0};
static const uint16_t edge_twice_words[] = {1, 1, 1, 1, 1, 0, 0, 0};
static const uint32_t edge_twice_sets[] = {0, 1, 0, 1};
static const uint16_t waiting_words[] = {2, 2, 4, 3, 1, 0, 3, 0, 0, 2, 1, 1, 0, 0, 1, 4, 1, 1, 0};
static const uint32_t waiting_sets[] = {1, 0, 0, 0, 0, 2, 0, 2};
static const uint16_t dead_end_words[] = {4, 1, 4, 1, 1, 0, 0, 2, 3, 2, 4, 0, 1, 2, 0, 2, 0, 0, 3, 0, 0, 3, 0};
static const uint32_t dead_end_sets[] = {0, 1, 0, 1, 0, 2, 0, 2, 0, 0, 2, 0, 0, 0, 0, 0};
static const uint16_t joining_words[] = {4, 1, 4, 1, 1, 1, 2, 0, 3, 2, 4, 0, 2, 0, 0, 3, 0, 0, 2, 0, 0, 3, 0};
static const uint32_t joining_sets[] = {0, 3, 0, 3, 0, 1, 2, 1, 0, 2, 0, 2, 0, 0, 2, 0};
static const uint16_t entering_words[] = {5, 1, 6, 3, 1, 0, 2, 0, 4, 2, 5, 0, 6, 0, 1, 0,
                                          0, 2, 3, 0, 3, 0, 0, 2, 0, 0, 4, 0, 0, 3, 0};
static const uint32_t entering_sets[] = {1, 0, 0, 0, 1, 2, 0, 2, 1, 6, 0, 4, 1, 2, 4, 0, 1, 2, 4, 2};

#define PIECE(name, table) \
    {name, table, LENGTH(table), table##_words, LENGTH(table##_words), table##_sets, LENGTH(table##_sets)}

static const struct piece pieces[] = {
    PIECE("A", pattern_a),
    PIECE("B", pattern_b),
    PIECE("no initial state", no_initial),
    PIECE("one edge twice", edge_twice),
    PIECE("waiting", waiting),
    PIECE("a dead end", dead_end),
    PIECE("a target that must stay in C", joining),
    PIECE("B not refilled before it is empty", entering),
};

enum { A, B, NO_INITIAL, EDGE_TWICE, WAITING, DEAD_END, JOINING, ENTERING };

static void try_piece(const struct piece *p)
{
    struct built b = lent_build(p->table, p->len, p->words_len, p->sets_len);
    expect(lent_check(p->table, p->len).number == TUBOCHRE_OK, "%s passes the check", p->name);
    expect(b.counts.number == TUBOCHRE_OK, "%s is built", p->name);
    expect(b.counts.states == p->words[0] && b.counts.edges == p->words[2], "%s: the counts", p->name);
    expect(memcmp(b.words, p->words, p->words_len * sizeof *p->words) == 0, "%s: every word", p->name);
    expect(memcmp(b.sets, p->sets, p->sets_len * sizeof *p->sets) == 0, "%s: every set", p->name);
    built_free(&b);
}

/* ---- Lassos worked out by hand: who takes them. */

struct trial {
    const char *name;
    const struct piece *piece;
    uint8_t prefix[4], loop[4];
    size_t prefix_len, loop_len;
    int by_pattern;
};

static const struct trial trials[] = {
    {"A, loop 0", &pieces[A], {0}, {0}, 0, 1, 1},
    {"A, loop 1", &pieces[A], {0}, {1}, 0, 1, 0},
    {"A, prefix 1, loop 0", &pieces[A], {1}, {0}, 1, 1, 1},
    {"A, prefix 0 0, loop 0 1", &pieces[A], {0, 0}, {0, 1}, 2, 2, 0},
    {"B, loop 0", &pieces[B], {0}, {0}, 0, 1, 0},
    {"B, loop 0 1", &pieces[B], {0}, {0, 1}, 0, 2, 1},
    {"B, prefix 1, loop 0: an accepting state on the prefix only", &pieces[B], {1}, {0}, 1, 1, 0},
    {"no initial state, loop 0", &pieces[NO_INITIAL], {0}, {0}, 0, 1, 0},
    {"one edge twice, loop 0", &pieces[EDGE_TWICE], {0}, {0}, 0, 1, 1},
    {"waiting, loop 0", &pieces[WAITING], {0}, {0}, 0, 1, 0},
    {"waiting, prefix 0 1, loop 0", &pieces[WAITING], {0, 1}, {0}, 2, 1, 1},
    {"waiting, prefix 0 0, loop 0 0 1", &pieces[WAITING], {0, 0}, {0, 0, 1}, 2, 3, 1},
    {"a dead end, loop 0: a finite run", &pieces[DEAD_END], {0}, {0}, 0, 1, 0},
    {"a target that must stay, loop 0 0", &pieces[JOINING], {0}, {0, 0}, 0, 2, 0},
    {"entering, prefix 0, loop 0", &pieces[ENTERING], {0}, {0}, 1, 1, 0},
};

static void try_lasso(const struct trial *t)
{
    const struct lasso l = {t->prefix, t->prefix_len, t->loop, t->loop_len};
    const uint32_t by_pattern = decide(t->piece->table, t->piece->len, l);
    const uint32_t by_complement = decide(t->piece->words, t->piece->words_len, l);
    expect(by_pattern == (t->by_pattern ? TUBOCHRE_TAKEN : TUBOCHRE_NOT_TAKEN), "%s: by the pattern", t->name);
    expect(by_complement == (t->by_pattern ? TUBOCHRE_NOT_TAKEN : TUBOCHRE_TAKEN), "%s: by the complement", t->name);
}

/* A run that stops is no run: state 0 is accepting and has no edge. */
static void try_finite_run(void)
{
    static const uint16_t table[] = {1, 1, 0, 3, 0};
    static const uint8_t loop[] = {0};
    const struct lasso l = {loop, 0, loop, 1};
    struct built b = lent_build(table, LENGTH(table), 100, 100);
    expect(decide(table, LENGTH(table), l) == TUBOCHRE_NOT_TAKEN, "a finite run is none");
    expect(decide(b.words, tubochre_table_words(b.counts.states, b.counts.edges), l) == TUBOCHRE_TAKEN,
           "the complement takes what a finite run does not");
    built_free(&b);
}

/* ---- Refusals of a table: each by all five calls, in the pattern's range and in the wide one. */

struct damaged {
    const char *name;
    uint32_t in_pattern, in_wide; /* the numbers; 0 passes */
    size_t len;
    uint16_t words[20];
};

static const struct damaged damaged_tables[] = {
    {"no word", 2, 2, 0, {0}},
    {"two words", 2, 2, 2, {1, 1}},
    {"n is 0", 3, 3, 3, {0, 1, 0}},
    {"n is 0 before k is 0", 3, 3, 3, {0, 0, 0}},
    {"k is 0", 4, 4, 5, {1, 0, 0, 0, 0}},
    {"k is 17", 4, 4, 5, {1, 17, 0, 0, 0}},
    {"k is 17 before the length", 4, 4, 4, {1, 17, 0, 0}},
    {"k is 16", 0, 0, 5, {1, 16, 0, 0, 0}},
    {"one word short", 6, 6, 4, {1, 1, 0, 0}},
    {"one word long", 6, 6, 6, {1, 1, 0, 0, 0, 0}},
    {"flags 4", 7, 7, 5, {1, 1, 0, 4, 0}},
    {"flags of the second state before a letter of the first", 7, 7, 10, {2, 1, 1, 0, 1, 4, 0, 1, 0, 0}},
    {"a letter that is k", 8, 8, 8, {1, 1, 1, 0, 1, 1, 0, 0}},
    {"a target that is n", 8, 8, 8, {1, 1, 1, 0, 1, 0, 1, 0}},
    {"a target of a later record before a head", 8, 8, 11, {1, 1, 2, 0, 9, 0, 0, 0, 0, 1, 0}},
    {"a head above m", 9, 9, 8, {1, 1, 1, 0, 2, 0, 0, 0}},
    {"a next above m", 9, 9, 8, {1, 1, 1, 0, 1, 0, 0, 2}},
    {"a next that is its own record", 9, 9, 8, {1, 1, 1, 0, 1, 0, 0, 1}},
    {"a next that is its own record, named by nothing else", 9, 9, 8, {1, 1, 1, 0, 0, 0, 0, 1}},
    {"a next that goes back", 9, 9, 11, {1, 1, 2, 0, 2, 0, 0, 0, 0, 0, 1}},
    {"a record that nothing names", 9, 9, 8, {1, 1, 1, 0, 0, 0, 0, 0}},
    {"a record named by a head and a next", 9, 9, 13, {2, 1, 2, 0, 1, 0, 2, 0, 0, 2, 0, 0, 0}},
    {"a record named by two heads", 9, 9, 10, {2, 1, 1, 0, 1, 0, 1, 0, 0, 0}},
    {"a word too many behind a fork", 6, 6, 14, {2, 1, 2, 1, 0, 2, 1, 0, 0, 2, 0, 1, 0, 0}},
    {"flags of 4 before a fork", 7, 7, 13, {2, 1, 2, 4, 0, 2, 1, 0, 0, 2, 0, 1, 0}},
    {"a record that nothing names, before a fork", 9, 9, 16, {2, 1, 3, 1, 0, 2, 1, 0, 0, 2, 0, 1, 0, 0, 0, 0}},
    {"a fork behind an accepting state that is never reached", 10, 0, 13, {2, 1, 2, 1, 0, 2, 1, 0, 0, 2, 0, 1, 0}},
    {"a fork before every accepting state", 0, 0, 13, {2, 1, 2, 1, 1, 2, 0, 0, 0, 2, 0, 1, 0}},
};

/* The same lasso twice, with as many work words as it needs. */
static void try_table_by_tray(const char *name, const uint16_t *words, size_t len, uint32_t in_wide)
{
    static const uint16_t list[] = {1, 1, 0, 0, 1, 1, 0, 0};
    const size_t work_len = len < 3 ? 0 : tubochre_work_words(words[0], 1, 1);
    struct tried t = lent_tray((struct tray){words, len, list, LENGTH(list), 2, work_len});
    expect(t.written.number == in_wide, "%s: the tray", name);
    expect(in_wide != 0 || t.byte[0] <= TUBOCHRE_TAKEN, "%s: the tray decides", name);
    expect(t.byte[0] == t.byte[1], "%s: the same lasso twice", name);
    tried_free(&t);
}

/* The table with itself, and behind a pattern of other letters: what it is refused by comes before all that two patterns
 * can be refused by together. */
static void try_table_by_merge(const char *name, const uint16_t *words, size_t len, uint32_t in_pattern)
{
    static const uint16_t all_letters[] = {1, 16, 0, 0, 0};
    const size_t words_len = len + LENGTH(all_letters);
    struct merged twice = lent_merge_inside((struct merge){words, len, words, len, 2 * len});
    struct merged behind = lent_merge((struct merge){all_letters, LENGTH(all_letters), words, len, words_len});
    const uint32_t number = behind.written.number;
    expect(in_pattern == 0 || twice.written.number == in_pattern, "%s: the merge with itself", name);
    expect(in_pattern != 0 || twice.written.number == TUBOCHRE_OK || twice.written.number > TUBOCHRE_MERGE_LETTERS,
           "%s: the merge with itself has the same letters", name);
    expect(in_pattern == 0 || number == in_pattern, "%s: the merge behind another", name);
    expect(in_pattern != 0 || words[1] == 16 || number == TUBOCHRE_MERGE_LETTERS, "%s: other letters", name);
    merged_free(&twice);
    merged_free(&behind);
}

static void try_table(const char *name, const uint16_t *words, size_t len, uint32_t in_pattern, uint32_t in_wide)
{
    static const uint8_t letters[] = {0};
    const struct lasso l = {letters, 1, letters, 1};
    struct built b = lent_build(words, len, 5000, 5000);
    const struct tubochre_checked checked = lent_check(words, len);
    const uint32_t decision = decide(words, len, l);
    expect(checked.number == in_pattern, "%s: the check", name);
    expect(b.counts.number == in_pattern, "%s: the build", name);
    expect(same_place(b.counts.place, checked.place), "%s: the place", name);
    expect(in_wide == 0 ? decision < 100 : decision == 100 + in_wide, "%s: the lasso decision", name);
    try_table_by_tray(name, words, len, in_wide);
    try_table_by_merge(name, words, len, in_pattern);
    built_free(&b);
}

static void try_ranges(void)
{
    static uint16_t t[TUBOCHRE_PATTERN_WORDS_MOST + 16];
    ring_table(t, 32, 1, 32);
    try_table("n is 32", t, tubochre_table_words(32, 32), 0, 0);
    ring_table(t, 33, 1, 33);
    try_table("n is 33", t, tubochre_table_words(33, 33), 3, 0);
    ring_table(t, 1, 16, 1);
    try_table("k is 16, with an edge", t, tubochre_table_words(1, 1), 0, 0);
    ring_table(t, 1, 17, 1);
    try_table("k is 17, with an edge", t, tubochre_table_words(1, 1), 4, 4);
    ring_table(t, 2, 1, 4096);
    try_table("m is 4,096", t, tubochre_table_words(2, 4096), 0, 0);
    ring_table(t, 2, 1, 4097);
    try_table("m is 4,097", t, tubochre_table_words(2, 4097), 5, 0);
    try_table("m is 4,097 before the length", t, tubochre_table_words(2, 4097) - 1, 5, 6);
    ring_table(t, 32, 1, 4096);
    try_table("the largest pattern", t, TUBOCHRE_PATTERN_WORDS_MOST, 0, 0);
}

/* ---- Refusals of a lasso, in their order. */

static void try_lasso_refusals(void)
{
    static uint8_t zeros[5000], bad[5000];
    const struct lasso no_loop = {zeros, 3, zeros, 0}, no_loop_long = {zeros, 4097, zeros, 0};
    const struct lasso long_loop = {zeros, 0, zeros, 4097}, long_prefix = {zeros, 4097, zeros, 1};
    const struct lasso longest = {zeros, 4096, zeros, 4096}, bad_prefix = {bad, 1, zeros, 1};
    const struct lasso bad_loop = {zeros, 4, zeros, 1}, plain = {zeros, 2, zeros, 3};
    const struct lasso long_bad = {bad, 4097, zeros, 1};
    const uint16_t *const t = pattern_a;
    const size_t len = LENGTH(pattern_a);
    struct lasso l = bad_loop;
    uint8_t last_bad[] = {1, 1, 2};
    bad[0] = 2;
    l.loop = last_bad;
    l.loop_len = 3;
    expect(decide(t, len, no_loop) == 113, "an empty loop");
    expect(decide(t, len, no_loop_long) == 113, "an empty loop comes before a long prefix");
    expect(decide(t, len, long_loop) == 114, "a loop of 4,097");
    expect(decide(t, len, long_prefix) == 114, "a prefix of 4,097");
    expect(decide(t, len, long_bad) == 114, "a long prefix comes before its bad letter");
    expect(decide(t, len, longest) == TUBOCHRE_TAKEN, "both parts of 4,096");
    expect(decide(t, len, bad_prefix) == 115, "a letter of the prefix");
    expect(decide(t, len, l) == 115, "the last letter of the loop");
    expect(lent_lasso(t, len, l, 0).number == 15, "a letter comes before the work words");
    expect(lent_lasso(t, len, plain, 0).number == 16, "no work words");
    expect(lent_lasso(t, len, plain, 4 * 2 * 5 - 1).number == 16, "one work word short");
    expect(lent_lasso(t, len, plain, 4 * 2 * 5).number == TUBOCHRE_OK, "just enough work words");
    expect(lent_lasso(t, len, plain, 4 * 2 * 5 + 7).number == TUBOCHRE_OK, "more work words than needed");
}

/* The build's own refusals: a fork by 10 leaves zeros too; 11 comes before 12. */
static void try_build_refusals(void)
{
    const size_t len = LENGTH(pattern_b), words = LENGTH(pattern_b_words), sets = LENGTH(pattern_b_sets);
    struct {
        size_t words, sets;
        uint32_t number;
    } const rooms[] = {{words, sets, 0},     {words, sets - 1, 11},   {words, sets - 4, 11}, {words, 0, 11},
                       {words - 1, sets, 12}, {0, sets, 12},          {0, sets - 1, 11},     {words - 1, 0, 11},
                       {words, sets + 3, 0}, {words + 1, sets + 4, 0}};
    size_t i;
    for (i = 0; i < LENGTH(rooms); i++) {
        struct built b = lent_build(pattern_b, len, rooms[i].words, rooms[i].sets);
        expect(b.counts.number == rooms[i].number, "B in %zu words and %zu sets words", rooms[i].words, rooms[i].sets);
        built_free(&b);
    }
    try_table("forking", forking, LENGTH(forking), 10, 0);
}

int main(void)
{
    size_t i;
    for (i = 0; i < LENGTH(pieces); i++)
        try_piece(&pieces[i]);
    section("complements worked out by hand, word for word");
    for (i = 0; i < LENGTH(trials); i++)
        try_lasso(&trials[i]);
    try_finite_run();
    section("lassos worked out by hand, on pattern and complement");
    for (i = 0; i < LENGTH(damaged_tables); i++)
        try_table(damaged_tables[i].name, damaged_tables[i].words, damaged_tables[i].len, damaged_tables[i].in_pattern,
                  damaged_tables[i].in_wide);
    section("refusals 2 to 10 of a table, by each call");
    try_ranges();
    section("the ends of each range");
    try_build_refusals();
    section("refusals 10 to 12 of a build");
    try_lasso_refusals();
    section("refusals 13 to 16 of a lasso");
    return summary("test_calls");
}
