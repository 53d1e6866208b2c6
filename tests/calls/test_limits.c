/* The largest complements and tables, what the calls need of the stack, and calls from many threads at once. */
#define _GNU_SOURCE
#include "rings.h"
#include "room.h"
#include "stack.h"
#include "test.h"

#include <pthread.h>
#include <stdio.h>
#include <stdlib.h>
#include <string.h>

enum { STACK_PROMISED = 32 * 1024, THREADS = 4, ROUNDS = 20 };

/* ---- Large complements. */

/* A build with more room than the largest complement may have, so that only the limits can refuse. */
static void try_large(uint32_t p, uint32_t r, uint32_t k, uint32_t number)
{
    static uint16_t table[2000];
    const size_t len = tubochre_table_words(p + r + 1, (p + r + 1) * k);
    const size_t words_len = TUBOCHRE_WIDE_WORDS_MOST + 1000, sets_len = tubochre_sets_words(70000);
    uint16_t *const words = room_for(words_len, sizeof *words);
    uint32_t *const sets = room_for(sets_len, sizeof *sets);
    const uint32_t states = number == 0 ? p << r : 0;
    struct tubochre_counts counts;
    size_t i, left = 0;
    memset(words, 0xa5, words_len * sizeof *words);
    memset(sets, 0xa5, sets_len * sizeof *sets);
    ring_pattern(table, p, r, k);
    counts = tubochre_build(table, len, words, words_len, sets, sets_len);
    expect(counts.number == number && counts.states == states && counts.edges == states * k &&
               counts.place.state == 0 && counts.place.letter == 0,
           "rings of %u and %u with %u letters: %u %u %u, state %u, letter %u", p, r, k, (unsigned)counts.number,
           (unsigned)counts.states, (unsigned)counts.edges, (unsigned)counts.place.state, (unsigned)counts.place.letter);
    for (i = number == 0 ? tubochre_table_words(states, states * k) : 0; i < words_len; i++)
        left += words[i] != 0;
    for (i = tubochre_sets_words(states); i < sets_len; i++)
        left += sets[i] != 0;
    expect(left == 0, "%zu words beyond the used part are not zero", left);
    free(words);
    free(sets);
}

/* ---- The largest wide table: 65,535 states in a ring, 65,535 records. */

static void try_largest_table(void)
{
    static const uint8_t zeros[TUBOCHRE_LASSO_PART_MOST];
    const uint32_t n = TUBOCHRE_WIDE_STATES_MOST;
    const size_t len = tubochre_table_words(n, n);
    const struct lasso one = {zeros, 0, zeros, 1}, three = {zeros, 5, zeros, 3};
    uint16_t *const words = room_for(len, sizeof *words);
    ring_table(words, n, 1, n);
    expect(decide(words, len, one) == TUBOCHRE_TAKEN, "a ring of 65,535 with an accepting state");
    expect(decide(words, len, three) == TUBOCHRE_TAKEN, "a ring of 65,535 with an accepting state, a longer lasso");
    words[3 + 2 * (n - 1)] = 0;
    expect(decide(words, len, one) == TUBOCHRE_NOT_TAKEN, "a ring of 65,535 without an accepting state");
    expect(decide(words, len, three) == TUBOCHRE_NOT_TAKEN, "the same, a longer lasso");
    words[3 + 2 * n + 3 * (n - 1) + 1] = (uint16_t)(n - 1); /* the last state leads to itself, */
    words[3 + 2 * (n - 1)] = 2;                             /* and accepts */
    expect(decide(words, len, one) == TUBOCHRE_TAKEN, "an accepting loop behind 65,534 states");
    words[4 + 2 * (n - 1)] = 1; /* a second name for record 1, none for the last */
    expect(decide(words, len, one) == 109, "a broken chain in the last state");
    free(words);
}

static void try_most_records(void)
{
    static const uint8_t zeros[100];
    const size_t len = tubochre_table_words(1, TUBOCHRE_WIDE_RECORDS_MOST);
    const struct lasso l = {zeros, 50, zeros, 50};
    uint16_t *const words = room_for(len, sizeof *words);
    ring_table(words, 1, 1, TUBOCHRE_WIDE_RECORDS_MOST);
    expect(decide(words, len, l) == TUBOCHRE_TAKEN, "one edge 65,535 times");
    words[3] = 1;
    expect(decide(words, len, l) == TUBOCHRE_NOT_TAKEN, "one edge 65,535 times, not accepting");
    free(words);
}

/* ---- All calls on one pattern, in memory of one's own. */

enum { P = 7, R = 8, K = 2, PATTERN_LEN = 3 + (2 + 3 * K) * (P + R + 1) };
enum { SETS_LEN = TUBOCHRE_RECORD_WORDS * (P << R) + 100, PREFIX_LEN = 3, LOOP_LEN = 5 };

/* A tray of the longest lasso that is decided, and of the one that the single calls are asked about. */
enum { LONGEST = 2 * TUBOCHRE_LASSO_PART_MOST, LIST_LEN = 2 + LONGEST + 2 + PREFIX_LEN + LOOP_LEN, LASSOS = 2 };

/* Enough for the longest lasso on the pattern, but not on its complement, where it is refused. */
enum { WORK_LEN = 4 * (P + R + 1) * LONGEST };

struct asked {
    struct tubochre_decision single;
    struct tubochre_written tray;
    uint8_t bytes[LASSOS];
};

struct job {
    uint8_t loop[LOOP_LEN];
    uint16_t pattern[PATTERN_LEN];
    uint16_t words[20000];
    uint16_t list[LIST_LEN];
    uint32_t sets[SETS_LEN], work[WORK_LEN];
    struct tubochre_checked checked;
    struct tubochre_counts counts;
    struct asked pattern_asked, complement_asked;
    struct tubochre_quadruple records[P << R];
    uint16_t twice[2 * PATTERN_LEN]; /* the pattern merged with itself */
    struct tubochre_written merged;
};

static const uint8_t job_prefix[PREFIX_LEN] = {0, 1, 1};

static void ask(struct job *j, const uint16_t *table, size_t len, struct asked *asked)
{
    asked->single = tubochre_lasso(table, len, job_prefix, PREFIX_LEN, j->loop, LOOP_LEN, j->work, WORK_LEN);
    asked->tray = tubochre_tray(table, len, j->list, LIST_LEN, asked->bytes, LASSOS, j->work, WORK_LEN);
}

static void *all_calls(void *data)
{
    struct job *const j = data;
    j->checked = tubochre_check(j->pattern, PATTERN_LEN);
    j->counts = tubochre_build(j->pattern, PATTERN_LEN, j->words, sizeof j->words / sizeof j->words[0],
                               j->sets, SETS_LEN);
    ask(j, j->pattern, PATTERN_LEN, &j->pattern_asked);
    ask(j, j->words, tubochre_table_words(j->counts.states, j->counts.edges), &j->complement_asked);
    tubochre_records(j->records, P << R, j->sets, SETS_LEN);
    j->merged = tubochre_merge(j->pattern, PATTERN_LEN, j->pattern, PATTERN_LEN, j->twice, 2 * PATTERN_LEN);
    return NULL;
}

/* The lasso's letters go on through both parts of the longest one. */
static void fill_list(struct job *j)
{
    uint16_t *const last = j->list + 2 + LONGEST;
    size_t i;
    j->list[0] = j->list[1] = TUBOCHRE_LASSO_PART_MOST;
    last[0] = PREFIX_LEN;
    last[1] = LOOP_LEN;
    for (i = 0; i < PREFIX_LEN + LOOP_LEN; i++)
        last[2 + i] = i < PREFIX_LEN ? job_prefix[i] : j->loop[i - PREFIX_LEN];
    for (i = 0; i < LONGEST; i++)
        j->list[2 + i] = last[2 + i % (PREFIX_LEN + LOOP_LEN)];
}

/* Each kind of job has a pattern and a loop of its own: of the outer states `kind` is the initial one, and the loop's
 * letters are the digits of `kind`. */
static struct job *new_job(unsigned kind)
{
    struct job *const j = room_for(1, sizeof *j);
    size_t i;
    memset(j, 0xa5, sizeof *j);
    ring_pattern(j->pattern, P, R, K);
    j->pattern[3] = 0;
    j->pattern[3 + 2 * kind] = 1;
    for (i = 0; i < LOOP_LEN; i++)
        j->loop[i] = kind >> i & 1;
    fill_list(j);
    return j;
}

/* The bytes are what the single calls say: of the second lasso; the first is too long for the complement. */
static void expect_answers(const struct job *j)
{
    const struct asked *const p = &j->pattern_asked, *const c = &j->complement_asked;
    expect(p->single.number == TUBOCHRE_OK && c->single.number == TUBOCHRE_OK, "neither is refused");
    expect(p->single.taken != c->single.taken, "exactly one takes the lasso");
    expect(p->tray.number == TUBOCHRE_OK && p->tray.count == LASSOS && c->tray.number == TUBOCHRE_OK &&
               c->tray.count == LASSOS,
           "both trays are tried");
    expect(p->bytes[0] <= TUBOCHRE_TAKEN && c->bytes[0] == TUBOCHRE_WORK, "the longest lasso");
    expect(p->bytes[1] == p->single.taken && c->bytes[1] == c->single.taken, "a byte is what the single call says");
    expect(j->merged.number == TUBOCHRE_OK && j->merged.count == 2 * PATTERN_LEN - 3, "the pattern with itself");
}

/* ---- The stack. */

static void try_stack(void)
{
    struct job *const j = new_job(0);
    const size_t used = stack_used(all_calls, j);
    expect(j->checked.number == 0 && j->counts.number == 0, "the calls on a stack of their own");
    expect_answers(j);
    expect(used < STACK_PROMISED, "the calls use %zu bytes of stack", used);
    printf("    the calls used %zu bytes of stack\n", used);
    free(j);
}

/* ---- Threads. */

static void *many_calls(void *data)
{
    int i;
    for (i = 0; i < ROUNDS; i++)
        all_calls(data);
    return NULL;
}

static int same_asked(const struct asked *a, const struct asked *b)
{
    return memcmp(&a->single, &b->single, sizeof a->single) == 0 && a->tray.number == b->tray.number &&
           a->tray.count == b->tray.count && memcmp(a->bytes, b->bytes, LASSOS) == 0;
}

static int same_results(const struct job *a, const struct job *b)
{
    return memcmp(&a->checked, &b->checked, sizeof a->checked) == 0 &&
           memcmp(&a->counts, &b->counts, sizeof a->counts) == 0 && same_asked(&a->pattern_asked, &b->pattern_asked) &&
           same_asked(&a->complement_asked, &b->complement_asked) &&
           memcmp(a->words, b->words, sizeof a->words) == 0 && memcmp(a->sets, b->sets, sizeof a->sets) == 0 &&
           memcmp(a->work, b->work, sizeof a->work) == 0 &&
           memcmp(a->records, b->records, sizeof a->records) == 0 && a->merged.number == b->merged.number &&
           a->merged.count == b->merged.count && memcmp(a->twice, b->twice, sizeof a->twice) == 0;
}

static void try_threads(void)
{
    struct job *alone[THREADS], *each[THREADS];
    pthread_t thread[THREADS];
    unsigned i;
    for (i = 0; i < THREADS; i++) {
        alone[i] = new_job(i);
        all_calls(alone[i]);
    }
    for (i = 0; i < THREADS; i++) {
        each[i] = new_job(i);
        expect(pthread_create(&thread[i], NULL, many_calls, each[i]) == 0, "a thread begins");
    }
    for (i = 0; i < THREADS; i++) {
        expect(pthread_join(thread[i], NULL) == 0, "a thread ends");
        expect(same_results(alone[i], each[i]), "thread %u has every word of the calls made alone", i);
        expect_answers(alone[i]);
    }
    for (i = 0; i < THREADS; i++) {
        expect(i == 0 || !same_results(alone[0], alone[i]), "thread %u has a job of its own", i);
        free(each[i]);
    }
    for (i = 0; i < THREADS; i++)
        free(alone[i]);
}

int main(void)
{
    try_large(7, 13, 1, 0);
    section("a complement of 57,344 states and as many edges");
    try_large(1, 12, 15, 0);
    try_large(1, 12, 16, TUBOCHRE_MANY_EDGES);
    section("61,440 edges are built, 65,536 are refused in any room");
    try_large(1, 16, 1, TUBOCHRE_MANY_STATES);
    section("65,536 states are refused in any room");
    try_largest_table();
    try_most_records();
    section("lassos on the largest wide tables");
    try_stack();
    section("less than 32 KiB of stack");
    try_threads();
    section("calls from several threads at once");
    return summary("test_limits");
}
