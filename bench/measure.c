/* The library's calls beside an unverified reference written for speed, in one process, on the same inputs.
 *
 *     measure [--quick] [check] [build] [growth] [tray] [merge] [stack]
 *     measure --count LETTERS
 *
 * For each row both are run once to warm up, and what they answer and leave is compared. Then they take turns, and the
 * medians of the processor's time are printed. What is timed is whole calls that leave the same in the lent memory:
 * both clear the unused words of a build or a merge, and after a decision or a tray as many work words as the library
 * is lent. The reference allocates and frees its own tables, and is lent one block of work words more. A tray is
 * measured against as many single calls of the library too.
 *
 * `--count` makes one decision only, with a loop of so many letters on the table of the growth rows, for a tool that
 * counts its instructions (instructions.sh). */
#define _GNU_SOURCE
#include "arguments.h"
#include "draw.h"
#include "fast.h"
#include "rings.h"
#include "room.h"
#include "stack.h"
#include "tubochre.h"

#include <inttypes.h>
#include <stdio.h>
#include <stdlib.h>
#include <string.h>
#include <sys/mman.h>
#include <time.h>
#include <unistd.h>

enum { ROUNDS_MOST = 201, ROUNDS_FEWEST = 3, CALLS_MOST = 3 };

static int quick;

/* ---- Small things. */

/* On large pages where the system has them: otherwise the cost of finding pages would grow with the work words. */
static void *large_memory(size_t bytes)
{
    const size_t page = (size_t)2 << 20, room = (bytes / page + 1) * page;
    void *const p = aligned_alloc(page, room);
    if (p == NULL) {
        fprintf(stderr, "out of memory: %zu bytes on large pages\n", room);
        exit(2);
    }
    if (madvise(p, room, MADV_HUGEPAGE) != 0)
        fputs("measure: no large pages\n", stderr);
    return p;
}

/* Rows that would be lent more are left out, and said to be: half of the memory that is free, or little in a quick
 * run. */
static size_t most_lent(void)
{
    const size_t little = (size_t)14 * 1000 * 1000;
    return quick ? little : (size_t)sysconf(_SC_AVPHYS_PAGES) * (size_t)sysconf(_SC_PAGESIZE) / 2;
}

static void must(int holds, const char *what)
{
    if (!holds) {
        fprintf(stderr, "measure: library and reference differ: %s\n", what);
        exit(1);
    }
}

/* The processor's time for this thread: other programs on the machine do not count. */
static double now(void)
{
    struct timespec t;
    clock_gettime(CLOCK_THREAD_CPUTIME_ID, &t);
    return (double)t.tv_sec + (double)t.tv_nsec * 1e-9;
}

static int by_time(const void *a, const void *b)
{
    const double x = *(const double *)a, y = *(const double *)b;
    return x < y ? -1 : x > y;
}

static double median(double *times, int count)
{
    qsort(times, (size_t)count, sizeof *times, by_time);
    return times[count / 2];
}

/* ---- A row: calls that take turns. */

struct input {
    const uint16_t *table;
    size_t len;
    const uint16_t *second; /* the other table of a merge */
    size_t second_len;
    uint16_t *words; /* a build's room, or a merge's */
    size_t words_len;
    uint32_t *sets;
    size_t sets_len;
    const uint8_t *prefix, *loop; /* a decision's lasso */
    size_t prefix_len, loop_len;
    uint32_t *work; /* a decision's room, for the reference too */
    size_t work_len;
    const uint16_t *list; /* a tray's lassos, as a list, and as letters one behind the other */
    size_t list_len;
    const uint8_t *letters;
    uint8_t *answers; /* a tray's room: a byte for each lasso */
    size_t lassos;
    uint64_t count; /* how many items a tray or a merge says that it wrote */
    enum fast_lookup lookup;
    volatile uint32_t answer; /* so that no call is left out */
};

typedef void call(struct input *);

struct times {
    double library, reference;
    int rounds;
};

/* The time of one call, over so many in a row. */
static double timed(call *run, struct input *in, int calls)
{
    const double start = now();
    int i;
    for (i = 0; i < calls; i++)
        run(in);
    return (now() - start) / calls;
}

/* So many calls in a row that reading the clock does not matter beside them. */
static int calls_for(double seconds)
{
    return seconds > 1e-4 ? 1 : (int)(1e-4 / (seconds + 1e-7));
}

/* So many rounds that a row takes about a second or two, an odd number of them. */
static int rounds_for(double seconds)
{
    const double budget = quick ? 0.1 : 1.5;
    double rounds = budget / (seconds + 1e-7);
    if (rounds > ROUNDS_MOST)
        rounds = ROUNDS_MOST;
    if (rounds < ROUNDS_FEWEST)
        rounds = ROUNDS_FEWEST;
    return (int)rounds | 1;
}

/* So many calls take turns, at most CALLS_MOST; how many rounds there were, and the median of each. */
static int rounds_of(call *const *calls, int count, struct input *in, double *medians)
{
    static double times[CALLS_MOST][ROUNDS_MOST + 1];
    double once = 0;
    int i, round, rounds, in_a_row;
    for (i = 0; i < count; i++)
        once += timed(calls[i], in, 1);
    in_a_row = calls_for(once);
    rounds = rounds_for(once * in_a_row);
    for (round = 0; round < rounds; round++)
        for (i = 0; i < count; i++)
            times[i][round] = timed(calls[i], in, in_a_row);
    for (i = 0; i < count; i++)
        medians[i] = median(times[i], rounds);
    return rounds;
}

static struct times take_turns(call *library, call *reference, struct input *in)
{
    call *const calls[] = {library, reference};
    double medians[2];
    const int rounds = rounds_of(calls, 2, in, medians);
    return (struct times){medians[0], medians[1], rounds};
}

static void print_heading(const char *title, const char *last)
{
    printf("\n%-44s %12s %12s %7s %6s  %s\n", title, "library", "reference", "ratio", "rounds", last);
}

static void print_times(const char *name, struct times t)
{
    printf("%-44s %9.1f us %9.1f us %7.2f %6d  ", name, t.library * 1e6, t.reference * 1e6, t.library / t.reference,
           t.rounds);
}

/* ---- The calls, as rows run them. */

static void check_by_library(struct input *in)
{
    in->answer = tubochre_check(in->table, in->len).number;
}

static void check_by_reference(struct input *in)
{
    in->answer = fast_check(in->table, in->len).number;
}

static void build_by_library(struct input *in)
{
    in->answer = tubochre_build(in->table, in->len, in->words, in->words_len, in->sets, in->sets_len).states;
}

static void build_by_reference(struct input *in)
{
    in->answer =
        fast_build(in->table, in->len, in->words, in->words_len, in->sets, in->sets_len, in->lookup).states;
}

static void lasso_by_library(struct input *in)
{
    const struct tubochre_decision d =
        tubochre_lasso(in->table, in->len, in->prefix, in->prefix_len, in->loop, in->loop_len, in->work,
                       tubochre_work_words(in->table[0], in->prefix_len, in->loop_len));
    in->answer = d.number == TUBOCHRE_OK ? d.taken : 100 + d.number;
}

/* The work words are clear afterwards, as they are when the library answers. */
static void lasso_by_reference(struct input *in)
{
    in->answer =
        fast_lasso(in->table, in->len, in->prefix, in->prefix_len, in->loop, in->loop_len, in->work).taken;
    memset(in->work, 0, tubochre_work_words(in->table[0], in->prefix_len, in->loop_len) * sizeof *in->work);
}

/* Each lasso of a tray has so many letters in its prefix, and as many in its loop. */
enum { TRAY_PART = 4, TRAY_LETTERS = 2 * TRAY_PART };

static void tray_by_library(struct input *in)
{
    const struct tubochre_written written =
        tubochre_tray(in->table, in->len, in->list, in->list_len, in->answers, in->lassos, in->work, in->work_len);
    in->answer = written.number;
    in->count = written.count;
}

static void tray_by_single_calls(struct input *in)
{
    size_t i;
    for (i = 0; i < in->lassos; i++) {
        const uint8_t *const prefix = in->letters + TRAY_LETTERS * i;
        const struct tubochre_decision d = tubochre_lasso(in->table, in->len, prefix, TRAY_PART, prefix + TRAY_PART,
                                                          TRAY_PART, in->work, in->work_len);
        in->answers[i] = (uint8_t)(d.number == TUBOCHRE_OK ? d.taken : d.number);
    }
}

static void tray_by_reference(struct input *in)
{
    const struct fast_written written =
        fast_tray(in->table, in->len, in->list, in->list_len, in->answers, in->lassos, in->work);
    in->answer = written.number;
    in->count = written.count;
    memset(in->work, 0, in->work_len * sizeof *in->work);
}

static void merge_by_library(struct input *in)
{
    const struct tubochre_written written =
        tubochre_merge(in->table, in->len, in->second, in->second_len, in->words, in->words_len);
    in->answer = written.number;
    in->count = written.count;
}

static void merge_by_reference(struct input *in)
{
    const struct fast_written written =
        fast_merge(in->table, in->len, in->second, in->second_len, in->words, in->words_len);
    in->answer = written.number;
    in->count = written.count;
}

/* ---- Checks. */

/* The records of each state go through 16 letters, one target for a letter: all is read, and it passes. */
static void full_pattern(struct drawn_table *t, uint32_t states, uint32_t records)
{
    full_table(t->words, states, 16, records);
    t->len = tubochre_table_words(states, records);
}

/* The same with the most states and records, of which the last leads elsewhere: the only fork is at the last place that
 * there can be, state 31 and letter 15, and the search for it is the longest. */
static void last_fork_pattern(struct drawn_table *t)
{
    full_pattern(t, TUBOCHRE_PATTERN_STATES_MOST, TUBOCHRE_PATTERN_RECORDS_MOST);
    t->words[t->len - 2] ^= 1;
}

static int same_checked(struct fast_checked a, struct fast_checked b)
{
    return a.number == b.number && a.place.state == b.place.state && a.place.letter == b.place.letter;
}

static void check_row(const char *name, const struct drawn_table *t, struct fast_checked expected)
{
    const struct tubochre_checked answered = tubochre_check(t->words, t->len);
    const struct fast_checked by_library = {answered.number, {answered.place.state, answered.place.letter}};
    struct input in;
    struct times times;
    must(same_checked(by_library, expected), "a check by the library");
    must(same_checked(fast_check(t->words, t->len), expected), "a check by the reference");
    memset(&in, 0, sizeof in);
    in.table = t->words;
    in.len = t->len;
    times = take_turns(check_by_library, check_by_reference, &in);
    print_times(name, times);
    printf("%.2f ns a record, 0 bytes lent to write\n", times.library * 1e9 / t->words[2]);
}

static void check_rows(void)
{
    static const struct fast_checked passes = {TUBOCHRE_OK, {0, 0}}, forks = {TUBOCHRE_FORK, {31, 15}};
    static struct drawn_table t;
    char name[80];
    uint32_t records;
    print_heading("check", "");
    for (records = 256; records <= 4096; records *= 2) {
        full_pattern(&t, TUBOCHRE_PATTERN_STATES_MOST, records);
        snprintf(name, sizeof name, "32 states, 16 letters, %" PRIu32 " records", records);
        check_row(name, &t, passes);
    }
    last_fork_pattern(&t);
    check_row("4096 records, a fork at state 31, letter 15", &t, forks);
}

/* ---- Builds. */

/* Outer states that fork into the inner part on every letter; inner ones of which about a third accept. */
static void forking_pattern(struct drawn_table *t, uint32_t seed, uint32_t letters, uint32_t outer, uint32_t states)
{
    struct random r = random_from(seed);
    struct drawn_edge edge[128];
    uint8_t flags[32] = {0};
    uint32_t count = 0, q, c;
    for (q = 0; q < states; q++)
        for (c = 0; c < letters; c++) {
            edge[count].source = (uint16_t)q;
            edge[count].letter = (uint16_t)c;
            if (q >= outer) {
                edge[count++].target = (uint16_t)random_between(&r, outer, states - 1);
                continue;
            }
            edge[count++].target = (uint16_t)random_below(&r, outer);
            edge[count].source = (uint16_t)q;
            edge[count].letter = (uint16_t)c;
            edge[count++].target = (uint16_t)random_between(&r, outer, states - 1);
        }
    for (q = outer; q < states; q++)
        flags[q] = random_chance(&r, 30) ? 2 : 0;
    flags[0] |= 1;
    flags[states - 1] |= 2;
    draw_from_edges(t, states, letters, flags, edge, count);
}

static void ring_of(struct drawn_table *t, uint32_t p, uint32_t r)
{
    ring_pattern(t->words, p, r, 1);
    t->len = tubochre_table_words(p + r + 1, p + r + 1);
}

struct complement {
    struct tubochre_counts counts;
    uint16_t *words;
    size_t len;
};

/* Builds by both in room for exactly the complement, compares every word, and keeps the table. */
static struct complement compare_builds(struct input *in)
{
    const size_t words_most = TUBOCHRE_WIDE_WORDS_MOST, sets_most = tubochre_sets_words(TUBOCHRE_WIDE_STATES_MOST);
    uint16_t *const words = room_for(words_most, sizeof *words);
    uint32_t *const sets = room_for(sets_most, sizeof *sets);
    const struct fast_counts sizes = fast_build(in->table, in->len, words, words_most, sets, sets_most, FAST_HASH);
    struct complement c;
    must(sizes.number == 0, "the reference refuses a pattern of a row");
    c.len = in->words_len = tubochre_table_words(sizes.states, sizes.edges);
    in->sets_len = tubochre_sets_words(sizes.states);
    in->words = room_for(in->words_len, sizeof *in->words);
    in->sets = room_for(in->sets_len, sizeof *in->sets);
    c.counts = tubochre_build(in->table, in->len, in->words, in->words_len, in->sets, in->sets_len);
    must(c.counts.number == 0 && c.counts.states == sizes.states && c.counts.edges == sizes.edges, "counts of a build");
    must(memcmp(in->words, words, in->words_len * sizeof *words) == 0, "words of a build");
    must(memcmp(in->sets, sets, in->sets_len * sizeof *sets) == 0, "sets of a build");
    c.words = words;
    free(sets);
    return c;
}

/* Against the reference with a hash table, and with the same scan of all states that the library makes. */
static struct complement build_row(const char *pattern, const struct drawn_table *t)
{
    struct input in;
    struct complement c;
    struct times times;
    char name[80];
    int scan;
    memset(&in, 0, sizeof in);
    in.table = t->words;
    in.len = t->len;
    c = compare_builds(&in);
    for (scan = 0; scan < 2; scan++) {
        in.lookup = scan ? FAST_SCAN : FAST_HASH;
        times = take_turns(build_by_library, build_by_reference, &in);
        snprintf(name, sizeof name, "%s: %" PRIu32 " states, %" PRIu32 " edges%s", pattern, c.counts.states,
                 c.counts.edges, scan ? ", scan" : "");
        print_times(name, times);
        printf("%.1f ns an edge, %zu bytes lent\n", times.library * 1e9 / c.counts.edges,
               in.words_len * sizeof *in.words + in.sets_len * sizeof *in.sets);
    }
    free(in.words);
    free(in.sets);
    return c;
}

/* ---- Decisions. */

static void fill_loop(uint8_t *loop, size_t len, uint32_t letters)
{
    struct random r = random_from(len);
    size_t i;
    for (i = 0; i < len; i++)
        loop[i] = (uint8_t)random_below(&r, letters);
}

/* What a decision of the library took, and how much there was to do. */
struct cost {
    double seconds, units; /* units: records times positions; 0 where the row was left out */
};

/* What it takes to clear the library's work words once, as it does after a decision. */
static double clearing(struct input *in, size_t bytes)
{
    double times[5];
    int i;
    for (i = 0; i < 5; i++) {
        const double start = now();
        memset(in->work, 0, bytes);
        in->answer = in->work[0];
        times[i] = now() - start;
    }
    return median(times, 5);
}

static struct cost lasso_row(const char *table_name, const uint16_t *table, size_t len, size_t loop_len)
{
    static uint8_t loop[TUBOCHRE_LASSO_PART_MOST];
    const size_t lent = tubochre_work_words(table[0], 0, loop_len) * sizeof(uint32_t);
    struct input in;
    struct times times;
    char name[80];
    uint32_t by_library;
    struct cost cost = {0, 0};
    snprintf(name, sizeof name, "%s, loop of %zu", table_name, loop_len);
    if (lent > most_lent()) {
        printf("%-44s left out: it would be lent %zu bytes\n", name, lent);
        return cost;
    }
    memset(&in, 0, sizeof in);
    fill_loop(loop, loop_len, table[1]);
    in.table = table;
    in.len = len;
    in.prefix = in.loop = loop;
    in.loop_len = loop_len;
    in.work = large_memory(fast_work_words(table[0], 0, loop_len) * sizeof *in.work);
    lasso_by_library(&in);
    by_library = in.answer;
    lasso_by_reference(&in);
    must(by_library <= TUBOCHRE_TAKEN && in.answer == by_library, "a decision");
    times = take_turns(lasso_by_library, lasso_by_reference, &in);
    cost.seconds = times.library;
    cost.units = (double)table[2] * (double)loop_len;
    print_times(name, times);
    printf("%6.2f ns a unit, %s, %zu bytes lent, %.1f us to clear them\n", cost.seconds * 1e9 / cost.units,
           by_library == TUBOCHRE_TAKEN ? "taken" : "not taken", lent, clearing(&in, lent) * 1e6);
    free(in.work);
    return cost;
}

static void lasso_rows(const char *name, struct complement *c)
{
    static const size_t loops[] = {1, 16, 256, 4096};
    size_t i;
    for (i = 0; i < sizeof loops / sizeof loops[0]; i++)
        lasso_row(name, c->words, c->len, loops[i]);
    free(c->words);
}

/* ---- Growth: the work is doubled again and again, and the cost of a unit should stay. */

struct spread {
    double least, most;
};

static void widen(struct spread *s, double value)
{
    if (s->least == 0 || value < s->least)
        s->least = value;
    if (value > s->most)
        s->most = value;
}

static void print_spread(const char *what, struct spread s, int within)
{
    printf("    %s: %.2f to %.2f, %s 30 percent\n", what, s.least, s.most, within ? "within" : "NOT within");
}

/* Each call also reads its whole table once, however long the lasso is. So growth is shown in three ways: over whole
 * calls, beside what the first of them would grow to in proportion; by what a unit of them costs, the dearest beside
 * the cheapest; and over what each row has more than the row before it. */
static void print_growth(const char *what, const struct cost *cost, int count)
{
    const double first = cost[0].seconds / cost[0].units;
    struct spread whole = {0, 0}, unit = {0, 0}, added = {0, 0};
    int i;
    for (i = 0; i < count && cost[i].units > 0; i++) {
        widen(&whole, cost[i].seconds / cost[i].units / first);
        widen(&unit, cost[i].seconds / cost[i].units * 1e9);
        if (i > 0)
            widen(&added, (cost[i].seconds - cost[i - 1].seconds) / (cost[i].units - cost[i - 1].units) * 1e9);
    }
    printf("%s, %d times doubled:\n", what, i - 1);
    print_spread("whole calls beside proportional growth", whole, whole.least >= 0.7 && whole.most <= 1.3);
    print_spread("whole calls, ns a unit", unit, unit.most <= 1.3 * unit.least);
    print_spread("added work, ns a unit", added, added.most <= 1.3 * added.least);
}

/* `reach`: how far a state's edges lead: to itself and its next ("own"), or all over the table ("scattered"), which
 * misses the processor's caches more often. */
static void growth_by_loop(const char *edges, uint32_t reach)
{
    const uint32_t states = 10000;
    const size_t len = tubochre_table_words(states, 3 * states);
    uint16_t *const table = room_for(len, sizeof *table);
    struct cost cost[9];
    char name[80];
    int i;
    barren_table(table, states, reach);
    snprintf(name, sizeof name, "10,000 states, 30,000 %s edges", edges);
    for (i = 0; i < 9; i++) /* 1, 2, 4, … 256; the rows of 1, 16 and 256 are among them */
        cost[i] = lasso_row(name, table, len, (size_t)1 << i);
    snprintf(name, sizeof name, "loops of 1 to 256 letters, %s edges", edges);
    print_growth(name, cost, 9);
    free(table);
}

static void growth_by_table(void)
{
    struct cost cost[6];
    char name[60];
    int i;
    for (i = 0; i < 6; i++) {
        const uint32_t states = 625U << i;
        const size_t len = tubochre_table_words(states, 3 * states);
        uint16_t *const table = room_for(len, sizeof *table);
        barren_table(table, states, 1);
        snprintf(name, sizeof name, "%" PRIu32 " states, %" PRIu32 " own edges", states, 3 * states);
        cost[i] = lasso_row(name, table, len, 16);
        free(table);
    }
    print_growth("tables of 625 to 20,000 states", cost, 6);
}

/* ---- Trays. */

enum { TRAY_LASSOS = 1000 };

/* Random lassos over so many letters, as a list and as letters one behind the other. */
static void fill_tray(uint16_t *list, uint8_t *letters, size_t lassos, uint32_t below)
{
    struct random r = random_from(lassos);
    size_t i, j;
    for (i = 0; i < lassos; i++) {
        *list++ = TRAY_PART;
        *list++ = TRAY_PART;
        for (j = 0; j < TRAY_LETTERS; j++)
            *list++ = *letters++ = (uint8_t)random_below(&r, below);
    }
}

/* Runs a call on answers and work words that hold something else before: it leaves all work words zero. */
static void run_on_garbage(call *run, struct input *in)
{
    size_t i;
    memset(in->answers, 0xa5, in->lassos);
    memset(in->work, 0xa5, in->work_len * sizeof *in->work);
    in->count = UINT64_MAX;
    run(in);
    for (i = 0; i < in->work_len; i++)
        must(in->work[i] == 0, "work words of a tray");
}

/* Each of the calls leaves in the answers what the library's tray leaves there; both trays count the same lassos. */
static void compare_trays(struct input *in, uint8_t *expected)
{
    run_on_garbage(tray_by_library, in);
    must(in->answer == TUBOCHRE_OK && in->count == in->lassos, "a tray of a row by the library");
    memcpy(expected, in->answers, in->lassos);
    run_on_garbage(tray_by_single_calls, in);
    must(memcmp(in->answers, expected, in->lassos) == 0, "a tray and single calls");
    run_on_garbage(tray_by_reference, in);
    must(in->answer == TUBOCHRE_OK && in->count == in->lassos && memcmp(in->answers, expected, in->lassos) == 0,
         "a tray");
}

static size_t count_taken(const uint8_t *answers, size_t lassos)
{
    size_t i, taken = 0;
    for (i = 0; i < lassos; i++) {
        must(answers[i] <= TUBOCHRE_TAKEN, "a lasso of a tray is refused");
        taken += answers[i];
    }
    return taken;
}

/* Two rows: against the reference, and against single calls. */
static void print_tray(const char *name, struct input *in, size_t taken)
{
    static call *const calls[] = {tray_by_library, tray_by_reference, tray_by_single_calls};
    double medians[CALLS_MOST];
    const int rounds = rounds_of(calls, CALLS_MOST, in, medians);
    char single[80];
    print_times(name, (struct times){medians[0], medians[1], rounds});
    printf("%.2f us a lasso, %zu of %zu taken\n", medians[0] * 1e6 / (double)in->lassos, taken, in->lassos);
    snprintf(single, sizeof single, "%s, single calls", name);
    print_times(single, (struct times){medians[0], medians[2], rounds});
    printf("%zu bytes lent\n", in->lassos + in->work_len * sizeof *in->work);
}

static void tray_row(const char *name, const uint16_t *table, size_t len, size_t lassos)
{
    static uint16_t list[TRAY_LASSOS * (2 + TRAY_LETTERS)];
    static uint8_t letters[TRAY_LASSOS * TRAY_LETTERS], answers[TRAY_LASSOS], expected[TRAY_LASSOS];
    struct input in;
    fill_tray(list, letters, lassos, table[1]);
    memset(&in, 0, sizeof in);
    in.table = table;
    in.len = len;
    in.list = list;
    in.list_len = lassos * (2 + TRAY_LETTERS);
    in.letters = letters;
    in.answers = answers;
    in.lassos = lassos;
    in.work_len = tubochre_tray_work_words(table[0], list, in.list_len);
    in.work = large_memory(fast_work_words(table[0], TRAY_PART, TRAY_PART) * sizeof *in.work);
    compare_trays(&in, expected);
    print_tray(name, &in, count_taken(expected, lassos));
    free(in.work);
}

/* Two letters: each third edge is on letter 1. The last state accepts and leads only to itself, by letter 1, so that
 * some loops of ones are taken, and nothing else is. All states are initial, or the first one alone. */
static void tray_table(uint16_t *words, uint32_t states, int one_initial)
{
    uint16_t *record = words + tubochre_table_words(states, 0);
    uint32_t r, q;
    barren_table(words, states, states);
    words[1] = 2;
    for (r = 0; r < 3 * states; r++)
        record[3 * r] = r % 3 == 2;
    for (r = 3 * (states - 1); r < 3 * states; r++) {
        record[3 * r] = 1;
        record[3 * r + 1] = (uint16_t)(states - 1);
    }
    words[3 + 2 * (states - 1)] |= 2;
    for (q = 1; one_initial && q < states; q++)
        words[3 + 2 * q] &= 2;
}

static void tray_rows(void)
{
    static const uint16_t pattern_a[] = {2, 2, 4, 1, 1, 2, 4, 0, 0, 2, 1, 0, 3, 0, 1, 0, 0, 1, 0};
    const uint32_t states = 10000;
    const size_t lassos = quick ? TRAY_LASSOS / 20 : TRAY_LASSOS, len = tubochre_table_words(states, 3 * states);
    uint16_t *const table = room_for(len, sizeof *table);
    print_heading("tray (reference, or single calls)", "lassos of 4 and 4 letters");
    tray_row("pattern A", pattern_a, sizeof pattern_a / sizeof pattern_a[0], TRAY_LASSOS);
    tray_table(table, states, 1);
    tray_row("10,000 states, 1 initial", table, len, lassos);
    tray_table(table, states, 0);
    tray_row("10,000 states, all initial", table, len, lassos);
    free(table);
}

/* ---- Merges. */

/* Runs a merge on words that hold something else before, and keeps what it leaves there. */
static void merge_on_garbage(call *run, struct input *in, uint16_t *left)
{
    memset(in->words, 0xa5, in->words_len * sizeof *in->words);
    in->count = UINT64_MAX;
    run(in);
    memcpy(left, in->words, in->words_len * sizeof *left);
}

static void compare_merges(struct input *in, uint64_t count)
{
    static uint16_t by_library[TUBOCHRE_PATTERN_WORDS_MOST], by_reference[TUBOCHRE_PATTERN_WORDS_MOST];
    merge_on_garbage(merge_by_library, in, by_library);
    must(in->answer == TUBOCHRE_OK && in->count == count, "a merge of a row by the library");
    merge_on_garbage(merge_by_reference, in, by_reference);
    must(in->answer == TUBOCHRE_OK && in->count == count, "a merge of a row by the reference");
    must(memcmp(by_library, by_reference, in->words_len * sizeof *by_library) == 0, "words of a merge");
}

/* A pattern of so many states and records with another of the same sizes, in exactly the room that they need. */
static void merge_row(uint32_t states, uint32_t records)
{
    static struct drawn_table first, second;
    static uint16_t words[TUBOCHRE_PATTERN_WORDS_MOST];
    const size_t need = tubochre_table_words(2 * states, 2 * records);
    struct input in;
    struct times times;
    char name[80];
    full_pattern(&first, states, records);
    full_pattern(&second, states, records);
    memset(&in, 0, sizeof in);
    in.table = first.words;
    in.len = first.len;
    in.second = second.words;
    in.second_len = second.len;
    in.words = words;
    in.words_len = need;
    compare_merges(&in, need);
    times = take_turns(merge_by_library, merge_by_reference, &in);
    snprintf(name, sizeof name, "%" PRIu32 " states, 16 letters, %" PRIu32 " records each", states, records);
    print_times(name, times);
    printf("%.2f ns a record, %zu bytes lent\n", times.library * 1e9 / (2 * records), need * sizeof *words);
}

static void merge_rows(void)
{
    print_heading("merge of two patterns", "");
    merge_row(16, 2048);
    merge_row(16, 256);
}

/* ---- Stack. */

static void *check_on_stack(void *data)
{
    check_by_library(data);
    return NULL;
}

static void *build_on_stack(void *data)
{
    build_by_library(data);
    return NULL;
}

static void *lasso_on_stack(void *data)
{
    lasso_by_library(data);
    return NULL;
}

static void *tray_on_stack(void *data)
{
    tray_by_library(data);
    return NULL;
}

static void *merge_on_stack(void *data)
{
    merge_by_library(data);
    return NULL;
}

/* What a merge of the largest two patterns takes that can be merged. */
static size_t merge_stack(struct input *in)
{
    static struct drawn_table t;
    full_pattern(&t, TUBOCHRE_PATTERN_STATES_MOST / 2, TUBOCHRE_PATTERN_RECORDS_MOST / 2);
    in->table = in->second = t.words;
    in->len = in->second_len = t.len;
    return stack_used(merge_on_stack, in);
}

/* A tray of the longest lasso that is decided; its letters are all 0. */
static void stack_rows(void)
{
    enum { PART = TUBOCHRE_LASSO_PART_MOST };
    static struct drawn_table t;
    static uint16_t words[20000];
    static const uint16_t list[2 + 2 * PART] = {PART, PART};
    static uint32_t sets[10000], work[4 * TUBOCHRE_PATTERN_STATES_MOST * 2 * PART];
    static const uint8_t loop[] = {0, 1, 0};
    uint8_t byte;
    struct input in;
    memset(&in, 0, sizeof in);
    full_pattern(&t, TUBOCHRE_PATTERN_STATES_MOST, TUBOCHRE_PATTERN_RECORDS_MOST);
    in.table = t.words;
    in.len = t.len;
    in.words = words;
    in.words_len = sizeof words / sizeof words[0];
    in.sets = sets;
    in.sets_len = sizeof sets / sizeof sets[0];
    in.prefix = in.loop = loop;
    in.loop_len = sizeof loop;
    in.work = work;
    in.work_len = sizeof work / sizeof work[0];
    in.list = list;
    in.list_len = sizeof list / sizeof list[0];
    in.answers = &byte;
    in.lassos = 1;
    printf("\nstack used by the library: check %zu bytes", stack_used(check_on_stack, &in));
    printf(", build %zu bytes", stack_used(build_on_stack, &in));
    printf(", lasso %zu bytes", stack_used(lasso_on_stack, &in));
    printf(", tray %zu bytes", stack_used(tray_on_stack, &in));
    printf(", merge %zu bytes\n", merge_stack(&in));
    must(in.answer == TUBOCHRE_OK, "the merge on a stack of its own is refused");
}

/* ---- The whole. */

/* Patterns for builds, and for decisions on their complements: rings of p and r states, or forks by a seed. */
static const struct built_case {
    const char *name;
    int rings, large; /* large: left out by --quick */
    uint32_t p, r;    /* rings */
    uint32_t seed, outer, states;
} cases[] = {
    {"rings, 1,024 states", 1, 0, 1, 10, 0, 0, 0},  {"forks, 1,044 states", 0, 0, 0, 0, 0, 3, 14},
    {"rings, 10,240 states", 1, 0, 5, 11, 0, 0, 0}, {"forks, 9,757 states", 0, 0, 0, 0, 17, 3, 14},
    {"forks, 28,906 states", 0, 1, 0, 0, 17, 3, 13}, {"rings, 57,344 states", 1, 1, 7, 13, 0, 0, 0},
};

enum { CASES = sizeof cases / sizeof cases[0] };

/* Builds with so few states, on 16 letters, that looking quadruples up hardly counts: what a build costs besides. */
static void small_build_rows(void)
{
    static const uint32_t seeds[] = {0, 5, 3};
    static struct drawn_table t;
    size_t i;
    for (i = 0; i < sizeof seeds / sizeof seeds[0]; i++) {
        forking_pattern(&t, seeds[i], 16, 2, 4);
        free(build_row("few", &t).words);
    }
}

static void build_and_lasso_rows(void)
{
    static struct drawn_table t;
    struct complement kept[CASES];
    int i, count = CASES;
    while (quick && cases[count - 1].large)
        count--;
    print_heading("build (reference with a hash table, or a scan)", "");
    small_build_rows();
    for (i = 0; i < count; i++) {
        if (cases[i].rings)
            ring_of(&t, cases[i].p, cases[i].r);
        else
            forking_pattern(&t, cases[i].seed, 2, cases[i].outer, cases[i].states);
        kept[i] = build_row(cases[i].rings ? "rings" : "forks", &t);
    }
    print_heading("lasso on these complements", "a unit: a record at a position");
    for (i = 0; i < count; i++)
        lasso_rows(cases[i].name, &kept[i]);
    if (count < CASES)
        printf("--quick leaves out the %d largest complements\n", CASES - count);
}

static void growth_rows(void)
{
    print_heading("lasso, no accepting cycle: growth", "a unit: a record at a position");
    growth_by_loop("own", 1);
    growth_by_loop("scattered", 10000);
    growth_by_table();
}

/* One decision on the table of growth_by_loop, with a loop of 1 to 4,096 letters, and nothing else. */
static int count_one(size_t loop_len)
{
    static const uint8_t loop[TUBOCHRE_LASSO_PART_MOST];
    const uint32_t states = 10000;
    const size_t len = tubochre_table_words(states, 3 * states);
    const size_t work_len = tubochre_work_words(states, 0, loop_len);
    uint16_t *const table = room_for(len, sizeof *table);
    uint32_t *const work = room_for(work_len, sizeof *work);
    struct tubochre_decision d;
    barren_table(table, states, 1);
    d = tubochre_lasso(table, len, loop, 0, loop, loop_len, work, work_len);
    free(table);
    free(work);
    return d.number == TUBOCHRE_OK && d.taken == TUBOCHRE_NOT_TAKEN ? 0 : 1;
}

static const struct part {
    const char *name;
    void (*run)(void);
} parts[] = {{"check", check_rows},
             {"build", build_and_lasso_rows},
             {"growth", growth_rows},
             {"tray", tray_rows},
             {"merge", merge_rows},
             {"stack", stack_rows}};

enum { PARTS = sizeof parts / sizeof parts[0] };

static const char usage[] = "usage: measure [--quick] [check] [build] [growth] [tray] [merge] [stack]\n"
                            "       measure --count LETTERS    (1 to 4096)\n";

static int part_of(const char *name)
{
    int i;
    for (i = 0; i < PARTS; i++)
        if (strcmp(name, parts[i].name) == 0)
            return i;
    wrong_use(name, usage);
    return PARTS;
}

int main(int argc, char **argv)
{
    int wanted[PARTS] = {0}, words, i;
    uint64_t letters = UINT64_MAX; /* not given */
    const struct argument known[] = {{"--quick", NULL, &quick}, {"--count", &letters, NULL}};
    words = read_arguments(argc, argv, known, 2, usage);
    for (i = 1; i <= words; i++)
        wanted[part_of(argv[i])] = 1;
    if (letters >= 1 && letters <= TUBOCHRE_LASSO_PART_MOST)
        return count_one(letters);
    if (letters != UINT64_MAX)
        wrong_use("--count", usage);
    printf("Medians of whole calls, by turns in one process, after a warm-up. Reference: compiler %s.\n", __VERSION__);
    puts("Timed with both: clearing unused words after a build or a merge, and the lent work words after a decision or "
         "a tray.");
    for (i = 0; i < PARTS; i++)
        if (wanted[i] || words == 0)
            parts[i].run();
    return 0;
}
