/* Compares the library's five calls with the reference, on random patterns, lassos, trays, pairs of patterns and
 * damaged tables.
 *
 *     compare [--seed N] [--trials N]
 *
 * Each trial has a seed of its own, one more than the last. At a difference the program says which trial it was and
 * ends with status 1; --seed with that number runs it as the first trial. All that the library writes to lies between
 * unreadable pages and holds garbage before the call; every word of it is compared after. */
#include "arguments.h"
#include "draw.h"
#include "fence.h"
#include "reference.h"
#include "rings.h"
#include "room.h"
#include "tubochre.h"

#include <inttypes.h>
#include <stdarg.h>
#include <stdio.h>
#include <stdlib.h>
#include <string.h>

enum {
    TRIALS = 22000,
    LASSOS = 5,      /* for each pattern, on it and on its complement */
    WIDE_LASSOS = 2, /* for each table that is no pattern */
    DAMAGES = 2,     /* for each pattern */
    PAIR_LASSOS = 2, /* for each two patterns that are merged */
    WORDS_ROOM = 700000,
    SETS_ROOM = TUBOCHRE_RECORD_WORDS * TUBOCHRE_WIDE_STATES_MOST + 100,
    WORK_ROOM = 40 * 1000 * 1000,
    TRAY_WORK = 1000 * 1000, /* lassos of a tray that need more are refused by 16 */
    BYTES_ROOM = DRAWN_LIST / 2 + 16,
    PAIR_STATES = 400 /* complements of merged patterns are built where they have no more states */
};

static const uint64_t default_seed = 20160404;

/* ---- What is being tried, for messages. */

static struct {
    uint64_t seed;
    char text[100];
} trial;

static struct {
    uint64_t patterns, passed, built, lassos, decisions, damaged, taken, states, edges, runs_checked;
    uint64_t at_zero, elsewhere; /* forks: at state 0 and letter 0, and at any other place */
    uint64_t largest;
    uint64_t refused[23];
} tally;

/* What was met of trays. */
static struct {
    uint64_t tried, cut, left_over, byte_few, byte_many, of_table, empty;
    uint64_t some_short;   /* some lassos were refused by 16 and others were decided */
    uint64_t wide_letters; /* lassos that were refused for a letter above 255 alone, whose low byte is a letter */
    uint64_t huge;         /* lassos of 65,535 and 65,535 letters */
    uint64_t opposite;     /* lassos that pattern and complement both decided */
    uint64_t bytes[17];    /* of accepted trays */
} trays;

/* What was met of merges. */
static struct {
    uint64_t tried, of_first, of_second;
    uint64_t of_both;            /* both tables are refused, by different numbers */
    uint64_t second_before_pair; /* the second table is refused, and the two together would be too */
    uint64_t several;            /* the two together are refused in more than one way */
    uint64_t exact, word_short, more;
    uint64_t no_records_first, no_records_second, zero_heads, same_memory;
    uint64_t states_most, states_over, records_most, records_over;
    uint64_t taken_by[4]; /* lassos: by neither, by the first, by the second, by both */
    uint64_t by_complement;
} merges;

static void differ(const char *format, ...)
{
    va_list words;
    fflush(stdout);
    fprintf(stderr, "FAILED in the trial with seed %" PRIu64 " (repeat by --seed %" PRIu64 " --trials 1): ", trial.seed,
            trial.seed);
    va_start(words, format);
    vfprintf(stderr, format, words);
    va_end(words);
    fputc('\n', stderr);
    exit(1);
}

static void print_table(const char *name, const uint16_t *words, size_t len)
{
    size_t i;
    fprintf(stderr, "%s:", name);
    for (i = 0; i < len && i < 400; i++)
        fprintf(stderr, " %u", (unsigned)words[i]);
    fprintf(stderr, "%s\n", len > 400 ? " ..." : "");
}

/* ---- Lent memory. */

static struct {
    struct fence table, second, prefix, loop, words, sets, work, list, bytes;
    uint16_t *expected_words;
    uint32_t *expected_sets, *expected_work;
    uint8_t *expected_bytes;
} lent;

static void make_rooms(void)
{
    lent.table = fence_make(WORDS_ROOM * sizeof(uint16_t));
    lent.second = fence_make(DRAWN_WORDS * sizeof(uint16_t));
    lent.prefix = fence_make(DRAWN_LETTERS);
    lent.loop = fence_make(DRAWN_LETTERS);
    lent.words = fence_make(WORDS_ROOM * sizeof(uint16_t));
    lent.sets = fence_make(SETS_ROOM * sizeof(uint32_t));
    lent.work = fence_make(WORK_ROOM * sizeof(uint32_t));
    lent.list = fence_make(DRAWN_LIST * sizeof(uint16_t));
    lent.bytes = fence_make(BYTES_ROOM);
    lent.expected_words = room_for(WORDS_ROOM, sizeof(uint16_t));
    lent.expected_sets = room_for(SETS_ROOM, sizeof(uint32_t));
    lent.expected_work = room_for(WORK_ROOM, sizeof(uint32_t));
    lent.expected_bytes = room_for(BYTES_ROOM, 1);
}

static enum fence_side some_side(struct random *r)
{
    return random_chance(r, 50) ? FENCE_LOW : FENCE_HIGH;
}

/* A lent copy; the bytes that it is a copy of are compared with it after the call. */
static void *lend_copy(struct random *r, const struct fence *fence, const void *bytes, size_t len)
{
    void *const copy = fence_place(fence, len, some_side(r));
    memcpy(copy, bytes, len);
    return copy;
}

static void *lend_garbage(struct random *r, const struct fence *fence, size_t len)
{
    void *const place = fence_place(fence, len, some_side(r));
    draw_garbage(r, place, len);
    return place;
}

static void must_be_unchanged(const char *what, const void *now, const void *before, size_t len)
{
    if (memcmp(now, before, len) != 0)
        differ("%s: the %s was written", trial.text, what);
}

/* ---- The calls beside the reference. */

static void compare_places(const char *call, const uint16_t *table, size_t len, struct tubochre_place place,
                           struct reference_place expected)
{
    if (place.state != expected.state || place.letter != expected.letter) {
        print_table("table", table, len);
        differ("%s: the %s answers state %" PRIu32 " and letter %" PRIu32 " instead of %" PRIu32 " and %" PRIu32,
               trial.text, call, place.state, place.letter, expected.state, expected.letter);
    }
}

static void tally_fork(struct reference_place place)
{
    if (place.state == 0 && place.letter == 0)
        tally.at_zero++;
    else
        tally.elsewhere++;
}

static uint32_t compare_check(struct random *r, const uint16_t *table, size_t len)
{
    const uint16_t *const copy = lend_copy(r, &lent.table, table, len * sizeof *table);
    const struct reference_checked expected = reference_check(table, len);
    const struct tubochre_checked checked = tubochre_check(copy, len);
    must_be_unchanged("table", copy, table, len * sizeof *table);
    if (checked.number != expected.number) {
        print_table("table", table, len);
        differ("%s: the check answers %" PRIu32 " instead of %" PRIu32, trial.text, checked.number, expected.number);
    }
    compare_places("check", table, len, checked.place, expected.place);
    tally.refused[expected.number]++;
    if (expected.number == TUBOCHRE_FORK)
        tally_fork(expected.place);
    return checked.number;
}

static void compare_buffers(const uint16_t *table, size_t len, const uint16_t *words, size_t words_len,
                            const uint32_t *sets, size_t sets_len)
{
    size_t i;
    for (i = 0; i < words_len; i++)
        if (words[i] != lent.expected_words[i]) {
            print_table("table", table, len);
            differ("%s: word %zu of %zu is %u instead of %u", trial.text, i, words_len, (unsigned)words[i],
                   (unsigned)lent.expected_words[i]);
        }
    for (i = 0; i < sets_len; i++)
        if (sets[i] != lent.expected_sets[i]) {
            print_table("table", table, len);
            differ("%s: sets word %zu of %zu is %" PRIu32 " instead of %" PRIu32, trial.text, i, sets_len, sets[i],
                   lent.expected_sets[i]);
        }
}

/* A build in so much room. */
static struct tubochre_counts compare_build(struct random *r, const uint16_t *table, size_t len,
                                            const struct reference_complement *complement, size_t words_len,
                                            size_t sets_len)
{
    const uint16_t *const copy = lend_copy(r, &lent.table, table, len * sizeof *table);
    uint16_t *const words = lend_garbage(r, &lent.words, words_len * sizeof *words);
    uint32_t *const sets = lend_garbage(r, &lent.sets, sets_len * sizeof *sets);
    const struct reference_counts expected =
        reference_lay(complement, lent.expected_words, words_len, lent.expected_sets, sets_len);
    const struct tubochre_counts counts = tubochre_build(copy, len, words, words_len, sets, sets_len);
    must_be_unchanged("table", copy, table, len * sizeof *table);
    if (counts.number != expected.number || counts.states != expected.states || counts.edges != expected.edges) {
        print_table("table", table, len);
        differ("%s: the build in %zu words and %zu sets words answers %" PRIu32 " %" PRIu32 " %" PRIu32
               " instead of %" PRIu32 " %" PRIu32 " %" PRIu32,
               trial.text, words_len, sets_len, counts.number, counts.states, counts.edges, expected.number,
               expected.states, expected.edges);
    }
    compare_places("build", table, len, counts.place, expected.place);
    compare_buffers(table, len, words, words_len, sets, sets_len);
    tally.refused[expected.number]++;
    return counts;
}

static struct tubochre_decision compare_lasso(struct random *r, const uint16_t *table, size_t len,
                                              const struct drawn_lasso *l, size_t work_len)
{
    const uint16_t *const copy = lend_copy(r, &lent.table, table, len * sizeof *table);
    const uint8_t *const prefix = lend_copy(r, &lent.prefix, l->prefix, l->prefix_len);
    const uint8_t *const loop = lend_copy(r, &lent.loop, l->loop, l->loop_len);
    uint32_t *const work = lend_garbage(r, &lent.work, work_len * sizeof *work);
    const struct reference_decision expected = reference_lasso(table, len, l->prefix, l->prefix_len, l->loop,
                                                               l->loop_len, lent.expected_work, work_len);
    const struct tubochre_decision d =
        tubochre_lasso(copy, len, prefix, l->prefix_len, loop, l->loop_len, work, work_len);
    must_be_unchanged("table", copy, table, len * sizeof *table);
    must_be_unchanged("prefix", prefix, l->prefix, l->prefix_len);
    must_be_unchanged("loop", loop, l->loop, l->loop_len);
    if (d.number != expected.number || d.taken != expected.taken) {
        print_table("table", table, len);
        differ("%s: a lasso of %zu and %zu letters with %zu work words is answered %" PRIu32 " %" PRIu32
               " instead of %" PRIu32 " %" PRIu32,
               trial.text, l->prefix_len, l->loop_len, work_len, d.number, d.taken, expected.number, expected.taken);
    }
    if (memcmp(work, lent.expected_work, work_len * sizeof *work) != 0)
        differ("%s: a lasso of %zu and %zu letters with %zu work words leaves some that are not zero", trial.text,
               l->prefix_len, l->loop_len, work_len);
    tally.refused[expected.number]++;
    tally.decisions++;
    tally.taken += d.taken == TUBOCHRE_TAKEN;
    return d;
}

/* ---- Trays beside the reference. */

/* Whether all letters of the lasso that begins here are below k, if only their low bytes count. */
static int low_bytes_are_letters(const uint16_t *lasso, uint32_t k)
{
    size_t i, letters = (size_t)lasso[0] + lasso[1];
    for (i = 0; i < letters; i++)
        if (lasso[2 + i] % 256 >= k)
            return 0;
    return 1;
}

static void tally_lassos(const uint16_t *table, const struct drawn_list *l)
{
    uint64_t decided = 0, short_of = 0;
    size_t at = 0, i;
    for (i = 0; at < l->len; i++, at = tubochre_lasso_end(l->words, l->len, at)) {
        const uint8_t byte = lent.expected_bytes[i];
        trays.bytes[byte]++;
        decided += byte <= TUBOCHRE_TAKEN;
        short_of += byte == TUBOCHRE_WORK;
        trays.wide_letters += byte == TUBOCHRE_LETTER && low_bytes_are_letters(l->words + at, table[1]);
        trays.huge += l->words[at] == 65535 && l->words[at + 1] == 65535;
    }
    trays.some_short += decided > 0 && short_of > 0;
    trays.empty += l->len == 0;
}

/* The words behind the last whole lasso. */
static size_t words_left(const struct drawn_list *l)
{
    size_t at = 0, end;
    for (end = tubochre_lasso_end(l->words, l->len, 0); end != 0; end = tubochre_lasso_end(l->words, l->len, at))
        at = end;
    return l->len - at;
}

static void tally_tray(const uint16_t *table, const struct drawn_list *l, size_t bytes, uint32_t number)
{
    const size_t lassos = tubochre_list_lassos(l->words, l->len);
    trays.tried++;
    tally.refused[number]++;
    switch (number) {
    case TUBOCHRE_OK: tally_lassos(table, l); break;
    case TUBOCHRE_LIST:
        trays.cut += words_left(l) > 1;
        trays.left_over += words_left(l) == 1;
        break;
    case TUBOCHRE_BYTES:
        trays.byte_few += bytes + 1 == lassos;
        trays.byte_many += bytes == lassos + 1;
        break;
    default: trays.of_table += lassos > 0; break;
    }
}

static void tray_differs(const uint16_t *table, size_t len, const struct drawn_list *l)
{
    print_table("table", table, len);
    print_table("list", l->words, l->len);
}

/* The bytes are left in lent.expected_bytes. */
static void compare_tray(struct random *r, const uint16_t *table, size_t len, const struct drawn_list *l, size_t bytes,
                         size_t work_len)
{
    const uint16_t *const copy = lend_copy(r, &lent.table, table, len * sizeof *table);
    const uint16_t *const list = lend_copy(r, &lent.list, l->words, l->len * sizeof *list);
    uint8_t *const answers = lend_garbage(r, &lent.bytes, bytes);
    uint32_t *const work = lend_garbage(r, &lent.work, work_len * sizeof *work);
    const struct reference_written expected = reference_tray(table, len, l->words, l->len, lent.expected_bytes, bytes,
                                                             lent.expected_work, work_len);
    const struct tubochre_written w = tubochre_tray(copy, len, list, l->len, answers, bytes, work, work_len);
    size_t i = 0;
    must_be_unchanged("table", copy, table, len * sizeof *table);
    must_be_unchanged("list", list, l->words, l->len * sizeof *list);
    while (i < bytes && answers[i] == lent.expected_bytes[i])
        i++;
    if (w.number != expected.number || w.count != expected.count || i < bytes)
        tray_differs(table, len, l);
    if (w.number != expected.number || w.count != expected.count)
        differ("%s: a tray of %zu words with %zu bytes and %zu work words is answered %" PRIu32 " %" PRIu64
               " instead of %" PRIu32 " %" PRIu64,
               trial.text, l->len, bytes, work_len, w.number, w.count, expected.number, expected.count);
    if (i < bytes)
        differ("%s: byte %zu of %zu, with %zu work words, is %u instead of %u", trial.text, i, bytes, work_len,
               (unsigned)answers[i], (unsigned)lent.expected_bytes[i]);
    if (memcmp(work, lent.expected_work, work_len * sizeof *work) != 0)
        differ("%s: a tray with %zu work words leaves some that are not zero", trial.text, work_len);
    tally_tray(table, l, bytes, expected.number);
}

/* ---- Merges beside the reference. */

/* How many words a merge of two tables needs; of words that are no table it is none. */
static size_t pair_need(const struct drawn_table *first, const struct drawn_table *second)
{
    if (first->len < 3 || second->len < 3)
        return 0;
    return tubochre_table_words((uint32_t)first->words[0] + second->words[0],
                                (uint32_t)first->words[2] + second->words[2]);
}

/* In how many of the ways 19 to 22 two tables would be refused together. */
static int pair_faults(const struct drawn_table *first, const struct drawn_table *second, size_t words_len)
{
    if (first->len < 3 || second->len < 3)
        return 0;
    return (first->words[1] != second->words[1]) +
           (first->words[0] + second->words[0] > TUBOCHRE_PATTERN_STATES_MOST) +
           (first->words[2] + second->words[2] > TUBOCHRE_PATTERN_RECORDS_MOST) +
           (words_len < pair_need(first, second));
}

static void tally_refused_table(const struct drawn_table *first, const struct drawn_table *second, size_t words_len,
                                uint32_t number)
{
    const uint32_t by_second = reference_check(second->words, second->len).number;
    if (reference_check(first->words, first->len).number == 0) {
        merges.of_second++;
        merges.second_before_pair += pair_faults(first, second, words_len) > 0;
    } else {
        merges.of_first++;
        merges.of_both += by_second != 0 && by_second != number;
    }
}

static void tally_merged(const struct drawn_table *first, const struct drawn_table *second, size_t words_len)
{
    const size_t need = pair_need(first, second);
    uint32_t q;
    merges.exact += words_len == need;
    merges.more += words_len > need;
    merges.no_records_first += first->words[2] == 0 && second->words[2] > 0;
    merges.no_records_second += second->words[2] == 0 && first->words[2] > 0;
    merges.states_most += first->words[0] + second->words[0] == TUBOCHRE_PATTERN_STATES_MOST;
    merges.records_most += first->words[2] + second->words[2] == TUBOCHRE_PATTERN_RECORDS_MOST;
    for (q = 0; q < second->words[0]; q++)
        merges.zero_heads += first->words[2] > 0 && second->words[4 + 2 * q] == 0;
}

static void tally_merge(const struct drawn_table *first, const struct drawn_table *second, size_t words_len,
                        uint32_t number)
{
    merges.tried++;
    merges.same_memory += first == second;
    tally.refused[number]++;
    merges.several += number >= TUBOCHRE_MERGE_LETTERS && pair_faults(first, second, words_len) > 1;
    switch (number) {
    case TUBOCHRE_OK: tally_merged(first, second, words_len); break;
    case TUBOCHRE_MERGE_LETTERS: break;
    case TUBOCHRE_MERGE_STATES:
        merges.states_over += first->words[0] + second->words[0] == TUBOCHRE_PATTERN_STATES_MOST + 1;
        break;
    case TUBOCHRE_MERGE_RECORDS:
        merges.records_over += first->words[2] + second->words[2] == TUBOCHRE_PATTERN_RECORDS_MOST + 1;
        break;
    case TUBOCHRE_MERGE_WORDS: merges.word_short += words_len + 1 == pair_need(first, second); break;
    default: tally_refused_table(first, second, words_len, number); break;
    }
}

static void pair_differs(const struct drawn_table *first, const struct drawn_table *second)
{
    print_table("first", first->words, first->len);
    print_table("second", second->words, second->len);
}

/* The words are left in lent.expected_words. Where both tables are one, they are lent as one. */
static struct reference_written compare_merge(struct random *r, const struct drawn_table *first,
                                              const struct drawn_table *second, size_t words_len)
{
    const size_t first_bytes = first->len * sizeof(uint16_t), second_bytes = second->len * sizeof(uint16_t);
    const uint16_t *const copy = lend_copy(r, &lent.table, first->words, first_bytes);
    const uint16_t *const other = first == second ? copy : lend_copy(r, &lent.second, second->words, second_bytes);
    uint16_t *const words = lend_garbage(r, &lent.words, words_len * sizeof *words);
    const struct reference_written expected = reference_merge(first->words, first->len, second->words, second->len,
                                                              lent.expected_words, words_len);
    const struct tubochre_written w = tubochre_merge(copy, first->len, other, second->len, words, words_len);
    size_t i = 0;
    must_be_unchanged("first table", copy, first->words, first_bytes);
    must_be_unchanged("second table", other, second->words, second_bytes);
    while (i < words_len && words[i] == lent.expected_words[i])
        i++;
    if (w.number != expected.number || w.count != expected.count || i < words_len)
        pair_differs(first, second);
    if (w.number != expected.number || w.count != expected.count)
        differ("%s: a merge in %zu words is answered %" PRIu32 " %" PRIu64 " instead of %" PRIu32 " %" PRIu64,
               trial.text, words_len, w.number, w.count, expected.number, expected.count);
    if (i < words_len)
        differ("%s: word %zu of %zu of a merge is %u instead of %u", trial.text, i, words_len, (unsigned)words[i],
               (unsigned)lent.expected_words[i]);
    tally_merge(first, second, words_len, expected.number);
    return expected;
}

/* ---- Rooms. */

/* As much as is needed, or more; in the limits of what is lent here. */
static size_t enough_work(struct random *r, uint32_t states, const struct drawn_lasso *l)
{
    const size_t need = tubochre_work_words(states, l->prefix_len, l->loop_len);
    return random_chance(r, 50) ? need : need + random_below(r, 9);
}

/* One word short, none, or anything below. */
static size_t short_work(struct random *r, uint32_t states, const struct drawn_lasso *l)
{
    const size_t need = tubochre_work_words(states, l->prefix_len, l->loop_len);
    if (need == 0)
        return 0;
    switch (random_below(r, 3)) {
    case 0: return 0;
    case 1: return random_below(r, (uint32_t)need);
    default: return need - 1;
    }
}

/* Long lassos on large complements would need more than the memory lent here: their parts are cut. */
static void fit_lasso(struct drawn_lasso *l, uint32_t states)
{
    while (tubochre_work_words(states, l->prefix_len, l->loop_len) + 9 > WORK_ROOM) {
        l->prefix_len /= 2;
        l->loop_len = l->loop_len / 2 + 1;
    }
}

/* As many bytes as the list has lassos; or one more, one fewer, or any. */
static size_t some_bytes(struct random *r, const struct drawn_list *l)
{
    const size_t lassos = tubochre_list_lassos(l->words, l->len);
    switch (random_below(r, 20)) {
    case 0: return lassos + 1;
    case 1: return lassos - (lassos > 0);
    case 2: return random_below(r, (uint32_t)lassos + 9);
    default: return lassos;
    }
}

/* Work words for all lassos of a list; or some more, one fewer, or any below. */
static size_t some_work(struct random *r, uint32_t states, const struct drawn_list *l)
{
    const size_t need = tubochre_tray_work_words(states, l->words, l->len);
    const size_t most = need < TRAY_WORK ? need : TRAY_WORK;
    switch (random_below(r, 5)) {
    case 0: return random_below(r, (uint32_t)most + 1);
    case 1: return most - (most > 0);
    case 2: return most + random_below(r, 9);
    default: return most;
    }
}

/* ---- A pattern, its complement, and lassos over both: the third demand. */

static void compare_rooms(struct random *r, const uint16_t *table, size_t len,
                          const struct reference_complement *complement, struct tubochre_counts counts)
{
    const size_t words = tubochre_table_words(counts.states, counts.edges), sets = tubochre_sets_words(counts.states);
    compare_build(r, table, len, complement, words, sets);
    compare_build(r, table, len, complement, words, sets - 1);
    compare_build(r, table, len, complement, words - 1, sets);
    switch (random_below(r, 6)) {
    case 0: compare_build(r, table, len, complement, 0, sets); break;
    case 1: compare_build(r, table, len, complement, words, 0); break;
    case 2: compare_build(r, table, len, complement, 0, 0); break;
    case 3: compare_build(r, table, len, complement, words - 1, sets - 1); break;
    case 4: compare_build(r, table, len, complement, words + random_below(r, 9), sets + random_below(r, 9)); break;
    default:
        compare_build(r, table, len, complement, random_below(r, (uint32_t)words),
                      random_below(r, (uint32_t)sets + 9));
        break;
    }
}

static void third_demand(struct random *r, const struct drawn_table *t, const uint16_t *complement,
                         struct tubochre_counts counts)
{
    const size_t len = tubochre_table_words(counts.states, counts.edges);
    static struct drawn_lasso l;
    struct tubochre_decision by_pattern, by_complement;
    unsigned runs;
    draw_lasso(r, &l, t->words[1]);
    fit_lasso(&l, counts.states);
    by_pattern = compare_lasso(r, t->words, t->len, &l, enough_work(r, t->words[0], &l));
    by_complement = compare_lasso(r, complement, len, &l, enough_work(r, counts.states, &l));
    if (by_pattern.number != 0 || by_complement.number != 0 || by_pattern.taken == by_complement.taken)
        differ("%s: pattern and complement answer %" PRIu32 " %" PRIu32 " and %" PRIu32 " %" PRIu32, trial.text,
               by_pattern.number, by_pattern.taken, by_complement.number, by_complement.taken);
    runs = reference_runs(complement, l.prefix, l.prefix_len, l.loop, l.loop_len);
    if (runs != (by_complement.taken == TUBOCHRE_TAKEN ? 1U : 0U))
        differ("%s: the complement has %u accepting runs (2: or more) and answers %" PRIu32, trial.text, runs,
               by_complement.taken);
    tally.lassos++;
    tally.runs_checked++;
    if (random_chance(r, 10))
        compare_lasso(r, complement, len, &l, short_work(r, counts.states, &l));
}

/* The same list tried on both: opposite bytes wherever both decide. */
static void opposite_trays(struct random *r, const struct drawn_table *t, const uint16_t *complement,
                           struct tubochre_counts counts)
{
    static struct drawn_list l;
    static uint8_t by_pattern[BYTES_ROOM];
    const uint8_t *const by_complement = lent.expected_bytes;
    size_t lassos, i;
    draw_list(r, &l, t->words[1]);
    lassos = tubochre_list_lassos(l.words, l.len);
    compare_tray(r, t->words, t->len, &l, lassos, some_work(r, t->words[0], &l));
    memcpy(by_pattern, lent.expected_bytes, lassos);
    compare_tray(r, complement, tubochre_table_words(counts.states, counts.edges), &l, lassos,
                 some_work(r, counts.states, &l));
    for (i = 0; i < lassos; i++)
        if (by_pattern[i] <= TUBOCHRE_TAKEN && by_complement[i] <= TUBOCHRE_TAKEN) {
            trays.opposite++;
            if (by_pattern[i] == by_complement[i])
                differ("%s: pattern and complement both say %u of lasso %zu of a tray", trial.text,
                       (unsigned)by_pattern[i], i);
        }
}

/* A list that may be damaged, in any room, on any table. */
static void some_tray(struct random *r, const uint16_t *table, size_t len)
{
    const uint32_t states = len < 3 ? 1 : table[0], letters = len < 3 || table[1] > 16 ? 16 : table[1];
    static struct drawn_list l;
    draw_list(r, &l, letters);
    if (random_chance(r, 30))
        draw_list_damage(r, &l);
    compare_tray(r, table, len, &l, some_bytes(r, &l), some_work(r, states, &l));
}

static void odd_lasso(struct random *r, const uint16_t *table, size_t len)
{
    const uint32_t states = len < 3 ? 1 : table[0], letters = len < 3 || table[1] > 16 ? 16 : table[1];
    static struct drawn_lasso l;
    draw_odd_lasso(r, &l, letters);
    fit_lasso(&l, states);
    compare_lasso(r, table, len, &l, random_chance(r, 50) ? enough_work(r, states, &l) : short_work(r, states, &l));
    tally.lassos++;
}

static void plain_lasso(struct random *r, const uint16_t *table, size_t len)
{
    const uint32_t states = len < 3 ? 1 : table[0], letters = len < 3 || table[1] > 16 ? 16 : table[1];
    static struct drawn_lasso l;
    struct tubochre_decision d;
    draw_lasso(r, &l, letters);
    fit_lasso(&l, states);
    d = compare_lasso(r, table, len, &l, enough_work(r, states, &l));
    if (d.number == 0) { /* the reference's two ways must agree with each other too */
        const unsigned runs = reference_runs(table, l.prefix, l.prefix_len, l.loop, l.loop_len);
        if ((runs > 0) != (d.taken == TUBOCHRE_TAKEN))
            differ("%s: the reference counts %u runs of a lasso that is answered %" PRIu32, trial.text, runs, d.taken);
    }
    tally.lassos++;
}

static void try_complement(struct random *r, const struct drawn_table *t, const struct reference_complement *complement,
                           struct tubochre_counts counts)
{
    const size_t len = tubochre_table_words(counts.states, counts.edges);
    uint16_t *const words = room_for(len, sizeof *words);
    int i;
    memcpy(words, lent.expected_words, len * sizeof *words); /* compared with what the library wrote */
    if (counts.states > reference_bound(t->words))
        differ("%s: %" PRIu32 " states are above the bound %" PRIu64, trial.text, counts.states,
               reference_bound(t->words));
    tally.states += counts.states;
    tally.edges += counts.edges;
    if (counts.states > tally.largest)
        tally.largest = counts.states;
    tally.built++;
    compare_rooms(r, t->words, t->len, complement, counts);
    for (i = 0; i < LASSOS; i++)
        third_demand(r, t, words, counts);
    odd_lasso(r, words, len);
    opposite_trays(r, t, words, counts);
    some_tray(r, words, len);
    free(words);
}

static void try_pattern(struct random *r, struct drawn_table *t)
{
    struct reference_complement *const complement = reference_explore(t->words, t->len);
    const struct reference_counts sizes = reference_sizes(complement);
    const int most = random_below(r, 200) == 0; /* seldom all the room that a complement could need */
    const size_t words = most ? TUBOCHRE_WIDE_WORDS_MOST : tubochre_table_words(sizes.states, sizes.edges);
    const size_t sets = tubochre_sets_words(most ? TUBOCHRE_WIDE_STATES_MOST : sizes.states);
    struct tubochre_counts counts;
    int i;
    tally.patterns++;
    if (compare_check(r, t->words, t->len) == 0)
        tally.passed++;
    counts = compare_build(r, t->words, t->len, complement, words + random_below(r, 9), sets + random_below(r, 9));
    if (counts.number == 0)
        try_complement(r, t, complement, counts);
    else
        for (i = 0; i < LASSOS; i++)
            plain_lasso(r, t->words, t->len);
    odd_lasso(r, t->words, t->len);
    some_tray(r, t->words, t->len);
    reference_forget(complement);
}

static void try_wide(struct random *r, struct drawn_table *t)
{
    int i;
    draw_wide(r, t);
    for (i = 0; i < WIDE_LASSOS; i++)
        plain_lasso(r, t->words, t->len);
    some_tray(r, t->words, t->len);
}

static void build_in_some_room(struct random *r, const struct drawn_table *t)
{
    struct reference_complement *const complement = reference_explore(t->words, t->len);
    compare_build(r, t->words, t->len, complement, random_below(r, 5000), random_below(r, 3000));
    reference_forget(complement);
}

static void try_damaged(struct random *r, struct drawn_table *t)
{
    const int wide = random_chance(r, 20);
    if (wide)
        draw_wide(r, t);
    draw_damage(r, t);
    tally.damaged++;
    /* A wide table that passes as a pattern may have far more candidates than the reference can try. */
    if (compare_check(r, t->words, t->len) != 0 || !wide || t->words[0] <= 6)
        build_in_some_room(r, t);
    if (random_chance(r, 50))
        plain_lasso(r, t->words, t->len);
    else
        odd_lasso(r, t->words, t->len);
    some_tray(r, t->words, t->len);
}

/* ---- Two patterns, what they are made into, and lassos over all three. */

/* Mostly over the same letters: a pattern stays one where it gets more of them. */
static void draw_second(struct random *r, struct drawn_table *first, struct drawn_table *second)
{
    draw_pattern(r, second);
    if (random_chance(r, 85)) {
        const uint16_t letters = first->words[1] > second->words[1] ? first->words[1] : second->words[1];
        first->words[1] = second->words[1] = letters;
    }
}

/* Patterns of which one has what the other leaves of 32 states and of 4,096 records, or one more. */
static void draw_full_pair(struct random *r, struct drawn_table *first, struct drawn_table *second)
{
    const uint32_t states = random_between(r, 1, TUBOCHRE_PATTERN_STATES_MOST - 1);
    const uint32_t records = random_below(r, TUBOCHRE_PATTERN_RECORDS_MOST + 1), letters = random_between(r, 1, 16);
    const uint32_t more_states = TUBOCHRE_PATTERN_STATES_MOST - states + random_chance(r, 30);
    const uint32_t more_records = TUBOCHRE_PATTERN_RECORDS_MOST - records + (records > 0 && random_chance(r, 30));
    full_table(first->words, states, letters, records);
    full_table(second->words, more_states, letters, more_records);
    first->len = tubochre_table_words(states, records);
    second->len = tubochre_table_words(more_states, more_records);
}

/* As many words as a merge needs; or some more, one fewer, or any below. */
static size_t some_words(struct random *r, size_t need)
{
    switch (random_below(r, 6)) {
    case 0: return random_below(r, (uint32_t)need + 1);
    case 1: return need - (need > 0);
    case 2: return need + random_between(r, 1, 9);
    default: return need;
    }
}

static struct reference_written some_merge(struct random *r, const struct drawn_table *first,
                                           const struct drawn_table *second)
{
    return compare_merge(r, first, second, some_words(r, pair_need(first, second)));
}

static uint32_t taken_by(struct random *r, const uint16_t *table, size_t len, const struct drawn_lasso *l)
{
    const struct tubochre_decision d = compare_lasso(r, table, len, l, enough_work(r, table[0], l));
    if (d.number != 0)
        differ("%s: a lasso over the letters of two patterns is refused by %" PRIu32, trial.text, d.number);
    return d.taken;
}

/* The merged pattern takes what at least one of the two takes, and its complement, where there is one, the rest. */
static void either_takes(struct random *r, const struct drawn_table *first, const struct drawn_table *second,
                         const struct drawn_table *merged, const struct drawn_table *complement)
{
    static struct drawn_lasso l;
    uint32_t by_first, by_second, by_merged;
    draw_lasso(r, &l, merged->words[1]);
    fit_lasso(&l, PAIR_STATES);
    by_first = taken_by(r, first->words, first->len, &l);
    by_second = taken_by(r, second->words, second->len, &l);
    by_merged = taken_by(r, merged->words, merged->len, &l);
    if (by_merged != (by_first || by_second))
        differ("%s: of a lasso two patterns say %" PRIu32 " and %" PRIu32 ", and both merged %" PRIu32, trial.text,
               by_first, by_second, by_merged);
    merges.taken_by[by_first + 2 * by_second]++;
    if (complement->len == 0)
        return;
    if (taken_by(r, complement->words, complement->len, &l) == by_merged)
        differ("%s: a merged pattern and its complement both say %" PRIu32, trial.text, by_merged);
    merges.by_complement++;
}

/* The complement of a pattern as a table, or no words where it has too many states or edges. */
static void small_complement(const struct drawn_table *t, struct drawn_table *complement)
{
    static uint32_t sets[TUBOCHRE_RECORD_WORDS * PAIR_STATES];
    const struct tubochre_counts counts =
        tubochre_build(t->words, t->len, complement->words, DRAWN_WORDS, sets, tubochre_sets_words(PAIR_STATES));
    complement->len = counts.number == 0 ? tubochre_table_words(counts.states, counts.edges) : 0;
}

static void try_pair(struct random *r, const struct drawn_table *first, const struct drawn_table *second)
{
    static struct drawn_table merged, complement;
    const struct reference_written w = some_merge(r, first, second);
    int i;
    if (w.number != 0)
        return;
    merged.len = (size_t)w.count;
    memcpy(merged.words, lent.expected_words, merged.len * sizeof merged.words[0]);
    if (compare_check(r, merged.words, merged.len) != 0)
        differ("%s: a merged pattern does not pass the check", trial.text);
    small_complement(&merged, &complement);
    for (i = 0; i < PAIR_LASSOS; i++)
        either_takes(r, first, second, &merged, &complement);
}

/* A pattern with another, and with a damaged table, before it and behind it. */
static void try_merges(struct random *r, const struct drawn_table *pattern, const struct drawn_table *damaged)
{
    static struct drawn_table first, second;
    first = *pattern;
    if (random_below(r, 200) == 0)
        draw_full_pair(r, &first, &second);
    else
        draw_second(r, &first, &second);
    try_pair(r, &first, &second);
    switch (random_below(r, 4)) {
    case 0: some_merge(r, damaged, damaged); break;
    case 1: some_merge(r, &first, damaged); break;
    case 2: some_merge(r, damaged, &second); break;
    default: try_pair(r, &first, &first); break;
    }
    draw_damage(r, &second);
    some_merge(r, damaged, &second);
}

static void run_trial(uint64_t seed)
{
    static struct drawn_table pattern, other;
    struct random r = random_from(seed);
    int i;
    trial.seed = seed;
    snprintf(trial.text, sizeof trial.text, "pattern (seed %" PRIu64 ")", seed);
    draw_pattern(&r, &pattern);
    try_pattern(&r, &pattern);
    snprintf(trial.text, sizeof trial.text, "wide table (seed %" PRIu64 ")", seed);
    try_wide(&r, &other);
    snprintf(trial.text, sizeof trial.text, "damaged table (seed %" PRIu64 ")", seed);
    for (i = 0; i < DAMAGES; i++) {
        other = pattern;
        try_damaged(&r, &other);
    }
    snprintf(trial.text, sizeof trial.text, "merge (seed %" PRIu64 ")", seed);
    try_merges(&r, &pattern, &other);
}

static void print_summary(uint64_t seed, uint64_t trials)
{
    int i;
    printf("answers by refusal:");
    for (i = 0; i <= 22; i++)
        printf(" %d:%" PRIu64, i, tally.refused[i]);
    printf("\nbytes of trays:");
    for (i = 0; i <= 16; i++)
        if (trays.bytes[i] > 0)
            printf(" %d:%" PRIu64, i, trays.bytes[i]);
    printf("\ncompare: ok: seeds %" PRIu64 " to %" PRIu64 ": %" PRIu64 " patterns (%" PRIu64 " passed, %" PRIu64
           " built: %" PRIu64 " states, %" PRIu64 " edges, largest %" PRIu64 "), %" PRIu64 " lassos (%" PRIu64
           " decisions, %" PRIu64 " taken, the third demand on %" PRIu64 "), %" PRIu64 " damaged tables, %" PRIu64
           " forks (%" PRIu64 " at state 0 and letter 0), %" PRIu64 " trays (%" PRIu64
           " lassos decided on pattern and complement), %" PRIu64 " merges (%" PRIu64
           " lassos decided on a complement too), 0 differences\n",
           seed, seed + trials - 1, tally.patterns, tally.passed, tally.built, tally.states, tally.edges, tally.largest,
           tally.lassos, tally.decisions, tally.taken, tally.runs_checked, tally.damaged,
           tally.at_zero + tally.elsewhere, tally.at_zero, trays.tried, trays.opposite, merges.tried,
           merges.by_complement);
}

/* A case that is easily got wrong, and how often it occurred. */
struct kind {
    const char *name;
    uint64_t count;
};

static int all_met(const char *of, const struct kind *kinds, size_t count)
{
    size_t i;
    for (i = 0; i < count; i++)
        if (kinds[i].count == 0) {
            printf("compare: FAILED: of %s this did not occur: %s\n", of, kinds[i].name);
            return 0;
        }
    return 1;
}

static int all_trays_met(void)
{
    const struct kind kinds[] = {
        {"taken", trays.bytes[TUBOCHRE_TAKEN]},
        {"not taken", trays.bytes[TUBOCHRE_NOT_TAKEN]},
        {"an empty loop", trays.bytes[TUBOCHRE_LOOP_EMPTY]},
        {"a part too long", trays.bytes[TUBOCHRE_LASSO_LONG]},
        {"a bad letter", trays.bytes[TUBOCHRE_LETTER]},
        {"too few work words", trays.bytes[TUBOCHRE_WORK]},
        {"too few work words for some", trays.some_short},
        {"a letter above 255 with the low byte of a letter", trays.wide_letters},
        {"a lasso of 65,535 and 65,535 letters", trays.huge},
        {"lassos decided on pattern and complement", trays.opposite},
        {"an empty list that is accepted", trays.empty},
        {"a list that is cut", trays.cut},
        {"one word left over", trays.left_over},
        {"one byte too few", trays.byte_few},
        {"one byte too many", trays.byte_many},
        {"lassos on a refused table", trays.of_table},
    };
    return all_met("trays", kinds, sizeof kinds / sizeof kinds[0]);
}

static int all_merges_met(void)
{
    const struct kind kinds[] = {
        {"a refused first table", merges.of_first},
        {"a refused second table", merges.of_second},
        {"tables refused by different numbers", merges.of_both},
        {"a refused second table that does not fit the first", merges.second_before_pair},
        {"two refusals of both together", merges.several},
        {"exactly the words that it needs", merges.exact},
        {"one word too few", merges.word_short},
        {"words to spare", merges.more},
        {"no records in the first alone", merges.no_records_first},
        {"no records in the second alone", merges.no_records_second},
        {"a head of the second that stays zero", merges.zero_heads},
        {"one table for both", merges.same_memory},
        {"32 states", merges.states_most},
        {"33 states", merges.states_over},
        {"4,096 records", merges.records_most},
        {"4,097 records", merges.records_over},
        {"a lasso that neither takes", merges.taken_by[0]},
        {"a lasso that the first takes alone", merges.taken_by[1]},
        {"a lasso that the second takes alone", merges.taken_by[2]},
        {"a lasso that both take", merges.taken_by[3]},
        {"a lasso on the complement of a merged pattern", merges.by_complement},
    };
    return all_met("merges", kinds, sizeof kinds / sizeof kinds[0]);
}

/* A whole run has met every refusal of the calls and every kind of answer: one that compares nothing is no success. */
static int all_kinds_met(void)
{
    int number;
    for (number = 2; number <= 22; number++)
        if (tally.refused[number] == 0) {
            printf("compare: FAILED: no call was refused by %d\n", number);
            return 0;
        }
    if (tally.built == 0 || tally.taken == 0 || tally.taken == tally.decisions || tally.runs_checked == 0 ||
        tally.at_zero == 0 || tally.elsewhere == 0) {
        printf("compare: FAILED: a kind of answer did not occur\n");
        return 0;
    }
    return all_trays_met() && all_merges_met();
}

int main(int argc, char **argv)
{
    static const char usage[] = "usage: compare [--seed N] [--trials N]\n";
    uint64_t seed = default_seed, trials = TRIALS, i;
    const struct argument known[] = {{"--seed", &seed, NULL}, {"--trials", &trials, NULL}};
    if (read_arguments(argc, argv, known, 2, usage) > 0)
        wrong_use(argv[1], usage);
    make_rooms();
    fence_watch(trial.text);
    printf("compare: %" PRIu64 " trials from seed %" PRIu64 "\n", trials, seed);
    for (i = 0; i < trials; i++)
        run_trial(seed + i);
    if (trials >= TRIALS && !all_kinds_met())
        return 1;
    print_summary(seed, trials);
    return 0;
}
