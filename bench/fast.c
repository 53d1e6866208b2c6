#include "fast.h"

#include "room.h"
#include "tubochre.h"

#include <stdbool.h>
#include <stdio.h>
#include <stdlib.h>
#include <string.h>

enum {
    STATES = TUBOCHRE_PATTERN_STATES_MOST,
    RECORDS = TUBOCHRE_PATTERN_RECORDS_MOST,
    LETTERS = TUBOCHRE_LETTERS_MOST,
    WIDE = TUBOCHRE_WIDE_STATES_MOST, /* records too */
    PART = TUBOCHRE_LASSO_PART_MOST,
    SETS = TUBOCHRE_RECORD_WORDS /* N, C, S, B */
};

/* ---- The table. */

static bool small_words_good(const uint16_t *t, uint32_t *number)
{
    const uint32_t n = t[0], k = t[1], m = t[2];
    const uint16_t *record = t + 3 + 2 * n;
    uint32_t i;
    for (i = 0; i < n; i++)
        if (t[3 + 2 * i] > 3) {
            *number = 7;
            return false;
        }
    for (i = 0; i < m; i++, record += 3)
        if (record[0] >= k || record[1] >= n) {
            *number = 8;
            return false;
        }
    return true;
}

/* Notes that a link names a record; false where another did before. Link 0 names none. */
static bool name_record(uint64_t *named, uint32_t link, uint32_t *count)
{
    const uint64_t bit = (uint64_t)1 << (link % 64);
    if (link == 0)
        return true;
    if (named[link / 64] & bit)
        return false;
    named[link / 64] |= bit;
    ++*count;
    return true;
}

static bool chains_good(const uint16_t *t)
{
    uint64_t named[(WIDE + 1) / 64];
    const uint32_t n = t[0], m = t[2];
    const uint16_t *next = t + 5 + 2 * n;
    uint32_t i, count = 0;
    memset(named, 0, (m / 64 + 1) * sizeof named[0]);
    for (i = 0; i < n; i++)
        if (t[4 + 2 * i] > m || !name_record(named, t[4 + 2 * i], &count))
            return false;
    for (i = 1; i <= m; i++, next += 3)
        if (*next > m || (*next != 0 && *next <= i) || !name_record(named, *next, &count))
            return false;
    return count == m;
}

static uint32_t table_refusal(const uint16_t *t, size_t len, uint32_t states, uint32_t records)
{
    uint32_t number;
    if (len < 3)
        return 2;
    if (t[0] < 1 || t[0] > states)
        return 3;
    if (t[1] < 1 || t[1] > LETTERS)
        return 4;
    if (t[2] > records)
        return 5;
    if (len != 3 + 2 * (size_t)t[0] + 3 * (size_t)t[2])
        return 6;
    if (!small_words_good(t, &number))
        return number;
    return chains_good(t) ? 0 : 9;
}

/* ---- The pattern. */

struct pattern {
    uint32_t n, k, initial, accepting, inner;
    uint32_t mask[STATES][LETTERS];
};

static uint32_t lowest(uint32_t set)
{
    return (uint32_t)__builtin_ctz(set);
}

static void spread(const uint16_t *t, struct pattern *p)
{
    const uint16_t *const records = t + 3 + 2 * (size_t)t[0];
    uint32_t q, r;
    memset(p, 0, sizeof *p);
    p->n = t[0];
    p->k = t[1];
    for (q = 0; q < p->n; q++) {
        p->initial |= (uint32_t)(t[3 + 2 * q] & 1) << q;
        p->accepting |= (uint32_t)(t[3 + 2 * q] >> 1) << q;
        for (r = t[4 + 2 * q]; r != 0; r = records[3 * (r - 1) + 2])
            p->mask[q][records[3 * (r - 1)]] |= (uint32_t)1 << records[3 * (r - 1) + 1];
    }
}

/* Spreads the inner part from the accepting states, and gives those of its states that fork. */
static uint32_t find_inner(struct pattern *p)
{
    uint32_t waiting = p->accepting, forking = 0, c;
    p->inner = waiting;
    while (waiting != 0) {
        const uint32_t q = lowest(waiting);
        uint32_t more = 0;
        waiting &= waiting - 1;
        for (c = 0; c < p->k; c++) {
            const uint32_t here = p->mask[q][c];
            more |= here & (here - 1);
            waiting |= here & ~p->inner;
            p->inner |= here;
        }
        forking |= (uint32_t)(more != 0) << q;
    }
    return forking;
}

static struct fast_place first_fork(const struct pattern *p, uint32_t forking)
{
    struct fast_place place = {lowest(forking), 0};
    const uint32_t *const mask = p->mask[place.state];
    while ((mask[place.letter] & (mask[place.letter] - 1)) == 0)
        place.letter++;
    return place;
}

static struct fast_checked read_pattern(const uint16_t *t, size_t len, struct pattern *p)
{
    struct fast_checked checked = {table_refusal(t, len, STATES, RECORDS), {0, 0}};
    uint32_t forking;
    if (checked.number != 0)
        return checked;
    spread(t, p);
    forking = find_inner(p);
    if (forking != 0) {
        checked.number = 10;
        checked.place = first_fork(p, forking);
    }
    return checked;
}

struct fast_checked fast_check(const uint16_t *table, size_t len)
{
    struct pattern p;
    return read_pattern(table, len, &p);
}

/* ---- The build. */

struct edge {
    uint32_t source;
    uint16_t letter, target;
};

struct build {
    const struct pattern *pattern;
    enum fast_lookup lookup;
    uint32_t *sets; /* the lent buffer */
    uint32_t states, most;
    uint32_t *slot; /* hash table: state number plus one */
    uint32_t slots; /* a power of two, at least twice the states */
    struct edge *edge;
    size_t edges, room;
};

static uint32_t *sets_of(const struct build *b, uint32_t state)
{
    return b->sets + tubochre_sets_words(state);
}

static uint32_t hash(const uint32_t q[SETS])
{
    uint64_t h = (((uint64_t)q[0] << 32) | q[1]) * UINT64_C(0x9e3779b97f4a7c15);
    h ^= (((uint64_t)q[2] << 32) | q[3]) * UINT64_C(0xc2b2ae3d27d4eb4f);
    return (uint32_t)((h ^ (h >> 29)) * UINT64_C(0xff51afd7ed558ccd) >> 32);
}

static uint32_t *slot_for(const struct build *b, const uint32_t q[SETS])
{
    uint32_t at = hash(q) & (b->slots - 1);
    while (b->slot[at] != 0 && memcmp(sets_of(b, b->slot[at] - 1), q, SETS * sizeof *q) != 0)
        at = (at + 1) & (b->slots - 1);
    return &b->slot[at];
}

static void widen(struct build *b)
{
    uint32_t i;
    free(b->slot);
    b->slots *= 2;
    b->slot = room_for(b->slots, sizeof *b->slot);
    memset(b->slot, 0, b->slots * sizeof *b->slot);
    for (i = 0; i < b->states; i++)
        *slot_for(b, sets_of(b, i)) = i + 1;
}

static uint32_t append(struct build *b, const uint32_t q[SETS])
{
    if (b->states < b->most)
        memcpy(sets_of(b, b->states), q, SETS * sizeof *q);
    return b->states++;
}

static uint32_t scan(struct build *b, const uint32_t q[SETS])
{
    const uint32_t *at = b->sets;
    uint32_t i;
    for (i = 0; i < b->states; i++, at += SETS)
        if (at[1] == q[1] && at[2] == q[2] && at[0] == q[0] && at[3] == q[3])
            return i;
    return append(b, q);
}

static uint32_t find(struct build *b, const uint32_t q[SETS])
{
    uint32_t *slot;
    if (b->lookup == FAST_SCAN)
        return scan(b, q);
    slot = slot_for(b, q);
    if (*slot == 0) {
        const uint32_t number = append(b, q);
        if (b->states > b->most)
            return number;
        *slot = number + 1;
        if (2 * b->states > b->slots)
            widen(b);
        return number;
    }
    return *slot - 1;
}

static void add_edge(struct build *b, uint32_t source, uint32_t letter, uint32_t target)
{
    const struct edge edge = {source, (uint16_t)letter, (uint16_t)target};
    if (b->edges < WIDE) {
        if (b->edges == b->room) {
            b->room = 2 * b->room + 256;
            b->edge = room_grown(b->edge, b->room, sizeof *b->edge);
        }
        b->edge[b->edges] = edge;
    }
    b->edges++;
}

static uint32_t targets(const struct pattern *p, uint32_t set, uint32_t letter)
{
    uint32_t all = 0;
    for (; set != 0; set &= set - 1)
        all |= p->mask[lowest(set)][letter];
    return all;
}

static bool has_dead_end(const struct pattern *p, uint32_t set, uint32_t letter)
{
    for (; set != 0; set &= set - 1)
        if (p->mask[lowest(set)][letter] == 0)
            return true;
    return false;
}

static void expand(struct build *b, uint32_t source, uint32_t letter)
{
    const struct pattern *const p = b->pattern;
    const uint32_t *const x = sets_of(b, source);
    const uint32_t from_n = targets(p, x[0], letter), must_c = targets(p, x[1] & ~p->accepting, letter);
    const uint32_t must_s = targets(p, x[2], letter);
    const uint32_t fresh = (from_n & p->inner) | targets(p, x[1] & p->accepting, letter);
    const uint32_t all = fresh | must_c | must_s, free_targets = fresh & ~p->accepting & ~must_s & ~must_c;
    const uint32_t b_targets = targets(p, x[3], letter), refill = x[3] == 0;
    uint32_t chosen = 0;
    if ((must_s & (p->accepting | must_c)) != 0 || has_dead_end(p, x[1] & ~p->accepting, letter))
        return;
    do {
        uint32_t next[SETS];
        next[0] = from_n & ~p->inner;
        next[2] = must_s | chosen;
        next[1] = all & ~next[2];
        next[3] = refill ? next[1] : b_targets & next[1];
        add_edge(b, source, letter, find(b, next));
        chosen = (chosen - free_targets) & free_targets;
    } while (chosen != 0 && b->states <= b->most);
}

static void start(struct build *b)
{
    const struct pattern *const p = b->pattern;
    const uint32_t inner = p->initial & p->inner, choice = inner & ~p->accepting;
    uint32_t s = 0;
    do {
        const uint32_t q[SETS] = {p->initial & ~p->inner, inner & ~s, s, inner & ~s};
        find(b, q);
        s = (s - choice) & choice;
    } while (s != 0 && b->states <= b->most);
}

static void write_table(const struct build *b, uint32_t initials, uint16_t *words)
{
    uint16_t *record = words + 3 + 2 * (size_t)b->states;
    uint32_t i;
    words[0] = (uint16_t)b->states;
    words[1] = (uint16_t)b->pattern->k;
    words[2] = (uint16_t)b->edges;
    for (i = 0; i < b->states; i++) {
        words[3 + 2 * i] = (uint16_t)((i < initials) + 2 * (sets_of(b, i)[3] == 0));
        words[4 + 2 * i] = 0;
    }
    for (i = 0; i < b->edges; i++, record += 3) {
        const struct edge *const edge = &b->edge[i];
        record[0] = edge->letter;
        record[1] = edge->target;
        record[2] = i + 1 < b->edges && b->edge[i + 1].source == edge->source ? (uint16_t)(i + 2) : 0;
        if (i == 0 || b->edge[i - 1].source != edge->source)
            words[4 + 2 * edge->source] = (uint16_t)(i + 1);
    }
}

/* Explores all; the number of initial states, or 0 where there is not enough room (there is always an initial one). */
static uint32_t explore(struct build *b)
{
    uint32_t i, c, initials;
    start(b);
    initials = b->states;
    for (i = 0; i < b->states && b->states <= b->most; i++)
        for (c = 0; c < b->pattern->k && b->states <= b->most; c++)
            expand(b, i, c);
    return b->states <= b->most ? initials : 0;
}

struct fast_counts fast_build(const uint16_t *table, size_t len, uint16_t *words, size_t words_len, uint32_t *sets,
                              size_t sets_len, enum fast_lookup lookup)
{
    struct pattern p;
    struct fast_counts counts = {read_pattern(table, len, &p).number, 0, 0};
    struct build b = {&p, lookup, sets, 0, WIDE, NULL, 512, NULL, 0, 0};
    size_t used_words = 0, used_sets = 0;
    if (sets_len / SETS < b.most)
        b.most = (uint32_t)(sets_len / SETS);
    if (counts.number == 0) {
        uint32_t initials;
        widen(&b);
        initials = explore(&b);
        used_words = 3 + 2 * (size_t)b.states + 3 * b.edges;
        counts.number = initials == 0 ? 11 : b.edges > WIDE || used_words > words_len ? 12 : 0;
        if (counts.number == 0) {
            counts.states = b.states;
            counts.edges = (uint32_t)b.edges;
            used_sets = tubochre_sets_words(b.states);
            write_table(&b, initials, words);
        } else {
            used_words = 0;
        }
        free(b.slot);
        free(b.edge);
    }
    memset(words + used_words, 0, (words_len - used_words) * sizeof *words);
    memset(sets + used_sets, 0, (sets_len - used_sets) * sizeof *sets);
    return counts;
}

/* ---- The lasso: Tarjan's strongly connected components of the product. */

/* Node x is state x % n at position x / n. */
struct search {
    const uint16_t *table;
    const uint8_t *prefix, *loop;
    uint32_t n, k, positions, back; /* the position behind the last one */
    uint32_t *first;                /* targets by state and letter: from first[q * k + c] on */
    uint16_t *target;
    uint32_t *index, *low; /* index 0: not met; UINT32_MAX: its component is done */
    uint32_t *open;        /* nodes whose component is not done */
    uint32_t *path, *cursor;
    uint32_t opened, depth, met;
};

static uint32_t letter_at(const struct search *s, uint32_t position)
{
    return position < s->back ? s->prefix[position] : s->loop[position - s->back];
}

static void enter(struct search *s, uint32_t x)
{
    const uint32_t q = x % s->n, list = q * s->k + letter_at(s, x / s->n);
    s->index[x] = s->low[x] = ++s->met;
    s->open[s->opened++] = x;
    s->path[s->depth] = x;
    s->cursor[s->depth++] = s->first[list];
}

/* Closes the component of x, its lowest node; whether it has a cycle through an accepting state. */
static bool close_component(struct search *s, uint32_t x)
{
    const bool more = s->open[s->opened - 1] != x;
    bool accepting = false;
    uint32_t y;
    do {
        y = s->open[--s->opened];
        s->index[y] = UINT32_MAX;
        accepting = accepting || s->table[3 + 2 * (size_t)(y % s->n)] >= 2;
    } while (y != x);
    return more && accepting;
}

/* All that is reached from one node; whether an accepting cycle is among it. */
static bool search_from(struct search *s, uint32_t root)
{
    enter(s, root);
    while (s->depth > 0) {
        const uint32_t x = s->path[s->depth - 1], position = x / s->n, q = x % s->n;
        const uint32_t end = s->first[q * s->k + letter_at(s, position) + 1];
        const uint32_t ahead = position + 1 < s->positions ? position + 1 : s->back;
        uint32_t at = s->cursor[s->depth - 1], y = 0;
        for (; at < end; at++) {
            y = ahead * s->n + s->target[at];
            if (s->index[y] == 0)
                break;
            if (y == x && s->table[3 + 2 * (size_t)q] >= 2)
                return true;
            if (s->index[y] != UINT32_MAX && s->index[y] < s->low[x])
                s->low[x] = s->index[y];
        }
        s->cursor[s->depth - 1] = at;
        if (at < end) {
            s->cursor[s->depth - 1]++;
            enter(s, y);
            continue;
        }
        s->depth--;
        if (s->depth > 0 && s->low[x] < s->low[s->path[s->depth - 1]])
            s->low[s->path[s->depth - 1]] = s->low[x];
        if (s->low[x] == s->index[x] && close_component(s, x))
            return true;
    }
    return false;
}

/* Lists of targets by state and letter: a node then meets only edges of its own letter. */
static void list_targets(const uint16_t *t, uint32_t *first, uint16_t *target)
{
    const uint32_t n = t[0], k = t[1];
    const uint16_t *const records = t + 3 + 2 * (size_t)n;
    uint32_t q, r, i;
    memset(first, 0, ((size_t)n * k + 2) * sizeof *first);
    /* Counted two places on, summed one place on, so that filling leaves each list's beginning in its place. */
    for (q = 0; q < n; q++)
        for (r = t[4 + 2 * q]; r != 0; r = records[3 * (r - 1) + 2])
            first[q * k + records[3 * (r - 1)] + 2]++;
    for (i = 2; i < n * k + 2; i++)
        first[i] += first[i - 1];
    for (q = 0; q < n; q++)
        for (r = t[4 + 2 * q]; r != 0; r = records[3 * (r - 1) + 2])
            target[first[q * k + records[3 * (r - 1)] + 1]++] = records[3 * (r - 1) + 1];
}

/* Begins the searches in a table that passes: its lists are made once for all of them. */
static void begin_searches(struct search *s, const uint16_t *table)
{
    memset(s, 0, sizeof *s);
    s->table = table;
    s->n = table[0];
    s->k = table[1];
    s->first = room_for((size_t)s->n * s->k + 2, sizeof *s->first);
    s->target = room_for(table[2], sizeof *s->target);
    list_targets(table, s->first, s->target);
}

static void end_searches(struct search *s)
{
    free(s->first);
    free(s->target);
}

static bool takes(struct search *s, const uint8_t *prefix, size_t prefix_len, const uint8_t *loop, size_t loop_len,
                  uint32_t *work)
{
    const size_t nodes = s->n * (prefix_len + loop_len);
    uint32_t q;
    s->prefix = prefix;
    s->loop = loop;
    s->back = (uint32_t)prefix_len;
    s->positions = (uint32_t)(prefix_len + loop_len);
    s->opened = s->depth = s->met = 0;
    s->index = work;
    s->low = work + nodes;
    s->open = work + 2 * nodes;
    s->path = work + 3 * nodes;
    s->cursor = work + 4 * nodes;
    memset(s->index, 0, nodes * sizeof *work);
    for (q = 0; q < s->n; q++)
        if (s->table[3 + 2 * (size_t)q] % 2 == 1 && s->index[q] == 0 && search_from(s, q))
            return true;
    return false;
}

static uint32_t length_refusal(size_t prefix_len, size_t loop_len)
{
    if (loop_len == 0)
        return 13;
    return prefix_len > PART || loop_len > PART ? 14 : 0;
}

static uint32_t letter_refusal(uint32_t k, const uint8_t *letters, size_t len)
{
    size_t i;
    for (i = 0; i < len; i++)
        if (letters[i] >= k)
            return 15;
    return 0;
}

size_t fast_work_words(uint32_t states, size_t prefix_len, size_t loop_len)
{
    return 5 * (size_t)states * (prefix_len + loop_len);
}

struct fast_decision fast_lasso(const uint16_t *table, size_t len, const uint8_t *prefix, size_t prefix_len,
                                const uint8_t *loop, size_t loop_len, uint32_t *work)
{
    struct fast_decision d = {table_refusal(table, len, WIDE, WIDE), 0};
    struct search s;
    if (d.number == 0)
        d.number = length_refusal(prefix_len, loop_len);
    if (d.number == 0)
        d.number = letter_refusal(table[1], prefix, prefix_len);
    if (d.number == 0)
        d.number = letter_refusal(table[1], loop, loop_len);
    if (d.number != 0)
        return d;
    begin_searches(&s, table);
    d.taken = takes(&s, prefix, prefix_len, loop, loop_len, work) ? 1 : 0;
    end_searches(&s);
    return d;
}

/* ---- The tray. */

/* How many lassos a list holds; SIZE_MAX where it ends inside of one. */
static size_t lassos_in(const uint16_t *list, size_t len)
{
    const uint16_t *const end = list + len;
    size_t lassos = 0;
    while (end - list >= 2 && end - list - 2 >= (ptrdiff_t)list[0] + list[1]) {
        list += 2 + list[0] + list[1];
        lassos++;
    }
    return list == end ? lassos : SIZE_MAX;
}

/* The byte of the lasso that begins here. Its letters are narrowed: those that do not fit become one that none is. */
static uint8_t byte_of(struct search *s, const uint16_t *lasso, uint32_t *work)
{
    uint8_t letters[2 * PART];
    const size_t prefix_len = lasso[0], loop_len = lasso[1];
    uint32_t number = length_refusal(prefix_len, loop_len);
    size_t i;
    if (number != 0)
        return (uint8_t)number;
    for (i = 0; i < prefix_len + loop_len; i++)
        letters[i] = (uint8_t)(lasso[2 + i] > UINT8_MAX ? UINT8_MAX : lasso[2 + i]);
    number = letter_refusal(s->k, letters, prefix_len + loop_len);
    if (number != 0)
        return (uint8_t)number;
    return takes(s, letters, prefix_len, letters + prefix_len, loop_len, work) ? 1 : 0;
}

struct fast_written fast_tray(const uint16_t *table, size_t len, const uint16_t *list, size_t list_len,
                              uint8_t *answers, size_t answers_len, uint32_t *work)
{
    const size_t lassos = lassos_in(list, list_len);
    struct fast_written written = {lassos == SIZE_MAX ? 17 : lassos != answers_len ? 18 : 0, 0};
    struct search s;
    size_t i;
    if (written.number == 0)
        written.number = table_refusal(table, len, WIDE, WIDE);
    if (written.number != 0) {
        memset(answers, written.number < 17 ? (int)written.number : 0, answers_len);
        return written;
    }
    begin_searches(&s, table);
    for (i = 0; i < lassos; i++, list += 2 + list[0] + list[1])
        answers[i] = byte_of(&s, list, work);
    end_searches(&s);
    written.count = lassos;
    return written;
}

/* ---- The merge. */

static uint32_t merge_refusal(const uint16_t *first, const uint16_t *second, size_t words_len)
{
    const uint32_t n = (uint32_t)first[0] + second[0], m = (uint32_t)first[2] + second[2];
    if (first[1] != second[1])
        return 19;
    if (n > STATES)
        return 20;
    if (m > RECORDS)
        return 21;
    return words_len < tubochre_table_words(n, m) ? 22 : 0;
}

/* Copies both, and then moves the numbers of the second on, where they stand. */
static void join(const uint16_t *first, const uint16_t *second, uint16_t *words)
{
    const uint32_t n1 = first[0], m1 = first[2], n2 = second[0], m2 = second[2];
    uint16_t *const states = words + 3 + 2 * n1, *const records = words + 3 + 2 * (n1 + n2);
    uint16_t *const more = records + 3 * m1;
    uint32_t i;
    words[0] = (uint16_t)(n1 + n2);
    words[1] = first[1];
    words[2] = (uint16_t)(m1 + m2);
    memcpy(words + 3, first + 3, 2 * n1 * sizeof *words);
    memcpy(states, second + 3, 2 * n2 * sizeof *words);
    memcpy(records, first + 3 + 2 * n1, 3 * m1 * sizeof *words);
    memcpy(more, second + 3 + 2 * n2, 3 * m2 * sizeof *words);
    for (i = 0; i < n2; i++)
        states[2 * i + 1] = (uint16_t)(states[2 * i + 1] + (states[2 * i + 1] != 0 ? m1 : 0));
    for (i = 0; i < m2; i++) {
        more[3 * i + 1] = (uint16_t)(more[3 * i + 1] + n1);
        more[3 * i + 2] = (uint16_t)(more[3 * i + 2] + (more[3 * i + 2] != 0 ? m1 : 0));
    }
}

struct fast_written fast_merge(const uint16_t *first, size_t first_len, const uint16_t *second, size_t second_len,
                               uint16_t *words, size_t words_len)
{
    struct fast_written written = {fast_check(first, first_len).number, 0};
    if (written.number == 0)
        written.number = fast_check(second, second_len).number;
    if (written.number == 0)
        written.number = merge_refusal(first, second, words_len);
    if (written.number == 0) {
        join(first, second, words);
        written.count = tubochre_table_words(words[0], words[2]);
    }
    memset(words + written.count, 0, (words_len - written.count) * sizeof *words);
    return written;
}
