/* The check and the build. */
#include "reference.h"
#include "reference_parts.h"
#include "room.h"

#include <stdio.h>
#include <stdlib.h>
#include <string.h>

/* Up to so many states, candidates are all sets of states. */
enum { EVERY_CANDIDATE = 6 };

/* ---- The table: refusals 2 to 9. */

static bool flags_good(const uint16_t *t)
{
    uint32_t q;
    for (q = 0; q < t[0]; q++)
        if (flags_of(t, q) > 3)
            return false;
    return true;
}

static bool records_good(const uint16_t *t)
{
    uint32_t r;
    for (r = 1; r <= t[2]; r++)
        if (record_of(t, r)[0] >= t[1] || record_of(t, r)[1] >= t[0])
            return false;
    return true;
}

static bool links_go_forward(const uint16_t *t)
{
    uint32_t q, r;
    for (q = 0; q < t[0]; q++)
        if (head_of(t, q) > t[2])
            return false;
    for (r = 1; r <= t[2]; r++) {
        const uint32_t next = record_of(t, r)[2];
        if (next > t[2] || (next != 0 && next <= r))
            return false;
    }
    return true;
}

static int by_value(const void *a, const void *b)
{
    const uint16_t x = *(const uint16_t *)a, y = *(const uint16_t *)b;
    return x < y ? -1 : x > y;
}

/* All links that name a record, sorted, are 1, 2, … m exactly if each record is named once. */
static bool each_named_once(const uint16_t *t)
{
    uint16_t *const link = room_for((size_t)t[0] + t[2], sizeof *link);
    size_t count = 0, i;
    uint32_t q, r;
    bool good;
    for (q = 0; q < t[0]; q++)
        if (head_of(t, q) != 0)
            link[count++] = (uint16_t)head_of(t, q);
    for (r = 1; r <= t[2]; r++)
        if (record_of(t, r)[2] != 0)
            link[count++] = record_of(t, r)[2];
    qsort(link, count, sizeof *link, by_value);
    good = count == t[2];
    for (i = 0; good && i < count; i++)
        good = link[i] == i + 1;
    free(link);
    return good;
}

uint32_t reference_table_refusal(const uint16_t *t, size_t len, uint32_t states_most, uint32_t records_most)
{
    if (len < 3)
        return 2;
    if (t[0] < 1 || t[0] > states_most)
        return 3;
    if (t[1] < 1 || t[1] > LETTERS_MOST)
        return 4;
    if (t[2] > records_most)
        return 5;
    if (len != 3 + 2 * (size_t)t[0] + 3 * (size_t)t[2])
        return 6;
    if (!flags_good(t))
        return 7;
    if (!records_good(t))
        return 8;
    return links_go_forward(t) && each_named_once(t) ? 0 : 9;
}

/* ---- The pattern: edges by state, letter and target; Q2; refusal 10. */

struct pattern {
    uint32_t states, letters;
    uint32_t initial, accepting, outer, inner; /* I, F, Q1 and Q2, as sets */
    bool edge[PATTERN_STATES][LETTERS_MOST][PATTERN_STATES];
};

static bool has(uint32_t set, uint32_t state)
{
    return (set >> state & 1) != 0;
}

static uint32_t only(uint32_t state)
{
    return (uint32_t)1 << state;
}

/* Warshall: which states a path of one edge or more leads to. */
static void close_paths(uint32_t n, bool path[PATTERN_STATES][PATTERN_STATES])
{
    uint32_t via, from, to;
    for (via = 0; via < n; via++)
        for (from = 0; from < n; from++)
            for (to = 0; to < n; to++)
                if (path[from][via] && path[via][to])
                    path[from][to] = true;
}

static uint32_t behind_accepting(const struct pattern *p)
{
    bool path[PATTERN_STATES][PATTERN_STATES] = {{false}};
    uint32_t q, c, to, inner = p->accepting;
    for (q = 0; q < p->states; q++)
        for (c = 0; c < p->letters; c++)
            for (to = 0; to < p->states; to++)
                if (p->edge[q][c][to])
                    path[q][to] = true;
    close_paths(p->states, path);
    for (q = 0; q < p->states; q++)
        for (to = 0; to < p->states; to++)
            if (has(p->accepting, q) && path[q][to])
                inner |= only(to);
    return inner;
}

static void read_pattern(const uint16_t *t, struct pattern *p)
{
    uint32_t q, r;
    memset(p, 0, sizeof *p);
    p->states = t[0];
    p->letters = t[1];
    for (q = 0; q < p->states; q++) {
        if (flags_of(t, q) == 1 || flags_of(t, q) == 3)
            p->initial |= only(q);
        if (flags_of(t, q) == 2 || flags_of(t, q) == 3)
            p->accepting |= only(q);
        for (r = head_of(t, q); r != 0; r = record_of(t, r)[2])
            p->edge[q][record_of(t, r)[0]][record_of(t, r)[1]] = true;
    }
    p->inner = behind_accepting(p);
    for (q = 0; q < p->states; q++)
        if (!has(p->inner, q))
            p->outer |= only(q);
}

/* Whose chain each record is in. */
static void find_sources(const uint16_t *t, uint32_t source[PATTERN_RECORDS + 1])
{
    uint32_t q, r;
    for (q = 0; q < t[0]; q++)
        for (r = head_of(t, q); r != 0; r = record_of(t, r)[2])
            source[r] = q;
}

static bool comes_before(struct reference_place a, struct reference_place b)
{
    return a.state < b.state || (a.state == b.state && a.letter < b.letter);
}

/* Whether one state has both records, on one letter, with different targets. */
static bool records_fork(const uint16_t *t, const uint32_t *source, uint32_t a, uint32_t b)
{
    const uint16_t *const x = record_of(t, a), *const y = record_of(t, b);
    return source[a] == source[b] && x[0] == y[0] && x[1] != y[1];
}

/* Refusal 10: each two records are compared, and of all that fork in Q2 the smallest place is kept. */
static struct reference_checked find_fork(const uint16_t *t, const struct pattern *p)
{
    struct reference_checked found = {0, {0, 0}};
    uint32_t source[PATTERN_RECORDS + 1], a, b;
    find_sources(t, source);
    for (a = 1; a <= t[2]; a++)
        for (b = 1; b < a; b++) {
            const struct reference_place here = {source[a], record_of(t, a)[0]};
            if (has(p->inner, here.state) && records_fork(t, source, a, b) &&
                (found.number == 0 || comes_before(here, found.place))) {
                found.number = 10;
                found.place = here;
            }
        }
    return found;
}

static struct reference_checked check_pattern(const uint16_t *t, size_t len, struct pattern *p)
{
    const struct reference_checked by_table = {
        reference_table_refusal(t, len, PATTERN_STATES, PATTERN_RECORDS), {0, 0}};
    if (by_table.number != 0)
        return by_table;
    read_pattern(t, p);
    return find_fork(t, p);
}

struct reference_checked reference_check(const uint16_t *table, size_t len)
{
    struct pattern p;
    return check_pattern(table, len, &p);
}

/* a times b, or UINT64_MAX. */
static uint64_t times(uint64_t a, uint64_t b)
{
    return a > UINT64_MAX / b ? UINT64_MAX : a * b;
}

uint64_t reference_bound(const uint16_t *table)
{
    struct pattern p;
    uint64_t bound = 1;
    uint32_t q;
    read_pattern(table, &p);
    for (q = 0; q < p.states; q++)
        bound = times(bound, has(p.outer, q) ? 2 : has(p.accepting, q) ? 3 : 4);
    return bound;
}

/* ---- The complement: quadruples, numbered as they are found. */

static int compare_words(uint32_t a, uint32_t b)
{
    return a < b ? -1 : a > b;
}

static int compare_quadruples(const struct quadruple *a, const struct quadruple *b)
{
    int order = compare_words(a->n, b->n);
    if (order == 0)
        order = compare_words(a->c, b->c);
    if (order == 0)
        order = compare_words(a->s, b->s);
    if (order == 0)
        order = compare_words(a->b, b->b);
    return order;
}

static uint32_t add_state(struct reference_complement *x, const struct quadruple *q)
{
    if (x->states == x->states_room) {
        x->states_room = 2 * x->states_room + 16;
        x->state = room_grown(x->state, x->states_room, sizeof *x->state);
    }
    memset(&x->state[x->states], 0, sizeof x->state[0]);
    x->state[x->states].quadruple = *q;
    return x->states++;
}

/* The number of a quadruple; the next free one where it was not met before. */
static uint32_t number_of(struct reference_complement *x, const struct quadruple *q)
{
    uint32_t at = 0;
    if (x->states == 0)
        return add_state(x, q);
    for (;;) {
        const int order = compare_quadruples(q, &x->state[at].quadruple);
        const uint32_t below = order < 0 ? x->state[at].smaller : x->state[at].larger;
        if (order == 0)
            return at;
        if (below == 0) {
            const uint32_t number = add_state(x, q);
            if (order < 0)
                x->state[at].smaller = number;
            else
                x->state[at].larger = number;
            return number;
        }
        at = below;
    }
}

static void add_edge(struct reference_complement *x, uint32_t source, uint32_t letter, uint32_t target)
{
    const struct edge edge = {source, letter, target};
    if (x->edges < WIDE_MOST) {
        if (x->edges == x->edges_room) {
            x->edges_room = 2 * x->edges_room + 16;
            x->edge = room_grown(x->edge, x->edges_room, sizeof *x->edge);
        }
        x->edge[x->edges] = edge;
    }
    x->edges++;
}

/* The parts of a set in rising order: begin with 0; back at 0 all have been met. */
static uint32_t next_part(uint32_t part, uint32_t whole)
{
    return (part - whole) & whole;
}

static bool within(uint32_t part, uint32_t whole)
{
    return (part & ~whole) == 0;
}

/* The targets on a letter of those states of a set that lie in `from`, as far as they lie in `into`. */
static uint32_t image(const struct pattern *p, uint32_t set, uint32_t letter, uint32_t from, uint32_t into)
{
    uint32_t q, to, targets = 0;
    for (q = 0; q < p->states; q++)
        for (to = 0; has(set, q) && has(from, q) && to < p->states; to++)
            if (p->edge[q][letter][to] && has(into, to))
                targets |= only(to);
    return targets;
}

/* The sets that the conditions on a successor speak of, for one quadruple and one letter. */
struct step {
    uint32_t d1_n, dt_n, d2_c, d2_s, d2_b, d2_c_unmarked;
    uint32_t accepting;
    bool b_empty, c_stuck; /* stuck: some state of C without F has no target */
    uint32_t all;          /* candidates are the parts of this set */
};

static uint32_t every_state(const struct pattern *p)
{
    return p->outer | p->inner;
}

static struct step step_of(const struct pattern *p, const struct quadruple *x, uint32_t letter)
{
    const uint32_t unmarked = x->c & ~p->accepting;
    struct step s;
    uint32_t q;
    s.d1_n = image(p, x->n, letter, p->outer, p->outer);
    s.dt_n = image(p, x->n, letter, p->outer, p->inner);
    s.d2_c = image(p, x->c, letter, p->inner, p->inner);
    s.d2_s = image(p, x->s, letter, p->inner, p->inner);
    s.d2_b = image(p, x->b, letter, p->inner, p->inner);
    s.d2_c_unmarked = image(p, unmarked, letter, p->inner, p->inner);
    s.accepting = p->accepting;
    s.b_empty = x->b == 0;
    s.c_stuck = false;
    for (q = 0; q < p->states; q++)
        if (has(unmarked, q) && image(p, only(q), letter, p->inner, p->inner) == 0)
            s.c_stuck = true;
    /* Of many states only the targets can be in a successor; the others are left out to save time. */
    s.all = p->states <= EVERY_CANDIDATE ? every_state(p) : s.d1_n | s.dt_n | s.d2_c | s.d2_s;
    return s;
}

/* The conditions, each tested as soon as the sets that it speaks of are chosen. */

static bool s_may_be(const struct step *x, uint32_t s)
{
    return (s & x->accepting) == 0 && within(x->d2_s, s);
}

static bool c_may_be(const struct step *x, uint32_t c, uint32_t s)
{
    return (c | s) == (x->dt_n | x->d2_c | x->d2_s) && (c & s) == 0 && within(x->d2_c_unmarked, c);
}

static bool b_may_be(const struct step *x, uint32_t b, uint32_t c)
{
    return b == (x->b_empty ? c : x->d2_b & c);
}

static void add_fitting_b(struct reference_complement *x, const struct step *s, struct quadruple next,
                          uint32_t source, uint32_t letter)
{
    uint32_t b = 0;
    do {
        if (b_may_be(s, b, next.c)) {
            next.b = b;
            add_edge(x, source, letter, number_of(x, &next));
        }
        b = next_part(b, s->all);
    } while (b != 0);
}

static void add_fitting_c(struct reference_complement *x, const struct step *s, struct quadruple next,
                          uint32_t source, uint32_t letter)
{
    uint32_t c = 0;
    do {
        if (c_may_be(s, c, next.s)) {
            next.c = c;
            add_fitting_b(x, s, next, source, letter);
        }
        c = next_part(c, s->all);
    } while (c != 0);
}

static void add_fitting_s(struct reference_complement *x, const struct step *s, struct quadruple next,
                          uint32_t source, uint32_t letter)
{
    uint32_t set = 0;
    do {
        if (s_may_be(s, set)) {
            next.s = set;
            add_fitting_c(x, s, next, source, letter);
        }
        set = next_part(set, s->all);
    } while (set != 0);
}

static void add_successors(struct reference_complement *x, const struct pattern *p, uint32_t source, uint32_t letter)
{
    const struct quadruple from = x->state[source].quadruple;
    const struct step s = step_of(p, &from, letter);
    struct quadruple next = {0, 0, 0, 0};
    uint32_t n = 0;
    if (s.c_stuck)
        return;
    do {
        if (n == s.d1_n) {
            next.n = n;
            add_fitting_s(x, &s, next, source, letter);
        }
        n = next_part(n, s.all);
    } while (n != 0);
}

/* Initial quadruples: N is I in Q1; C and S part I in Q2; S has nothing of F; B is C. */
static void add_initials_with(struct reference_complement *x, const struct pattern *p, uint32_t all, uint32_t s)
{
    uint32_t c = 0;
    do {
        if ((c | s) == (p->initial & p->inner) && (c & s) == 0) {
            const struct quadruple q = {p->initial & p->outer, c, s, c};
            number_of(x, &q);
        }
        c = next_part(c, all);
    } while (c != 0);
}

static void add_initials(struct reference_complement *x, const struct pattern *p)
{
    const uint32_t all = p->states <= EVERY_CANDIDATE ? every_state(p) : p->initial;
    uint32_t s = 0;
    do {
        if ((s & p->accepting) == 0)
            add_initials_with(x, p, all, s);
        s = next_part(s, all);
    } while (s != 0);
    x->initials = x->states;
}

struct reference_complement *reference_explore(const uint16_t *table, size_t len)
{
    struct reference_complement *const x = room_cleared(1, sizeof *x);
    struct pattern p;
    uint32_t source, letter;
    x->checked = check_pattern(table, len, &p);
    if (x->checked.number != 0)
        return x;
    x->letters = p.letters;
    add_initials(x, &p);
    for (source = 0; source < x->states && x->states <= WIDE_MOST; source++)
        for (letter = 0; letter < p.letters && x->states <= WIDE_MOST; letter++)
            add_successors(x, &p, source, letter);
    return x;
}

void reference_forget(struct reference_complement *complement)
{
    free(complement->state);
    free(complement->edge);
    free(complement);
}

static void write_states(const struct reference_complement *x, uint16_t *words, uint32_t *sets)
{
    uint32_t q;
    words[0] = (uint16_t)x->states;
    words[1] = (uint16_t)x->letters;
    words[2] = (uint16_t)x->edges;
    for (q = 0; q < x->states; q++) {
        const struct quadruple *const set = &x->state[q].quadruple;
        uint32_t *const record = sets + RECORD_WORDS * (size_t)q;
        record[0] = set->n;
        record[1] = set->c;
        record[2] = set->s;
        record[3] = set->b;
        words[3 + 2 * q] = (uint16_t)((q < x->initials ? 1 : 0) + (set->b == 0 ? 2 : 0));
    }
}

/* Edge i of the list is record i + 1; the first edge of a source is its head, every other one the next of the last. */
static void write_edges(const struct reference_complement *x, uint16_t *words)
{
    uint16_t *const records = words + 3 + 2 * (size_t)x->states;
    uint32_t i;
    for (i = 0; i < x->edges; i++) {
        const struct edge *const edge = &x->edge[i];
        records[3 * i] = (uint16_t)edge->letter;
        records[3 * i + 1] = (uint16_t)edge->target;
        if (i > 0 && x->edge[i - 1].source == edge->source)
            records[3 * (i - 1) + 2] = (uint16_t)(i + 1);
        else
            words[4 + 2 * edge->source] = (uint16_t)(i + 1);
    }
}

/* The build's answer in so much room for words and so many records. */
static struct reference_counts counts_in(const struct reference_complement *x, size_t words, size_t records)
{
    struct reference_counts counts = {x->checked.number, 0, 0, x->checked.place};
    if (counts.number != 0)
        return counts;
    if (x->states > WIDE_MOST || x->states > records) {
        counts.number = 11;
    } else if (x->edges > WIDE_MOST || 3 + 2 * (size_t)x->states + 3 * x->edges > words) {
        counts.number = 12;
    } else {
        counts.states = x->states;
        counts.edges = (uint32_t)x->edges;
    }
    return counts;
}

struct reference_counts reference_sizes(const struct reference_complement *complement)
{
    return counts_in(complement, SIZE_MAX, SIZE_MAX);
}

struct reference_counts reference_lay(const struct reference_complement *complement, uint16_t *words, size_t words_len,
                                      uint32_t *sets, size_t sets_len)
{
    const struct reference_counts counts = counts_in(complement, words_len, sets_len / RECORD_WORDS);
    size_t i;
    for (i = 0; i < words_len; i++)
        words[i] = 0;
    for (i = 0; i < sets_len; i++)
        sets[i] = 0;
    if (counts.number == 0) {
        write_states(complement, words, sets);
        write_edges(complement, words);
    }
    return counts;
}
