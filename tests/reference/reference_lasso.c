/* The lasso decision, by powers of the loop's relation, and the number of accepting runs. */
#include "reference.h"
#include "reference_parts.h"
#include "room.h"

#include <stdlib.h>
#include <string.h>

enum { PART_MOST = 4096 };

/* A wide table as lists of targets: those of state q on letter c stand from first[q * letters + c] on. */
struct graph {
    uint32_t states, letters;
    size_t *first;
    uint16_t *target;
    const uint16_t *table;
};

static struct graph graph_of(const uint16_t *t)
{
    struct graph g = {t[0], t[1], NULL, NULL, t};
    const size_t lists = (size_t)g.states * g.letters;
    size_t i, *fill;
    uint32_t q, r;
    g.first = room_cleared(lists + 1, sizeof *g.first);
    g.target = room_cleared(t[2], sizeof *g.target);
    for (q = 0; q < g.states; q++)
        for (r = head_of(t, q); r != 0; r = record_of(t, r)[2])
            g.first[(size_t)q * g.letters + record_of(t, r)[0] + 1]++;
    for (i = 0; i < lists; i++)
        g.first[i + 1] += g.first[i];
    fill = room_for(lists, sizeof *fill);
    memcpy(fill, g.first, lists * sizeof *fill);
    for (q = 0; q < g.states; q++)
        for (r = head_of(t, q); r != 0; r = record_of(t, r)[2])
            g.target[fill[(size_t)q * g.letters + record_of(t, r)[0]]++] = record_of(t, r)[1];
    free(fill);
    return g;
}

static void graph_free(struct graph *g)
{
    free(g->first);
    free(g->target);
}

static bool is_initial(const struct graph *g, uint32_t q)
{
    return flags_of(g->table, q) % 2 == 1;
}

static bool is_accepting(const struct graph *g, uint32_t q)
{
    return flags_of(g->table, q) >= 2;
}

/* Sets of any size: 64 members in a word. */
typedef uint64_t *bits;

static size_t bits_words(uint32_t size)
{
    return ((size_t)size + 63) / 64;
}

static bits bits_new(uint32_t size)
{
    return room_cleared(bits_words(size), sizeof(uint64_t));
}

static bool bits_has(const uint64_t *set, uint32_t i)
{
    return (set[i / 64] >> (i % 64) & 1) != 0;
}

static void bits_add(uint64_t *set, uint32_t i)
{
    set[i / 64] |= (uint64_t)1 << (i % 64);
}

/* The first member from i on, or size. */
static uint32_t bits_from(const uint64_t *set, uint32_t size, uint32_t i)
{
    while (i < size && !bits_has(set, i))
        i = set[i / 64] >> (i % 64) == 0 ? (i / 64 + 1) * 64 : i + 1;
    return i < size ? i : size;
}

/* Adds another set's members; whether any of them was new. */
static bool bits_join(uint64_t *set, const uint64_t *more, size_t words)
{
    uint64_t fresh = 0;
    size_t i;
    for (i = 0; i < words; i++) {
        fresh |= more[i] & ~set[i];
        set[i] |= more[i];
    }
    return fresh != 0;
}

/* to: all targets of from on a letter. */
static void move_all(const struct graph *g, const uint64_t *from, uint32_t letter, uint64_t *to)
{
    uint32_t q;
    memset(to, 0, bits_words(g->states) * sizeof *to);
    for (q = bits_from(from, g->states, 0); q < g->states; q = bits_from(from, g->states, q + 1)) {
        const size_t list = (size_t)q * g->letters + letter;
        size_t i;
        for (i = g->first[list]; i < g->first[list + 1]; i++)
            bits_add(to, g->target[i]);
    }
}

static void keep_accepting(const struct graph *g, uint64_t *set)
{
    uint32_t q;
    for (q = bits_from(set, g->states, 0); q < g->states; q = bits_from(set, g->states, q + 1))
        if (!is_accepting(g, q))
            set[q / 64] &= ~((uint64_t)1 << (q % 64));
}

/* Moves a set along a word, in place. `through`, where given, holds those that a path through an accepting state led
 * to, either end counted; it moves along. */
static void move_along(const struct graph *g, const uint8_t *word, size_t len, bits set, bits through)
{
    const size_t words = bits_words(g->states);
    bits to = bits_new(g->states), marked = bits_new(g->states);
    size_t i;
    for (i = 0; i < len; i++) {
        if (through != NULL) {
            move_all(g, through, word[i], marked);
            memcpy(through, marked, words * sizeof *marked);
        }
        move_all(g, set, word[i], to);
        memcpy(set, to, words * sizeof *to);
        if (through != NULL) {
            keep_accepting(g, to);
            bits_join(through, to, words);
        }
    }
    free(to);
    free(marked);
}

/* The loop's relation over the states in which the loop can begin, renumbered from 0. Row i of path holds the members
 * that the loop leads to from member i; row i of through those that it leads to by way of an accepting state. */
struct relation {
    uint32_t members;
    uint32_t *member; /* member i is this state */
    size_t words;     /* of a row */
    bits path, through;
};

struct found_rows {
    uint32_t *number; /* of a state: its member number plus one, or 0 */
    bits *path, *through;
};

static void add_members(struct relation *m, struct found_rows *f, const struct graph *g, const uint64_t *set)
{
    uint32_t q;
    for (q = bits_from(set, g->states, 0); q < g->states; q = bits_from(set, g->states, q + 1))
        if (f->number[q] == 0) {
            m->member[m->members++] = q;
            f->number[q] = m->members;
        }
}

/* The rows as sets of states; each row may bring new members, which get rows in their turn. */
static void find_rows(struct relation *m, struct found_rows *f, const struct graph *g, const uint8_t *loop, size_t len)
{
    uint32_t i;
    for (i = 0; i < m->members; i++) {
        const uint32_t q = m->member[i];
        f->path[i] = bits_new(g->states);
        f->through[i] = bits_new(g->states);
        bits_add(f->path[i], q);
        if (is_accepting(g, q))
            bits_add(f->through[i], q);
        move_along(g, loop, len, f->path[i], f->through[i]);
        add_members(m, f, g, f->path[i]);
    }
}

static void renumber(const struct found_rows *f, const struct graph *g, const uint64_t *states, uint64_t *row)
{
    uint32_t q;
    for (q = bits_from(states, g->states, 0); q < g->states; q = bits_from(states, g->states, q + 1))
        bits_add(row, f->number[q] - 1);
}

/* `starts`: the states after the prefix. */
static struct relation relation_of(const struct graph *g, const uint64_t *starts, const uint8_t *loop, size_t len)
{
    struct relation m = {0, NULL, 0, NULL, NULL};
    struct found_rows f;
    uint32_t i;
    m.member = room_for(g->states, sizeof *m.member);
    f.number = room_cleared(g->states, sizeof *f.number);
    f.path = room_cleared(g->states, sizeof *f.path);
    f.through = room_cleared(g->states, sizeof *f.through);
    add_members(&m, &f, g, starts);
    find_rows(&m, &f, g, loop, len);
    m.words = bits_words(m.members);
    m.path = room_cleared(m.members * m.words, sizeof *m.path);
    m.through = room_cleared(m.members * m.words, sizeof *m.through);
    for (i = 0; i < m.members; i++) {
        renumber(&f, g, f.path[i], m.path + i * m.words);
        renumber(&f, g, f.through[i], m.through + i * m.words);
        free(f.path[i]);
        free(f.through[i]);
    }
    free(f.number);
    free(f.path);
    free(f.through);
    return m;
}

static void relation_free(struct relation *m)
{
    free(m->member);
    free(m->path);
    free(m->through);
}

/* Joins row i with the rows of its members: one composition of the relation with itself, seen from i. */
static bool compose_row(struct relation *m, uint32_t i)
{
    bits path = m->path + i * m->words, through = m->through + i * m->words;
    bool grew = false;
    uint32_t j;
    for (j = bits_from(path, m->members, 0); j < m->members; j = bits_from(path, m->members, j + 1)) {
        const uint64_t *const path_j = m->path + j * m->words, *const through_j = m->through + j * m->words;
        if (bits_join(path, path_j, m->words))
            grew = true;
        if (bits_join(through, bits_has(through, j) ? path_j : through_j, m->words))
            grew = true;
    }
    return grew;
}

/* All powers of the relation, joined: nothing is added by composing it with itself once more. */
static void close_powers(struct relation *m)
{
    bool grew = true;
    while (grew) {
        uint32_t i;
        grew = false;
        for (i = 0; i < m->members; i++)
            if (compose_row(m, i))
                grew = true;
    }
}

static bool recurs(const struct relation *m, uint32_t i)
{
    return bits_has(m->through + i * m->words, i);
}

static bits after_prefix(const struct graph *g, const uint8_t *prefix, size_t len)
{
    const bits set = bits_new(g->states);
    uint32_t q;
    for (q = 0; q < g->states; q++)
        if (is_initial(g, q))
            bits_add(set, q);
    move_along(g, prefix, len, set, NULL);
    return set;
}

static struct relation closed_relation(const struct graph *g, const uint8_t *prefix, size_t prefix_len,
                                       const uint8_t *loop, size_t loop_len)
{
    const bits starts = after_prefix(g, prefix, prefix_len);
    struct relation m = relation_of(g, starts, loop, loop_len);
    close_powers(&m);
    free(starts);
    return m;
}

/* Every member is met where the loop begins again, so one that comes back to itself through an accepting state is
 * enough; and where some run is accepting, one of the states that it has at those places without end does. */
static bool takes(const uint16_t *t, const uint8_t *prefix, size_t prefix_len, const uint8_t *loop, size_t loop_len)
{
    struct graph g = graph_of(t);
    struct relation m = closed_relation(&g, prefix, prefix_len, loop, loop_len);
    bool taken = false;
    uint32_t i;
    for (i = 0; i < m.members; i++)
        if (recurs(&m, i))
            taken = true;
    relation_free(&m);
    graph_free(&g);
    return taken;
}

static bool letters_good(const uint8_t *letters, size_t len, uint32_t below)
{
    size_t i;
    for (i = 0; i < len; i++)
        if (letters[i] >= below)
            return false;
    return true;
}

struct reference_decision reference_decide(const uint16_t *table, size_t len, const uint8_t *prefix, size_t prefix_len,
                                           const uint8_t *loop, size_t loop_len, size_t work_len)
{
    struct reference_decision d = {reference_table_refusal(table, len, WIDE_MOST, WIDE_MOST), 0};
    if (d.number != 0)
        return d;
    if (loop_len == 0)
        d.number = 13;
    else if (prefix_len > PART_MOST || loop_len > PART_MOST)
        d.number = 14;
    else if (!letters_good(prefix, prefix_len, table[1]) || !letters_good(loop, loop_len, table[1]))
        d.number = 15;
    else if (work_len < 4 * (size_t)table[0] * (prefix_len + loop_len))
        d.number = 16;
    else
        d.taken = takes(table, prefix, prefix_len, loop, loop_len) ? 1 : 0;
    return d;
}

struct reference_decision reference_lasso(const uint16_t *table, size_t len, const uint8_t *prefix, size_t prefix_len,
                                          const uint8_t *loop, size_t loop_len, uint32_t *work, size_t work_len)
{
    size_t i;
    for (i = 0; i < work_len; i++)
        work[i] = 0;
    return reference_decide(table, len, prefix, prefix_len, loop, loop_len, work_len);
}

/* ---- Counting accepting runs. */

/* Whether from where the loop begins in member i some run on is accepting. */
static bool lives(const struct relation *m, uint32_t i)
{
    uint32_t j;
    if (recurs(m, i))
        return true;
    for (j = 0; j < m->members; j++)
        if (bits_has(m->path + i * m->words, j) && recurs(m, j))
            return true;
    return false;
}

static bits loop_starts(const struct graph *g, const struct relation *m, bool living)
{
    const bits set = bits_new(g->states);
    uint32_t i;
    for (i = 0; i < m->members; i++)
        if (!living || lives(m, i))
            bits_add(set, m->member[i]);
    return set;
}

/* How many targets of q on a letter lie in a set; 2 for more than one. Repeated edges count once. */
static unsigned targets_in(const struct graph *g, uint32_t q, uint32_t letter, const uint64_t *set)
{
    const size_t list = (size_t)q * g->letters + letter;
    unsigned count = 0;
    uint32_t seen = 0;
    size_t i;
    for (i = g->first[list]; i < g->first[list + 1]; i++) {
        const uint32_t to = g->target[i];
        if (!bits_has(set, to) || (count > 0 && to == seen))
            continue;
        seen = to;
        if (++count == 2)
            return 2;
    }
    return count;
}

/* Goes back along a word from the states that live behind it. `reached` has the states that are reached before it.
 * Leaves in `living` those of them that live; whether somewhere on the way one of them can go on living in two ways. */
static bool live_back(const struct graph *g, const uint8_t *word, size_t len, const uint64_t *reached, bits living)
{
    const size_t words = bits_words(g->states);
    bits *const at = room_cleared(len + 1, sizeof *at);
    bool forks = false;
    size_t i;
    for (i = 0; i <= len; i++) {
        at[i] = bits_new(g->states);
        if (i == 0)
            memcpy(at[i], reached, words * sizeof *reached);
        else
            move_all(g, at[i - 1], word[i - 1], at[i]);
    }
    for (i = len; i > 0; i--) {
        const bits before = bits_new(g->states);
        uint32_t q;
        for (q = bits_from(at[i - 1], g->states, 0); q < g->states; q = bits_from(at[i - 1], g->states, q + 1)) {
            const unsigned ways = targets_in(g, q, word[i - 1], living);
            if (ways > 0)
                bits_add(before, q);
            if (ways > 1)
                forks = true;
        }
        memcpy(living, before, words * sizeof *before);
        free(before);
    }
    for (i = 0; i <= len; i++)
        free(at[i]);
    free(at);
    return forks;
}

/* A state lives if some run on from it is accepting. There is one accepting run only, if one initial state lives and no
 * living state that is reached can go on living in two ways. */
unsigned reference_runs(const uint16_t *table, const uint8_t *prefix, size_t prefix_len, const uint8_t *loop,
                        size_t loop_len)
{
    struct graph g = graph_of(table);
    struct relation m = closed_relation(&g, prefix, prefix_len, loop, loop_len);
    const bits initial = after_prefix(&g, NULL, 0), reached = loop_starts(&g, &m, false);
    const bits living = loop_starts(&g, &m, true), in_loop = loop_starts(&g, &m, true);
    const bool loop_forks = live_back(&g, loop, loop_len, reached, in_loop);
    const bool forks = live_back(&g, prefix, prefix_len, initial, living) || loop_forks;
    unsigned starts = 0;
    uint32_t q;
    for (q = 0; q < g.states; q++)
        if (bits_has(initial, q) && bits_has(living, q))
            starts++;
    free(initial);
    free(reached);
    free(living);
    free(in_loop);
    relation_free(&m);
    graph_free(&g);
    return starts == 0 ? 0 : starts > 1 || forks ? 2 : 1;
}
