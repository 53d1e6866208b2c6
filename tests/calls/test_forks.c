/* Where a pattern forks: the place that comes with refusal 10, by the check and by the build. */
#include "draw.h"
#include "test.h"

#include <stdio.h>

#define LENGTH(array) (sizeof(array) / sizeof(array)[0])

enum { STATES = TUBOCHRE_PATTERN_STATES_MOST, LETTERS = TUBOCHRE_LETTERS_MOST };

static void try_pattern(const char *name, const struct drawn_table *t, uint32_t number, struct tubochre_place place)
{
    const struct tubochre_checked checked = lent_check(t->words, t->len);
    struct built b = lent_build(t->words, t->len, 100, 100);
    expect(checked.number == number && same_place(checked.place, place),
           "%s: the check answers %u, state %u, letter %u", name, (unsigned)checked.number,
           (unsigned)checked.place.state, (unsigned)checked.place.letter);
    expect(b.counts.number == number && same_place(b.counts.place, place),
           "%s: the build answers %u, state %u, letter %u", name, (unsigned)b.counts.number,
           (unsigned)b.counts.place.state, (unsigned)b.counts.place.letter);
    built_free(&b);
}

/* ---- Places worked out by hand. */

struct forking {
    const char *name;
    struct tubochre_place place;
    uint32_t states, letters;
    uint8_t flags[4];
    uint32_t edges;
    struct drawn_edge edge[8]; /* source, letter, target */
};

static const struct forking forking_patterns[] = {
    {"state 0 and letter 0 are a place", {0, 0}, 2, 1, {2, 0}, 2, {{0, 0, 0}, {0, 0, 1}}},
    {"the second letter of a state", {0, 1}, 2, 2, {2, 0}, 3, {{0, 0, 0}, {0, 1, 0}, {0, 1, 1}}},
    {"the smaller letter of two", {1, 1}, 2, 3, {0, 2}, 4, {{1, 2, 0}, {1, 2, 1}, {1, 1, 0}, {1, 1, 1}}},
    {"the smaller state, though the larger has the smaller letter", {1, 1}, 3, 2, {0, 2, 2},
     4, {{2, 0, 1}, {2, 0, 2}, {1, 1, 1}, {1, 1, 2}}},
    {"the smallest of four, at three states", {1, 2}, 4, 4, {0, 2, 2, 2},
     8, {{3, 0, 0}, {3, 0, 1}, {2, 1, 0}, {2, 1, 1}, {1, 3, 0}, {1, 3, 1}, {1, 2, 0}, {1, 2, 1}}},
    {"no smaller state outside Q2", {1, 1}, 3, 2, {1, 2, 0}, 4, {{0, 0, 0}, {0, 0, 1}, {1, 1, 1}, {1, 1, 2}}},
    {"none of two smaller states outside Q2, which have more targets", {2, 0}, 4, 2, {1, 1, 2, 0},
     8, {{0, 0, 0}, {0, 0, 1}, {0, 0, 2}, {1, 1, 0}, {1, 1, 2}, {1, 1, 3}, {2, 0, 2}, {2, 0, 3}}},
    {"a smaller state that a forking one leads to", {0, 1}, 3, 2, {0, 2, 0},
     4, {{1, 0, 0}, {1, 0, 1}, {0, 1, 0}, {0, 1, 2}}},
    {"a state only reached from an accepting one, by falling numbers", {0, 1}, 4, 2, {0, 0, 0, 2},
     5, {{3, 0, 2}, {2, 1, 1}, {1, 0, 0}, {0, 1, 1}, {0, 1, 0}}},
    {"a state only reached from an accepting one, by numbers up and down", {1, 1}, 4, 2, {0, 0, 0, 2},
     5, {{3, 0, 0}, {0, 1, 2}, {2, 0, 1}, {1, 1, 3}, {1, 1, 1}}},
    {"no edge three times", {1, 1}, 2, 2, {2, 0}, 5, {{0, 0, 1}, {0, 0, 1}, {0, 0, 1}, {1, 1, 1}, {1, 1, 0}}},
    {"an edge three times, and another", {1, 0}, 2, 1, {0, 2}, 4, {{1, 0, 0}, {1, 0, 0}, {1, 0, 1}, {1, 0, 0}}},
    {"three targets", {1, 0}, 3, 1, {0, 2, 0}, 3, {{1, 0, 2}, {1, 0, 0}, {1, 0, 1}}},
    {"no two targets on two letters", {1, 1}, 2, 2, {2, 0}, 4, {{0, 0, 0}, {0, 1, 1}, {1, 1, 0}, {1, 1, 1}}},
    {"records of other letters and states in between", {1, 1}, 3, 3, {0, 2, 2},
     6, {{1, 1, 0}, {0, 2, 0}, {1, 2, 1}, {2, 1, 2}, {1, 0, 2}, {1, 1, 2}}},
};

/* The order of the records does not matter: they are laid out from the first to the last, and the other way round. */
static void try_forking(const struct forking *f)
{
    static struct drawn_table t;
    struct drawn_edge turned[LENGTH(f->edge)];
    uint32_t i;
    for (i = 0; i < f->edges; i++)
        turned[i] = f->edge[f->edges - 1 - i];
    draw_from_edges(&t, f->states, f->letters, f->flags, f->edge, f->edges);
    try_pattern(f->name, &t, TUBOCHRE_FORK, f->place);
    draw_from_edges(&t, f->states, f->letters, f->flags, turned, f->edges);
    try_pattern(f->name, &t, TUBOCHRE_FORK, f->place);
}

/* ---- Every place that a pattern can have. */

/* The largest numbers of states and letters. All states accept and lead to the next on each letter, and one edge more,
 * from a state to itself, is the only fork. */
static void try_single(uint32_t state, uint32_t letter)
{
    static struct drawn_table t;
    static struct drawn_edge edge[STATES * LETTERS + 1];
    const struct tubochre_place place = {state, letter};
    uint8_t flags[STATES];
    char name[60];
    uint32_t i;
    for (i = 0; i < STATES; i++)
        flags[i] = 2;
    for (i = 0; i < STATES * LETTERS; i++)
        edge[i] = (struct drawn_edge){(uint16_t)(i / LETTERS), (uint16_t)(i % LETTERS),
                                      (uint16_t)((i / LETTERS + 1) % STATES)};
    edge[i] = (struct drawn_edge){(uint16_t)state, (uint16_t)letter, (uint16_t)state};
    snprintf(name, sizeof name, "state %u forks on letter %u", (unsigned)state, (unsigned)letter);
    draw_from_edges(&t, STATES, LETTERS, flags, edge, LENGTH(edge));
    try_pattern(name, &t, TUBOCHRE_FORK, place);
}

static void try_singles(void)
{
    uint32_t state, letter;
    for (state = 0; state < STATES; state++)
        for (letter = 0; letter < LETTERS; letter++)
            try_single(state, letter);
}

/* ---- Every choice of places, and of accepting states. */

/* Place i is letter i % 2 of state i / 2; state BEHIND is where forks lead. */
enum { PLACES = 6, FORKING = PLACES / 2, BEHIND = FORKING };

/* States 0 to 2 lead to themselves on both letters, and at the chosen places to state 3 too, which accepts and has no
 * edge. So those of them that are marked accepting are the only others in Q2. */
static void try_choice(unsigned forks, unsigned marks)
{
    static struct drawn_table t;
    struct drawn_edge edge[2 * PLACES];
    uint8_t flags[FORKING + 1] = {0, 0, 0, 2};
    struct tubochre_place first = {0, 0};
    uint32_t number = TUBOCHRE_OK, count = 0, i;
    char name[60];
    for (i = 0; i < PLACES; i++) {
        const uint16_t state = (uint16_t)(i / 2), letter = (uint16_t)(i % 2);
        edge[count++] = (struct drawn_edge){state, letter, state};
        if (forks >> i & 1)
            edge[count++] = (struct drawn_edge){state, letter, BEHIND};
        if (number == TUBOCHRE_OK && forks >> i & 1 && marks >> state & 1) {
            number = TUBOCHRE_FORK;
            first = (struct tubochre_place){state, letter};
        }
    }
    for (i = 0; i < FORKING; i++)
        flags[i] = marks >> i & 1 ? 2 : 0;
    snprintf(name, sizeof name, "forks %u, accepting states %u", forks, marks);
    draw_from_edges(&t, FORKING + 1, 2, flags, edge, count);
    try_pattern(name, &t, number, first);
}

static void try_choices(void)
{
    unsigned forks, marks;
    for (marks = 0; marks < 1U << FORKING; marks++)
        for (forks = 0; forks < 1U << PLACES; forks++)
            try_choice(forks, marks);
}

int main(void)
{
    size_t i;
    for (i = 0; i < LENGTH(forking_patterns); i++)
        try_forking(&forking_patterns[i]);
    section("places worked out by hand");
    try_singles();
    section("every place that a pattern can have");
    try_choices();
    section("every choice of places among six, in Q2 and outside it");
    return summary("test_forks");
}
