#include "print.h"

#include "common.h"
#include "table.h"

#include <inttypes.h>
#include <stdio.h>
#include <stdlib.h>

/* Words from one on up to another, as lines of so many. */
static void print_lines(const uint16_t *words, size_t from, size_t to, size_t in_a_line)
{
    size_t i;
    for (i = from; i < to; i++)
        printf("%u%c", words[i], (i + 1 - from) % in_a_line == 0 ? '\n' : ' ');
}

void print_words(const uint16_t *words)
{
    const size_t states = tubochre_table_words(0, 0), records = tubochre_table_words(words[0], 0);
    print_lines(words, 0, states, 3);
    print_lines(words, states, records, 2);
    print_lines(words, records, tubochre_table_words(words[0], words[2]), 3);
}

static void print_numbers(const uint32_t *sets)
{
    int i;
    for (i = 0; i < TUBOCHRE_RECORD_WORDS; i++)
        printf(" %" PRIu32, sets[i]);
}

void print_states(const struct complement *c)
{
    uint32_t q;
    for (q = 0; q < c->counts.states; q++) {
        printf("%" PRIu32, q);
        print_numbers(c->sets + tubochre_sets_words(q));
        printf(" %u\n", c->words[flags_word(q)]);
    }
}

/* ---- Graphs. */

struct edge {
    uint16_t source, target, letter;
};

static int by_ends_and_letter(const void *a, const void *b)
{
    const struct edge *const x = a, *const y = b;
    if (x->source != y->source)
        return x->source < y->source ? -1 : 1;
    if (x->target != y->target)
        return x->target < y->target ? -1 : 1;
    return x->letter < y->letter ? -1 : x->letter > y->letter;
}

/* All edges of a table, in the order of their ends, then of their letters. */
static struct edge *sorted_edges(const uint16_t *words)
{
    struct edge *const all = memory(words[2], sizeof *all, "the edges");
    uint32_t q, r;
    size_t count = 0;
    for (q = 0; q < words[0]; q++)
        for (r = words[head_word(q)]; r != 0; r = words[next_word(words, r)])
            all[count++] = (struct edge){(uint16_t)q, words[target_word(words, r)], words[letter_word(words, r)]};
    qsort(all, count, sizeof *all, by_ends_and_letter);
    return all;
}

static int same_ends(const struct edge *a, const struct edge *b)
{
    return a->source == b->source && a->target == b->target;
}

/* An arrow for each pair of states that an edge joins, with all letters on it, each once. fork is where the table forks,
 * or NULL: that state's arrows with that letter are red. */
static void print_arrows(const uint16_t *words, const struct tubochre_place *fork)
{
    struct edge *const all = sorted_edges(words);
    const size_t records = words[2];
    size_t i;
    int red = 0;
    for (i = 0; i < records; i++) {
        const struct edge *const e = &all[i];
        if (i == 0 || !same_ends(e - 1, e))
            printf("    s%u -> s%u [label=\"%u", e->source, e->target, e->letter);
        else if (e[-1].letter != e->letter)
            printf(",%u", e->letter);
        red = red || (fork != NULL && e->source == fork->state && e->letter == fork->letter);
        if (i + 1 == records || !same_ends(e, e + 1)) {
            puts(red ? "\", color=red];" : "\"];");
            red = 0;
        }
    }
    free(all);
}

static void print_set(uint32_t set)
{
    const char *between = "";
    unsigned q;
    putchar('{');
    for (q = 0; q < TUBOCHRE_PATTERN_STATES_MOST; q++)
        if (set >> q & 1) {
            printf("%s%u", between, q);
            between = ",";
        }
    putchar('}');
}

/* The sets of a state, below its number. */
static void print_sets(const uint32_t *sets)
{
    int i;
    fputs("\\n", stdout);
    for (i = 0; i < TUBOCHRE_RECORD_WORDS; i++) {
        fputs(i > 0 ? " " : "", stdout);
        print_set(sets[i]);
    }
}

static void print_nodes(const uint16_t *words, const uint32_t *sets)
{
    uint32_t q;
    for (q = 0; q < words[0]; q++) {
        const unsigned flags = words[flags_word(q)];
        printf("    s%" PRIu32 " [label=\"%" PRIu32, q, q);
        if (sets != NULL)
            print_sets(sets + tubochre_sets_words(q));
        printf("\"%s];\n", flags & ACCEPTING_FLAG ? ", peripheries=2" : "");
        if (flags & INITIAL_FLAG)
            printf("    i%" PRIu32 " [shape=none, label=\"\"];\n    i%" PRIu32 " -> s%" PRIu32 ";\n", q, q, q);
    }
}

void print_pattern_graph(const uint16_t *words, const struct tubochre_place *fork)
{
    puts("digraph pattern {\n    rankdir=LR;\n    node [shape=circle];");
    print_nodes(words, NULL);
    print_arrows(words, fork);
    puts("}");
}

void print_complement_graph(const struct complement *c)
{
    puts("digraph complement {\n    rankdir=LR;\n    node [shape=ellipse];");
    puts("    label=\"below each number its sets N C S B\";");
    print_nodes(c->words, c->sets);
    print_arrows(c->words, NULL);
    puts("}");
}
