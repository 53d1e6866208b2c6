#include "draw.h"

#include "tubochre.h"

#include <string.h>

enum { MOST_EDGES = 4200, MOST_STATES = 64 };

/* A drawing before it is laid out as a table. */
struct sketch {
    uint32_t states, letters, count;
    uint8_t flags[MOST_STATES];
    struct drawn_edge edge[MOST_EDGES];
};

struct random random_from(uint64_t seed)
{
    struct random r = {seed};
    random_next(&r);
    return r;
}

uint64_t random_next(struct random *r)
{
    uint64_t z = (r->state += UINT64_C(0x9e3779b97f4a7c15));
    z = (z ^ (z >> 30)) * UINT64_C(0xbf58476d1ce4e5b9);
    z = (z ^ (z >> 27)) * UINT64_C(0x94d049bb133111eb);
    return z ^ (z >> 31);
}

uint32_t random_below(struct random *r, uint32_t bound)
{
    const uint64_t x = random_next(r) >> 32;
    return (uint32_t)((x * bound) >> 32);
}

uint32_t random_between(struct random *r, uint32_t low, uint32_t high)
{
    return low + random_below(r, high - low + 1);
}

int random_chance(struct random *r, uint32_t in_a_hundred)
{
    return random_below(r, 100) < in_a_hundred;
}

void draw_garbage(struct random *r, void *bytes, size_t len)
{
    unsigned char *at = bytes;
    uint64_t x = random_next(r) | UINT64_C(0x0101010101010101);
    size_t i;
    for (i = 0; i + 8 <= len; i += 8) {
        memcpy(at + i, &x, 8);
        x = x * UINT64_C(6364136223846793005) + 1;
    }
    memset(at + i, 0xa5, len - i);
}

void draw_from_edges(struct drawn_table *t, uint32_t states, uint32_t letters, const uint8_t *flags,
                     const struct drawn_edge *edges, uint32_t count)
{
    uint16_t *const records = t->words + tubochre_table_words(states, 0);
    uint32_t q, i;
    memset(t->words, 0, sizeof t->words);
    t->len = tubochre_table_words(states, count);
    t->words[0] = (uint16_t)states;
    t->words[1] = (uint16_t)letters;
    t->words[2] = (uint16_t)count;
    for (q = 0; q < states; q++)
        t->words[3 + 2 * q] = flags[q];
    /* From the last record to the first, so that each one goes before its state's chain. */
    for (i = count; i > 0; i--) {
        uint16_t *const head = &t->words[4 + 2 * edges[i - 1].source];
        uint16_t *const record = records + 3 * (i - 1);
        record[0] = edges[i - 1].letter;
        record[1] = edges[i - 1].target;
        record[2] = *head;
        *head = (uint16_t)i;
    }
}

static void add_edge(struct sketch *s, uint32_t source, uint32_t letter, uint32_t target)
{
    if (s->count < MOST_EDGES) {
        const struct drawn_edge edge = {(uint16_t)source, (uint16_t)letter, (uint16_t)target};
        s->edge[s->count++] = edge;
    }
}

/* States below `outer` fork as they like; those from it on have at most one target for a letter, among themselves. */
static void draw_edges(struct random *r, struct sketch *s, uint32_t outer, uint32_t forking, uint32_t dead)
{
    uint32_t q, c;
    for (q = 0; q < s->states; q++)
        for (c = 0; c < s->letters; c++) {
            uint32_t more;
            if (random_chance(r, dead))
                continue;
            if (q >= outer) {
                add_edge(s, q, c, random_between(r, outer, s->states - 1));
                continue;
            }
            for (more = random_between(r, 1, forking); more > 0; more--)
                add_edge(s, q, c, random_below(r, s->states));
        }
}

static void repeat_some(struct random *r, struct sketch *s, uint32_t in_a_hundred)
{
    const uint32_t count = s->count;
    uint32_t i;
    for (i = 0; i < count; i++)
        if (random_chance(r, in_a_hundred))
            add_edge(s, s->edge[i].source, s->edge[i].letter, s->edge[i].target);
}

static void shuffle(struct random *r, struct sketch *s)
{
    uint32_t i;
    for (i = s->count; i > 1; i--) {
        const uint32_t j = random_below(r, i);
        const struct drawn_edge kept = s->edge[i - 1];
        s->edge[i - 1] = s->edge[j];
        s->edge[j] = kept;
    }
}

static void draw_flags(struct random *r, struct sketch *s, uint32_t outer, uint32_t initial, uint32_t accepting)
{
    uint32_t q;
    for (q = 0; q < s->states; q++) {
        const int first = random_chance(r, initial);
        const int marked = q >= outer && random_chance(r, accepting);
        s->flags[q] = (uint8_t)((first ? 1 : 0) + (marked ? 2 : 0));
    }
}

/* Gives the states other numbers, so that the inner part does not always come last. */
static void rename_states(struct random *r, struct sketch *s)
{
    uint8_t flags[MOST_STATES];
    uint32_t name[MOST_STATES], i;
    for (i = 0; i < s->states; i++)
        name[i] = i;
    for (i = s->states; i > 1; i--) {
        const uint32_t j = random_below(r, i), kept = name[i - 1];
        name[i - 1] = name[j];
        name[j] = kept;
    }
    memcpy(flags, s->flags, sizeof flags);
    for (i = 0; i < s->states; i++)
        s->flags[name[i]] = flags[i];
    for (i = 0; i < s->count; i++) {
        s->edge[i].source = (uint16_t)name[s->edge[i].source];
        s->edge[i].target = (uint16_t)name[s->edge[i].target];
    }
}

static void lay_out(struct random *r, struct sketch *s, struct drawn_table *t)
{
    rename_states(r, s);
    if (random_chance(r, 80))
        shuffle(r, s);
    draw_from_edges(t, s->states, s->letters, s->flags, s->edge, s->count);
}

static uint32_t draw_share(struct random *r)
{
    static const uint32_t share[] = {0, 10, 30, 50, 70, 100};
    return share[random_below(r, sizeof share / sizeof share[0])];
}

/* Few edges and few initial states, so that the sets of its complement stay small though there are many states. */
static void draw_large_pattern(struct random *r, struct sketch *s)
{
    uint32_t outer, q;
    s->states = random_between(r, 7, 32);
    s->letters = random_between(r, 1, random_chance(r, 50) ? 2 : 16);
    outer = random_below(r, s->states + 1);
    draw_edges(r, s, outer, 1, random_between(r, 10, 60));
    draw_flags(r, s, outer, 0, draw_share(r));
    for (q = random_between(r, 1, 3); q > 0; q--)
        s->flags[random_below(r, s->states)] |= 1;
    repeat_some(r, s, random_chance(r, 30) ? 30 : 0);
}

static void draw_small_pattern(struct random *r, struct sketch *s)
{
    const int rich = random_chance(r, 50); /* many states and no dead ends make large complements */
    uint32_t outer, initial;
    s->states = random_between(r, rich ? 5 : 1, 6);
    s->letters = random_between(r, 1, 3);
    outer = random_below(r, rich ? 4 : s->states + 1);
    initial = random_chance(r, 4) ? 0 : random_between(r, 20, 80);
    draw_edges(r, s, outer, random_between(r, 1, 3), rich || random_chance(r, 30) ? 0 : random_between(r, 5, 60));
    draw_flags(r, s, outer, initial, random_chance(r, 5) ? 0 : random_between(r, 20, 90));
    if (initial != 0)
        s->flags[random_below(r, s->states)] |= 1;
    repeat_some(r, s, random_chance(r, 30) ? 30 : 0);
}

/* Edges anywhere: with an accepting state these often fork behind it. */
static void add_wild_edges(struct random *r, struct sketch *s)
{
    uint32_t more;
    for (more = random_between(r, 1, 3); more > 0; more--)
        add_edge(s, random_below(r, s->states), random_below(r, s->letters), random_below(r, s->states));
}

void draw_pattern(struct random *r, struct drawn_table *t)
{
    static struct sketch s;
    memset(&s, 0, sizeof s);
    if (random_chance(r, 3))
        draw_large_pattern(r, &s);
    else
        draw_small_pattern(r, &s);
    if (random_chance(r, 20))
        add_wild_edges(r, &s);
    lay_out(r, &s, t);
}

void draw_wide(struct random *r, struct drawn_table *t)
{
    static struct sketch s;
    memset(&s, 0, sizeof s);
    s.states = random_between(r, 1, random_chance(r, 80) ? 12 : 60);
    s.letters = random_between(r, 1, random_chance(r, 80) ? 3 : 16);
    draw_edges(r, &s, s.states, random_between(r, 1, 3), random_chance(r, 30) ? 0 : random_between(r, 5, 70));
    draw_flags(r, &s, 0, random_between(r, 5, 50), random_chance(r, 70) ? 15 : draw_share(r));
    repeat_some(r, &s, random_chance(r, 20) ? 30 : 0);
    lay_out(r, &s, t);
}

static void set_length(struct drawn_table *t, size_t len)
{
    if (len > DRAWN_WORDS)
        len = DRAWN_WORDS;
    if (len > t->len)
        memset(t->words + t->len, 0, (len - t->len) * sizeof t->words[0]);
    t->len = len;
}

static uint16_t odd_word(struct random *r, uint16_t old)
{
    switch (random_below(r, 5)) {
    case 0: return (uint16_t)random_below(r, 65536);
    case 1: return (uint16_t)(old + 1);
    case 2: return (uint16_t)(old - 1);
    case 3: return 0;
    default: return (uint16_t)random_below(r, 20);
    }
}

static void damage_word(struct random *r, struct drawn_table *t)
{
    if (t->len > 0) {
        const uint32_t at = random_below(r, (uint32_t)t->len);
        t->words[at] = odd_word(r, t->words[at]);
    }
}

/* A record's letter, target or next, or a state's flags or head: where the small words matter. */
static void damage_field(struct random *r, struct drawn_table *t)
{
    const uint32_t states = t->len < 3 ? 0 : t->words[0], records = t->len < 3 ? 0 : t->words[2];
    size_t at;
    if (records > 0 && random_chance(r, 70))
        at = tubochre_table_words(states, random_below(r, records)) + random_below(r, 3);
    else
        at = 3 + random_below(r, 2 * states);
    if (at < t->len)
        t->words[at] = random_chance(r, 50) ? odd_word(r, t->words[at]) : (uint16_t)random_below(r, records + 2);
}

static void swap_words(struct random *r, struct drawn_table *t)
{
    if (t->len > 0) {
        const uint32_t a = random_below(r, (uint32_t)t->len), b = random_below(r, (uint32_t)t->len);
        const uint16_t kept = t->words[a];
        t->words[a] = t->words[b];
        t->words[b] = kept;
    }
}

static void damage_counts(struct random *r, struct drawn_table *t)
{
    static const uint16_t edge_values[] = {0, 1, 16, 17, 32, 33, 255, 256, 4095, 4096, 4097, 65535};
    const uint32_t at = random_below(r, 3);
    if (t->len <= at)
        return;
    t->words[at] = edge_values[random_below(r, sizeof edge_values / sizeof edge_values[0])];
    if (t->len >= 3 && random_chance(r, 70)) /* let it come past the length */
        set_length(t, tubochre_table_words(t->words[0], t->words[2]));
}

static void damage_length(struct random *r, struct drawn_table *t)
{
    switch (random_below(r, 4)) {
    case 0: set_length(t, random_below(r, 4)); break;
    case 1: set_length(t, t->len + random_between(r, 1, 3)); break;
    case 2: set_length(t, t->len - (t->len > 0)); break;
    default: set_length(t, random_below(r, (uint32_t)t->len + 1)); break;
    }
}

void draw_damage(struct random *r, struct drawn_table *t)
{
    uint32_t times;
    for (times = random_chance(r, 70) ? 1 : random_between(r, 2, 4); times > 0; times--)
        switch (random_below(r, 8)) {
        case 0: damage_word(r, t); break;
        case 1: swap_words(r, t); break;
        case 2: damage_counts(r, t); break;
        case 3: damage_length(r, t); break;
        default: damage_field(r, t); break;
        }
}

static size_t draw_part_length(struct random *r)
{
    if (random_chance(r, 96))
        return random_below(r, 7);
    return random_chance(r, 95) ? random_below(r, 60) : random_between(r, 1000, 4096);
}

static void draw_letters(struct random *r, uint8_t *letters, size_t len, uint32_t below)
{
    size_t i;
    for (i = 0; i < len; i++)
        letters[i] = (uint8_t)random_below(r, below);
}

void draw_lasso(struct random *r, struct drawn_lasso *l, uint32_t letters)
{
    l->prefix_len = draw_part_length(r);
    l->loop_len = draw_part_length(r);
    if (l->loop_len == 0)
        l->loop_len = 1;
    draw_letters(r, l->prefix, l->prefix_len, letters);
    draw_letters(r, l->loop, l->loop_len, letters);
}

void draw_odd_lasso(struct random *r, struct drawn_lasso *l, uint32_t letters)
{
    draw_lasso(r, l, letters);
    switch (random_below(r, 5)) {
    case 0: l->loop_len = 0; break;
    case 1:
        l->loop_len = random_between(r, 4096, 4098);
        draw_letters(r, l->loop, l->loop_len, letters);
        break;
    case 2:
        l->prefix_len = random_between(r, 4096, 4098);
        draw_letters(r, l->prefix, l->prefix_len, letters);
        if (random_chance(r, 20)) /* two faults at once: the first test that fails decides */
            l->loop_len = 0;
        break;
    case 3: l->loop[random_below(r, (uint32_t)l->loop_len)] = (uint8_t)random_between(r, letters, letters + 1); break;
    default:
        if (l->prefix_len > 0)
            l->prefix[random_below(r, (uint32_t)l->prefix_len)] = (uint8_t)random_between(r, letters, 255);
        if (random_chance(r, 20))
            l->loop_len = 0;
        break;
    }
}

/* ---- Lists. */

static void add_lasso(struct drawn_list *l, const struct drawn_lasso *lasso)
{
    uint16_t *const words = l->words + l->len;
    size_t i;
    words[0] = (uint16_t)lasso->prefix_len;
    words[1] = (uint16_t)lasso->loop_len;
    for (i = 0; i < lasso->prefix_len; i++)
        words[2 + i] = lasso->prefix[i];
    for (i = 0; i < lasso->loop_len; i++)
        words[2 + lasso->prefix_len + i] = lasso->loop[i];
    l->len += tubochre_lasso_words(lasso->prefix_len, lasso->loop_len);
}

/* Makes a letter of the last lasso, which begins at a word, one that is above 255: mostly with the same low byte. */
static void widen_letter(struct random *r, struct drawn_list *l, size_t from)
{
    const uint32_t letters = (uint32_t)(l->len - from - 2);
    uint16_t *const letter = &l->words[from + 2 + random_below(r, letters)];
    if (letters > 0)
        *letter = random_chance(r, 10) ? 65535 : (uint16_t)(*letter + 256 * random_between(r, 1, 255));
}

/* A lasso of the largest lengths that a list can hold, or any. Its letters are in no table, which is seen only where
 * both lengths happen to be small. */
static void add_huge_lasso(struct random *r, struct drawn_list *l)
{
    const size_t prefix_len = random_chance(r, 50) ? 65535 : random_between(r, 0, 65535);
    const size_t loop_len = random_chance(r, 50) ? 65535 : random_chance(r, 20) ? 0 : random_between(r, 0, 65535);
    size_t i;
    l->words[l->len] = (uint16_t)prefix_len;
    l->words[l->len + 1] = (uint16_t)loop_len;
    for (i = 0; i < prefix_len + loop_len; i++)
        l->words[l->len + 2 + i] = 777;
    l->len += tubochre_lasso_words(prefix_len, loop_len);
}

void draw_list(struct random *r, struct drawn_list *l, uint32_t letters)
{
    static struct drawn_lasso lasso;
    uint32_t lassos = random_chance(r, 5) ? 0 : random_between(r, 1, 6);
    l->len = 0;
    if (random_below(r, 400) == 0)
        add_huge_lasso(r, l);
    for (; lassos > 0; lassos--) {
        const size_t from = l->len;
        if (random_chance(r, 85))
            draw_lasso(r, &lasso, letters);
        else
            draw_odd_lasso(r, &lasso, letters);
        add_lasso(l, &lasso);
        if (random_chance(r, 8))
            widen_letter(r, l, from);
    }
}

/* The length words of a lasso become others: most often of the first, otherwise of the second, if there is one. */
static void damage_lengths(struct random *r, struct drawn_list *l)
{
    const size_t second = tubochre_lasso_end(l->words, l->len, 0);
    const size_t at = second < l->len && random_chance(r, 40) ? second : 0;
    uint32_t i;
    for (i = random_below(r, 2); i < 2 && at + i < l->len; i++)
        l->words[at + i] = random_chance(r, 50) ? 65535 : odd_word(r, l->words[at + i]);
}

static void fill_list(struct random *r, struct drawn_list *l)
{
    const uint32_t below = random_chance(r, 50) ? 4 : 65536;
    size_t i;
    l->len = random_below(r, 40);
    for (i = 0; i < l->len; i++)
        l->words[i] = (uint16_t)random_below(r, below);
}

void draw_list_damage(struct random *r, struct drawn_list *l)
{
    switch (random_below(r, 5)) {
    case 0: l->len = random_below(r, (uint32_t)l->len + 1); break;
    case 1: l->len -= l->len > 0; break;
    case 2: l->words[l->len++] = (uint16_t)random_below(r, random_chance(r, 50) ? 3 : 65536); break;
    case 3: damage_lengths(r, l); break;
    default: fill_list(r, l); break;
    }
}
