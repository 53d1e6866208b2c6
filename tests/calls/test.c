#include "test.h"

#include "draw.h"
#include "fence.h"
#include "room.h"

#include <stdlib.h>
#include <string.h>

/* ---- Lent memory. */

static struct random garbage = {1};

static void *copied(const struct fence *fence, const void *bytes, size_t len, enum fence_side side)
{
    void *const copy = fence_place(fence, len, side);
    if (len > 0)
        memcpy(copy, bytes, len);
    fence_only_read(fence);
    return copy;
}

static void *spoilt(const struct fence *fence, size_t len, enum fence_side side)
{
    void *const place = fence_place(fence, len, side);
    draw_garbage(&garbage, place, len);
    return place;
}

static void *kept(const void *bytes, size_t len)
{
    void *const copy = room_for(len, 1);
    memcpy(copy, bytes, len);
    return copy;
}

static int all_zero(const void *bytes, size_t len)
{
    const unsigned char *const at = bytes;
    size_t i;
    for (i = 0; i < len; i++)
        if (at[i] != 0)
            return 0;
    return 1;
}

/* ---- Places. */

int same_place(struct tubochre_place a, struct tubochre_place b)
{
    return a.state == b.state && a.letter == b.letter;
}

static void expect_only_forks_placed(uint32_t number, struct tubochre_place place)
{
    expect(number == TUBOCHRE_FORK || (place.state == 0 && place.letter == 0),
           "%u is answered with state %u and letter %u", (unsigned)number, (unsigned)place.state,
           (unsigned)place.letter);
}

/* ---- The calls. */

static struct tubochre_checked check_once(const uint16_t *table, size_t len, enum fence_side side)
{
    const struct fence fence = fence_make(len * sizeof *table);
    const struct tubochre_checked checked = tubochre_check(copied(&fence, table, len * sizeof *table, side), len);
    fence_free(fence);
    return checked;
}

struct tubochre_checked lent_check(const uint16_t *table, size_t len)
{
    struct tubochre_checked checked, again;
    fence_watch("a check");
    checked = check_once(table, len, FENCE_LOW);
    again = check_once(table, len, FENCE_HIGH);
    expect(checked.number == again.number && same_place(checked.place, again.place), "two checks of one table agree");
    expect_only_forks_placed(checked.number, checked.place);
    return checked;
}

static struct built build_once(const uint16_t *table, size_t len, size_t words_len, size_t sets_len,
                               enum fence_side side)
{
    const struct fence table_fence = fence_make(len * sizeof *table);
    const struct fence words_fence = fence_make(words_len * sizeof(uint16_t));
    const struct fence sets_fence = fence_make(sets_len * sizeof(uint32_t));
    const uint16_t *const copy = copied(&table_fence, table, len * sizeof *table, side);
    uint16_t *const words = spoilt(&words_fence, words_len * sizeof *words, side);
    uint32_t *const sets = spoilt(&sets_fence, sets_len * sizeof *sets, side);
    struct built b;
    b.counts = tubochre_build(copy, len, words, words_len, sets, sets_len);
    b.words_len = words_len;
    b.sets_len = sets_len;
    b.words = kept(words, words_len * sizeof *words);
    b.sets = kept(sets, sets_len * sizeof *sets);
    fence_free(table_fence);
    fence_free(words_fence);
    fence_free(sets_fence);
    return b;
}

static int same_built(const struct built *a, const struct built *b)
{
    return a->counts.number == b->counts.number && a->counts.states == b->counts.states &&
           a->counts.edges == b->counts.edges && same_place(a->counts.place, b->counts.place) &&
           memcmp(a->words, b->words, a->words_len * sizeof *a->words) == 0 &&
           memcmp(a->sets, b->sets, a->sets_len * sizeof *a->sets) == 0;
}

struct built lent_build(const uint16_t *table, size_t len, size_t words_len, size_t sets_len)
{
    struct built b, again;
    size_t used_words = 0, used_sets = 0;
    fence_watch("a build");
    b = build_once(table, len, words_len, sets_len, FENCE_LOW);
    again = build_once(table, len, words_len, sets_len, FENCE_HIGH);
    expect(same_built(&b, &again), "two builds in equal room agree in each word");
    expect_only_forks_placed(b.counts.number, b.counts.place);
    if (b.counts.number == TUBOCHRE_OK) {
        used_words = tubochre_table_words(b.counts.states, b.counts.edges);
        used_sets = tubochre_sets_words(b.counts.states);
    } else {
        expect(b.counts.states == 0 && b.counts.edges == 0, "both counts are zero after a refusal");
    }
    expect(used_words <= words_len && used_sets <= sets_len, "the counts are within the room");
    expect(all_zero(b.words + used_words, (words_len - used_words) * sizeof *b.words), "unused words are zero");
    expect(all_zero(b.sets + used_sets, (sets_len - used_sets) * sizeof *b.sets), "unused sets words are zero");
    built_free(&again);
    return b;
}

void built_free(struct built *b)
{
    free(b->words);
    free(b->sets);
}

static struct tubochre_decision lasso_once(const uint16_t *table, size_t len, struct lasso l, size_t work_len,
                                           enum fence_side side)
{
    const struct fence table_fence = fence_make(len * sizeof *table);
    const struct fence work_fence = fence_make(work_len * sizeof(uint32_t));
    const struct fence prefix_fence = fence_make(l.prefix_len), loop_fence = fence_make(l.loop_len);
    uint32_t *const work = spoilt(&work_fence, work_len * sizeof *work, side);
    const uint16_t *const copy = copied(&table_fence, table, len * sizeof *table, side);
    const uint8_t *const prefix = copied(&prefix_fence, l.prefix, l.prefix_len, side);
    const uint8_t *const loop = copied(&loop_fence, l.loop, l.loop_len, side);
    const struct tubochre_decision d =
        tubochre_lasso(copy, len, prefix, l.prefix_len, loop, l.loop_len, work, work_len);
    expect(all_zero(work, work_len * sizeof *work), "all work words are zero after a decision");
    fence_free(table_fence);
    fence_free(work_fence);
    fence_free(prefix_fence);
    fence_free(loop_fence);
    return d;
}

struct tubochre_decision lent_lasso(const uint16_t *table, size_t len, struct lasso l, size_t work_len)
{
    struct tubochre_decision d, again;
    fence_watch("a lasso decision");
    d = lasso_once(table, len, l, work_len, FENCE_LOW);
    again = lasso_once(table, len, l, work_len, FENCE_HIGH);
    expect(d.number == again.number && d.taken == again.taken, "two decisions of one lasso agree");
    expect(d.taken == TUBOCHRE_NOT_TAKEN || (d.number == TUBOCHRE_OK && d.taken == TUBOCHRE_TAKEN),
           "a decision says taken, not taken, or only its refusal");
    return d;
}

uint32_t decide(const uint16_t *table, size_t len, struct lasso l)
{
    const size_t work_len = len < 3 ? 0 : tubochre_work_words(table[0], l.prefix_len, l.loop_len);
    const struct tubochre_decision d = lent_lasso(table, len, l, work_len);
    return d.number == TUBOCHRE_OK ? d.taken : d.number + 100;
}

/* ---- Trays. */

/* On a table and a list that lie where they are to lie. */
static struct tried tray_once(struct tray t, enum fence_side side)
{
    const struct fence bytes_fence = fence_make(t.bytes);
    const struct fence work_fence = fence_make(t.work_len * sizeof(uint32_t));
    uint8_t *const bytes = spoilt(&bytes_fence, t.bytes, side);
    uint32_t *const work = spoilt(&work_fence, t.work_len * sizeof *work, side);
    struct tried tried;
    tried.written = tubochre_tray(t.table, t.table_len, t.list, t.list_len, bytes, t.bytes, work, t.work_len);
    tried.bytes = t.bytes;
    tried.byte = kept(bytes, t.bytes);
    expect(all_zero(work, t.work_len * sizeof *work), "all work words are zero after a tray");
    fence_free(bytes_fence);
    fence_free(work_fence);
    return tried;
}

static struct tried tray_apart(struct tray t, enum fence_side side)
{
    const struct fence table_fence = fence_make(t.table_len * sizeof *t.table);
    const struct fence list_fence = fence_make(t.list_len * sizeof *t.list);
    struct tried tried;
    t.table = copied(&table_fence, t.table, t.table_len * sizeof *t.table, side);
    t.list = copied(&list_fence, t.list, t.list_len * sizeof *t.list, side);
    tried = tray_once(t, side);
    fence_free(table_fence);
    fence_free(list_fence);
    return tried;
}

static struct tried tray_inside(struct tray t, enum fence_side side)
{
    const struct fence fence = fence_make(t.table_len * sizeof *t.table);
    const uint16_t *const copy = copied(&fence, t.table, t.table_len * sizeof *t.table, side);
    struct tried tried;
    t.list = copy + (t.list - t.table);
    t.table = copy;
    tried = tray_once(t, side);
    fence_free(fence);
    return tried;
}

static int byte_allowed(uint32_t number, uint8_t byte)
{
    if (number == TUBOCHRE_OK)
        return byte <= TUBOCHRE_TAKEN || (byte >= TUBOCHRE_LOOP_EMPTY && byte <= TUBOCHRE_WORK);
    return byte == (number == TUBOCHRE_LIST || number == TUBOCHRE_BYTES ? 0 : number);
}

static void expect_of_every_tray(const struct tried *t)
{
    const uint32_t number = t->written.number;
    size_t i;
    expect(t->written.count == (number == TUBOCHRE_OK ? t->bytes : 0), "%u comes with the count %llu for %zu bytes",
           (unsigned)number, (unsigned long long)t->written.count, t->bytes);
    for (i = 0; i < t->bytes; i++)
        if (!byte_allowed(number, t->byte[i]))
            expect(0, "%u leaves %u in byte %zu of %zu", (unsigned)number, (unsigned)t->byte[i], i, t->bytes);
}

static struct tried tray_twice(struct tray t, struct tried (*once)(struct tray, enum fence_side))
{
    struct tried tried, again;
    fence_watch("a tray");
    tried = once(t, FENCE_LOW);
    again = once(t, FENCE_HIGH);
    expect(tried.written.number == again.written.number && tried.written.count == again.written.count &&
               memcmp(tried.byte, again.byte, t.bytes) == 0,
           "two trays of the same lassos agree in each byte");
    expect_of_every_tray(&tried);
    tried_free(&again);
    return tried;
}

struct tried lent_tray(struct tray t)
{
    return tray_twice(t, tray_apart);
}

struct tried lent_tray_inside(struct tray t)
{
    return tray_twice(t, tray_inside);
}

void tried_free(struct tried *t)
{
    free(t->byte);
}

/* ---- Merges. */

/* On tables that lie where they are to lie. */
static struct merged merge_once(struct merge m, enum fence_side side)
{
    const struct fence fence = fence_make(m.words_len * sizeof(uint16_t));
    uint16_t *const words = spoilt(&fence, m.words_len * sizeof *words, side);
    struct merged merged;
    merged.written = tubochre_merge(m.first, m.first_len, m.second, m.second_len, words, m.words_len);
    merged.words_len = m.words_len;
    merged.words = kept(words, m.words_len * sizeof *words);
    fence_free(fence);
    return merged;
}

static struct merged merge_apart(struct merge m, enum fence_side side)
{
    const struct fence first_fence = fence_make(m.first_len * sizeof *m.first);
    const struct fence second_fence = fence_make(m.second_len * sizeof *m.second);
    struct merged merged;
    m.first = copied(&first_fence, m.first, m.first_len * sizeof *m.first, side);
    m.second = copied(&second_fence, m.second, m.second_len * sizeof *m.second, side);
    merged = merge_once(m, side);
    fence_free(first_fence);
    fence_free(second_fence);
    return merged;
}

static struct merged merge_inside(struct merge m, enum fence_side side)
{
    const struct fence fence = fence_make(m.first_len * sizeof *m.first);
    const uint16_t *const copy = copied(&fence, m.first, m.first_len * sizeof *m.first, side);
    struct merged merged;
    m.second = copy + (m.second - m.first);
    m.first = copy;
    merged = merge_once(m, side);
    fence_free(fence);
    return merged;
}

static void expect_of_every_merge(struct merge m, const struct merged *merged)
{
    const uint32_t number = merged->written.number;
    size_t used = 0;
    if (number == TUBOCHRE_OK)
        used = tubochre_table_words((uint32_t)m.first[0] + m.second[0], (uint32_t)m.first[2] + m.second[2]);
    expect(merged->written.count == used, "%u comes with the count %llu instead of %zu", (unsigned)number,
           (unsigned long long)merged->written.count, used);
    expect(used <= m.words_len && all_zero(merged->words + used, (m.words_len - used) * sizeof *merged->words),
           "%u leaves words behind the first %zu of %zu that are not zero", (unsigned)number, used, m.words_len);
}

static struct merged merge_twice(struct merge m, struct merged (*once)(struct merge, enum fence_side))
{
    struct merged merged, again;
    fence_watch("a merge");
    merged = once(m, FENCE_LOW);
    again = once(m, FENCE_HIGH);
    expect(merged.written.number == again.written.number && merged.written.count == again.written.count &&
               memcmp(merged.words, again.words, m.words_len * sizeof *merged.words) == 0,
           "two merges of the same tables in equal room agree in each word");
    expect_of_every_merge(m, &merged);
    merged_free(&again);
    return merged;
}

struct merged lent_merge(struct merge m)
{
    return merge_twice(m, merge_apart);
}

struct merged lent_merge_inside(struct merge m)
{
    return merge_twice(m, merge_inside);
}

void merged_free(struct merged *m)
{
    free(m->words);
}
