/* NULL for a buffer without elements: every call, with each choice of its buffers empty, answers and leaves the same as
 * with a pointer that is not null. The proofs speak of slices and not of pointers, so only a test can show this of the
 * archives. */
#include "test.h"

#include <string.h>

enum { WORDS = 40, SETS = 4 * TUBOCHRE_RECORD_WORDS, WORK = 64, RECORDS = 3, LASSOS = 2 };

static const uint16_t pattern[] = {2, 2, 4, 1, 1, 2, 4, 0, 0, 2, 1, 0, 3, 0, 1, 0, 0, 1, 0};
static const uint16_t forking[] = {2, 1, 2, 1, 0, 2, 1, 0, 0, 2, 0, 1, 0};
static const uint8_t letters[] = {0, 1};
static const uint16_t list[] = {0, 1, 0, 1, 2, 0, 0, 1};

/* All that the calls write. */
struct written {
    uint16_t words[WORDS];
    uint32_t sets[SETS], work[WORK];
    struct tubochre_quadruple records[RECORDS];
    uint8_t bytes[LASSOS];
    uint32_t answer[5];
};

/* A buffer that is lent: whole, or empty, and then by its own pointer or by NULL. */
#define LENT(buffer, empty, null) \
    ((empty) && (null) ? NULL : (buffer)), ((empty) ? 0 : sizeof(buffer) / sizeof(buffer)[0])

/* The table that is asked about, likewise. */
static const uint16_t *table;
static size_t table_len;

#define TABLE(empty, null) ((empty) && (null) ? NULL : table), ((empty) ? 0 : table_len)

#define ASK_ABOUT(words) (table = (words), table_len = sizeof(words) / sizeof(words)[0])

static struct written before(void)
{
    struct written w;
    memset(&w, 0xa5, sizeof w);
    return w;
}

static struct written check(unsigned empty, int null)
{
    struct written w = before();
    const struct tubochre_checked checked = tubochre_check(TABLE(empty & 1, null));
    w.answer[0] = checked.number;
    w.answer[1] = checked.place.state;
    w.answer[2] = checked.place.letter;
    return w;
}

static struct written build(unsigned empty, int null)
{
    struct written w = before();
    const struct tubochre_counts counts = tubochre_build(TABLE(empty & 1, null), LENT(w.words, empty & 2, null),
                                                         LENT(w.sets, empty & 4, null));
    w.answer[0] = counts.number;
    w.answer[1] = counts.states;
    w.answer[2] = counts.edges;
    w.answer[3] = counts.place.state;
    w.answer[4] = counts.place.letter;
    return w;
}

static struct written lasso(unsigned empty, int null)
{
    struct written w = before();
    const struct tubochre_decision d = tubochre_lasso(TABLE(empty & 1, null), LENT(letters, empty & 2, null),
                                                      LENT(letters, empty & 4, null), LENT(w.work, empty & 8, null));
    w.answer[0] = d.number;
    w.answer[1] = d.taken;
    return w;
}

static struct written tray(unsigned empty, int null)
{
    struct written w = before();
    const struct tubochre_written written =
        tubochre_tray(TABLE(empty & 1, null), LENT(list, empty & 2, null), LENT(w.bytes, empty & 4, null),
                      LENT(w.work, empty & 8, null));
    w.answer[0] = written.number;
    w.answer[1] = (uint32_t)written.count;
    return w;
}

/* The table with itself: both are the same memory, or one is empty. */
static struct written merge(unsigned empty, int null)
{
    struct written w = before();
    const struct tubochre_written written =
        tubochre_merge(TABLE(empty & 1, null), TABLE(empty & 2, null), LENT(w.words, empty & 4, null));
    w.answer[0] = written.number;
    w.answer[1] = (uint32_t)written.count;
    return w;
}

static struct written records(unsigned empty, int null)
{
    static const uint32_t sets[] = {1, 0, 0, 0, 1, 2, 0, 2};
    struct written w = before();
    tubochre_records(LENT(w.records, empty & 1, null), LENT(sets, empty & 2, null));
    return w;
}

/* Each choice of so many buffers is made empty; the first answer of each is what the rules say. */
static void try_call(const char *name, struct written (*call)(unsigned, int), unsigned buffers, const uint32_t *numbers)
{
    unsigned empty;
    for (empty = 0; empty < 1U << buffers; empty++) {
        const struct written by_pointer = call(empty, 0), by_null = call(empty, 1);
        expect(memcmp(&by_pointer, &by_null, sizeof by_null) == 0, "%s, empty buffers %u: NULL is as any pointer", name,
               empty);
        expect(by_null.answer[0] == numbers[empty], "%s, empty buffers %u: the answer", name, empty);
    }
}

int main(void)
{
    static const uint32_t by_check[] = {0, 2};
    static const uint32_t by_build[] = {0, 2, 12, 2, 11, 2, 11, 2};
    static const uint32_t by_lasso[] = {0, 2, 0, 2, 13, 2, 13, 2, 16, 2, 16, 2, 13, 2, 13, 2};
    static const uint32_t by_tray[] = {0, 2, 18, 18, 18, 18, 0, 2, 0, 2, 18, 18, 18, 18, 0, 2};
    static const uint32_t by_merge[] = {0, 2, 2, 2, 22, 2, 2, 2};
    static const uint32_t fork_by_check[] = {10, 2}, fork_by_build[] = {10, 2, 10, 2, 10, 2, 10, 2};
    static const uint32_t by_records[] = {0xa5a5a5a5, 0xa5a5a5a5, 0xa5a5a5a5, 0xa5a5a5a5}; /* it answers nothing */
    ASK_ABOUT(pattern);
    try_call("check", check, 1, by_check);
    try_call("build", build, 3, by_build);
    try_call("lasso", lasso, 4, by_lasso);
    try_call("tray", tray, 4, by_tray);
    try_call("merge", merge, 3, by_merge);
    ASK_ABOUT(forking);
    try_call("check of a fork", check, 1, fork_by_check);
    try_call("build of a fork", build, 3, fork_by_build);
    try_call("merge of a fork", merge, 3, fork_by_build);
    try_call("records", records, 2, by_records);
    section("NULL for each buffer without elements");
    return summary("test_null");
}
