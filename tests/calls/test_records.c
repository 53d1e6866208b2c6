/* The records of a build as a run of structs, in every room; each buffer between unreadable pages. */
#include "fence.h"
#include "test.h"

#include <string.h>

static const uint16_t pattern_b[] = {2, 2, 4, 1, 1, 2, 3, 0, 0, 2, 1, 1, 0, 0, 0, 4, 1, 1, 0};
static const struct tubochre_quadruple states_b[] = {{0, 1, 0, 1}, {0, 0, 1, 0}, {0, 2, 0, 2}};

/* The records filled from the first `words` sets words of B's complement. */
static void try_fill(const struct built *b, size_t words, size_t records, enum fence_side side)
{
    const struct fence sets_fence = fence_make(words * sizeof *b->sets);
    const struct fence records_fence = fence_make(records * sizeof states_b[0]);
    uint32_t *const sets = fence_place(&sets_fence, words * sizeof *sets, side);
    struct tubochre_quadruple *const lent = fence_place(&records_fence, records * sizeof *lent, side);
    const struct tubochre_quadruple none = {0, 0, 0, 0};
    size_t i;
    memcpy(sets, b->sets, words * sizeof *sets);
    fence_only_read(&sets_fence);
    memset(lent, 0xa5, records * sizeof *lent);
    tubochre_records(lent, records, sets, words);
    for (i = 0; i < records; i++) {
        const struct tubochre_quadruple *const want =
            i < words / TUBOCHRE_RECORD_WORDS && i < 3 ? &states_b[i] : &none;
        expect(memcmp(&lent[i], want, sizeof none) == 0, "record %zu of %zu, from %zu words", i, records, words);
    }
    fence_free(sets_fence);
    fence_free(records_fence);
}

int main(void)
{
    struct built b = lent_build(pattern_b, sizeof pattern_b / sizeof *pattern_b, 100, 20);
    size_t words, records;
    fence_watch("records");
    for (words = 0; words <= b.sets_len; words++)
        for (records = 0; records <= 8; records++) {
            try_fill(&b, words, records, FENCE_LOW);
            try_fill(&b, words, records, FENCE_HIGH);
        }
    built_free(&b);
    section("records of pattern B's complement, from every number of words into every number of records");
    return summary("test_records");
}
