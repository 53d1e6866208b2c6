/* Pattern A takes the words with finitely many ones. Its complement is built, and asked about 0 1 0 1 0 1 … */
#include <stdio.h>
#include <tubochre.h>

static int refused(uint32_t number)
{
    printf("refused (%u): %s\n", (unsigned)number, tubochre_refusal_text(number));
    return 1;
}

int main(void)
{
    const uint16_t pattern[] = {2, 2, 4, 1, 1, 2, 4, 0, 0, 2, 1, 0, 3, 0, 1, 0, 0, 1, 0};
    const uint8_t loop[] = {0, 1};
    uint16_t words[100];
    uint32_t sets[40], work[100];
    struct tubochre_counts built = tubochre_build(pattern, 19, words, 100, sets, 40);
    if (built.number != 0)
        return refused(built.number);
    size_t used = tubochre_table_words(built.states, built.edges);
    struct tubochre_decision d = tubochre_lasso(words, used, NULL, 0, loop, 2, work, 100);
    if (d.number != 0)
        return refused(d.number);
    printf("%u states, %u edges; the lasso is %s\n", (unsigned)built.states, (unsigned)built.edges,
           d.taken ? "taken" : "not taken");
    return 0;
}
