#include "refusals.h"

#include "common.h"
#include "places.h"

int say_refused(FILE *out, const char *what, uint32_t number, const struct spot *at, const char *why)
{
    print_word(out, what);
    fprintf(out, ": refused (%u)", (unsigned)number);
    if (at != NULL)
        fprintf(out, " in line %zu, column %zu", at->line, at->column);
    fprintf(out, ": %s\n", why);
    return REFUSED;
}

int pattern_refused(FILE *out, const char *what, struct tubochre_checked checked, const struct words *w)
{
    const struct place p = place_in_pattern(checked, w->word, w->len);
    return say_refused(out, what, checked.number, p.word != NO_WORD ? &w->at[p.word] : NULL, p.sentence);
}

int complement_refused(FILE *out, uint32_t number)
{
    return say_refused(out, "complement", number, NULL, place_in_complement(number).sentence);
}
