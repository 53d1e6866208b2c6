#include "merge.h"

#include "common.h"
#include "places.h"
#include "print.h"
#include "refusals.h"
#include "tubochre.h"
#include "words.h"

#include <stdio.h>
#include <stdlib.h>
#include <string.h>

/* A pattern file's words, and what messages call it: "first pattern (clamp.txt)". */
struct source {
    char *name;
    struct words words;
};

static struct source *new_source(const char *which, const char *file)
{
    const char *const shown = strcmp(file, "-") == 0 ? "standard input" : file;
    const size_t room = strlen(which) + strlen(shown) + sizeof " ()";
    struct source *const s = memory(1, sizeof *s, which);
    s->name = memory(room, 1, "a message");
    snprintf(s->name, room, "%s (%s)", which, shown);
    return s;
}

static void free_source(struct source *s)
{
    free(s->name);
    free(s);
}

static int read_source(struct source *s, const char *file)
{
    struct fault fault;
    if (read_words(file, &s->words, &fault))
        return FINE;
    return say_refused(stderr, s->name, TUBOCHRE_TEXT, &fault.at, fault.sentence);
}

static struct tubochre_checked check(const struct source *s)
{
    return tubochre_check(s->words.word, s->words.len);
}

/* A merge answers the number alone. Where it is one of a single table, the check says which table and where. */
static int merge_refused(uint32_t number, const struct source *first, const struct source *second)
{
    const struct tubochre_checked by_first = check(first), by_second = check(second);
    if (number > TUBOCHRE_FORK)
        return say_refused(stderr, "merge", number, NULL,
                           place_in_merge(number, first->words.word, second->words.word).sentence);
    if (by_first.number != TUBOCHRE_OK)
        return pattern_refused(stderr, first->name, by_first, &first->words);
    return pattern_refused(stderr, second->name, by_second, &second->words);
}

static int merge(const struct source *first, const struct source *second)
{
    uint16_t *const words = memory(TUBOCHRE_PATTERN_WORDS_MOST, sizeof *words, "the merged pattern");
    const struct tubochre_written written =
        tubochre_merge(first->words.word, first->words.len, second->words.word, second->words.len, words,
                       TUBOCHRE_PATTERN_WORDS_MOST);
    int status = FINE;
    if (written.number == TUBOCHRE_OK)
        print_words(words);
    else
        status = merge_refused(written.number, first, second);
    free(words);
    return status;
}

int merge_files(const char *first, const char *second)
{
    struct source *const a = new_source("first pattern", first), *const b = new_source("second pattern", second);
    int status = read_source(a, first);
    if (status == FINE)
        status = read_source(b, second);
    if (status == FINE)
        status = merge(a, b);
    free_source(a);
    free_source(b);
    return status;
}
