#include "lassos.h"

#include "common.h"
#include "progress.h"

#include <stdio.h>
#include <stdlib.h>
#include <string.h>

/* ---- Reading. */

static const char form_of_a_part[] = "a part is digits, numbers divided by commas, or - for none";

/* One letter for each digit. */
static struct part_fault read_digits(const char *text, struct letters *l)
{
    const char *at;
    for (at = text; *at != '\0'; at++) {
        if (*at < '0' || *at > '9')
            return (struct part_fault){(size_t)(at - text), form_of_a_part};
        l->letter[l->len++] = (uint16_t)(*at - '0');
    }
    return (struct part_fault){0, NULL};
}

/* One letter for each number; the last may have a comma behind it. */
static struct part_fault read_numbers(const char *text, struct letters *l)
{
    const char *at = text;
    while (*at != '\0') {
        const char *const start = at;
        unsigned value = 0;
        for (; *at >= '0' && *at <= '9' && value <= UINT16_MAX; at++)
            value = 10 * value + (unsigned)(*at - '0');
        if (value > UINT16_MAX)
            return (struct part_fault){(size_t)(start - text), "a letter is a number from 0 to 65535"};
        if (at == start || (*at != '\0' && *at != ','))
            return (struct part_fault){(size_t)(at - text), form_of_a_part};
        l->letter[l->len++] = (uint16_t)value;
        at += *at == ',';
    }
    return (struct part_fault){0, NULL};
}

struct letters read_letters(const char *text, struct part_fault *fault)
{
    struct letters l = {memory(strlen(text), sizeof *l.letter, "a lasso"), 0};
    *fault = (struct part_fault){0, NULL};
    if (strcmp(text, "-") == 0)
        return l;
    *fault = strchr(text, ',') == NULL ? read_digits(text, &l) : read_numbers(text, &l);
    if (fault->why != NULL) {
        free(l.letter);
        l = (struct letters){NULL, 0};
    }
    return l;
}

/* Reads the part of a lasso that has this name. */
static struct letters read_part(const char *lasso_name, const char *name, const char *text)
{
    struct part_fault fault;
    const struct letters l = read_letters(text, &fault);
    const size_t room = strlen(lasso_name) + 60;
    char *what;
    if (fault.why == NULL)
        return l;
    what = memory(room, 1, "a message");
    snprintf(what, room, "%s, byte %zu of its %s", lasso_name, fault.byte + 1, name);
    trouble(what, fault.why);
}

struct lasso read_lasso(size_t number, const char *prefix, const char *loop)
{
    const size_t room = strlen(prefix) + strlen(loop) + 40;
    struct lasso l;
    l.name = memory(room, 1, "a lasso");
    snprintf(l.name, room, "lasso %zu (%s %s)", number, prefix, loop);
    l.prefix = read_part(l.name, "prefix", prefix);
    l.loop = read_part(l.name, "loop", loop);
    return l;
}

void free_lasso(struct lasso *l)
{
    free(l->name);
    free(l->prefix.letter);
    free(l->loop.letter);
}

/* On the command line no text stands for no letters too. */
static const char *part_of(const char *argument)
{
    return argument[0] == '\0' ? "-" : argument;
}

struct lasso *read_lassos(size_t count, char **arguments)
{
    struct lasso *const all = memory(count, sizeof *all, "the lassos");
    size_t i;
    for (i = 0; i < count; i++)
        all[i] = read_lasso(i + 1, part_of(arguments[2 * i]), part_of(arguments[2 * i + 1]));
    return all;
}

void free_lassos(struct lasso *all, size_t count)
{
    size_t i;
    for (i = 0; i < count; i++)
        free_lasso(&all[i]);
    free(all);
}

/* ---- Deciding. */

/* Enough work words, so that 16 never comes; none for a lasso that 13 or 14 refuses before any are counted. */
static size_t work_words(const uint16_t *words, const struct lasso *l)
{
    if (l->loop.len == 0 || l->prefix.len > TUBOCHRE_LASSO_PART_MOST || l->loop.len > TUBOCHRE_LASSO_PART_MOST)
        return 0;
    return tubochre_work_words(words[0], l->prefix.len, l->loop.len);
}

/* A part as the call takes it, a byte for each letter. One above 255 becomes 255: both are letters of k or more on
 * every table, so the answer is the same. The caller frees the bytes. */
static uint8_t *narrowed(const struct letters *l)
{
    uint8_t *const bytes = memory(l->len, sizeof *bytes, "a lasso");
    size_t i;
    for (i = 0; i < l->len; i++)
        bytes[i] = (uint8_t)(l->letter[i] > UINT8_MAX ? UINT8_MAX : l->letter[i]);
    return bytes;
}

struct tubochre_decision decide(const uint16_t *words, size_t len, const struct lasso *l)
{
    const size_t work_len = work_words(words, l);
    uint32_t *const work = memory(work_len, sizeof *work, "a lasso's work words");
    uint8_t *const prefix = narrowed(&l->prefix), *const loop = narrowed(&l->loop);
    struct tubochre_decision d;
    progress_begin("deciding a lasso");
    d = tubochre_lasso(words, len, prefix, l->prefix.len, loop, l->loop.len, work, work_len);
    progress_end();
    free(work);
    free(prefix);
    free(loop);
    return d;
}
