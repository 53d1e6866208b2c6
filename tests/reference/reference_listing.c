/* The text that the listing program prints. */
#include "reference.h"
#include "reference_parts.h"
#include "room.h"

#include <stdarg.h>
#include <stdio.h>
#include <stdlib.h>

enum { NUMBERS_MOST = 12355, LISTING_WORDS = 16384, LISTING_SETS = RECORD_WORDS * 1024 };

struct page {
    char *text;
    size_t len, room;
};

static void print(struct page *page, const char *format, ...)
{
    va_list words;
    if (page->room - page->len < 100) {
        page->room = 2 * page->room + 100;
        page->text = room_grown(page->text, page->room, 1);
    }
    va_start(words, format);
    page->len += (size_t)vsnprintf(page->text + page->len, 100, format, words);
    va_end(words);
}

static bool divides(char c)
{
    return c == ' ' || c == '\n';
}

/* A decimal number of 0 to 65,535 with any number of leading zeros, or −1. */
static long number_in(const char *from, const char *to)
{
    long value = 0;
    while (from < to && *from == '0')
        from++;
    if (to - from > 5)
        return -1;
    for (; from < to; from++) {
        if (*from < '0' || *from > '9')
            return -1;
        value = 10 * value + (*from - '0');
    }
    return value > 65535 ? -1 : value;
}

/* The words of a text, or false for refusal 1. There is room for one number more than is allowed. */
static bool read_words(const char *text, size_t len, uint16_t *words, size_t *count)
{
    const char *at = text, *const end = text + len;
    *count = 0;
    while (at < end) {
        const char *from;
        long number;
        if (divides(*at)) {
            at++;
            continue;
        }
        for (from = at; at < end && !divides(*at); at++)
            ;
        number = number_in(from, at);
        if (number < 0 || *count == NUMBERS_MOST)
            return false;
        words[(*count)++] = (uint16_t)number;
    }
    return true;
}

static void print_complement(struct page *page, const struct reference_complement *x)
{
    uint32_t i;
    print(page, "states %u edges %u\n", (unsigned)x->states, (unsigned)x->edges);
    for (i = 0; i < x->states; i++) {
        const struct quadruple *const q = &x->state[i].quadruple;
        print(page, "%u %lu %lu %lu %lu %u\n", (unsigned)i, (unsigned long)q->n, (unsigned long)q->c,
              (unsigned long)q->s, (unsigned long)q->b, (i < x->initials ? 1U : 0U) + (q->b == 0 ? 2U : 0U));
    }
    for (i = 0; i < x->edges; i++)
        print(page, "%u %u %u\n", (unsigned)x->edge[i].source, (unsigned)x->edge[i].letter,
              (unsigned)x->edge[i].target);
}

char *reference_listing(const char *text, size_t len, size_t *printed)
{
    struct page page = {NULL, 0, 0};
    uint16_t *const table = room_for(NUMBERS_MOST + 1, sizeof *table);
    uint16_t *const words = room_for(LISTING_WORDS, sizeof *words);
    uint32_t *const sets = room_for(LISTING_SETS, sizeof *sets);
    size_t count;
    if (!read_words(text, len, table, &count)) {
        print(&page, "refused 1\n");
    } else {
        struct reference_complement *const x = reference_explore(table, count);
        const uint32_t number = reference_lay(x, words, LISTING_WORDS, sets, LISTING_SETS).number;
        if (number != 0)
            print(&page, "refused %u\n", (unsigned)number);
        else
            print_complement(&page, x);
        reference_forget(x);
    }
    free(table);
    free(words);
    free(sets);
    *printed = page.len;
    return page.text;
}
