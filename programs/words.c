#include "words.h"

#include <stdio.h>

enum { WORD_MOST = 65535, DIGITS_SHOWN = 20 };

static int is_digit(int byte)
{
    return byte >= '0' && byte <= '9';
}

static int divides(int byte)
{
    return byte == ' ' || byte == '\n';
}

/* ---- Faults. */

/* What is wrong with a byte that people take for one that divides or belongs to a number; NULL for any other. */
static const char *known_byte(struct cursor *c)
{
    switch (c->byte) {
    case '\t': return "a tab stands here, and only spaces and newlines divide numbers";
    case '-': return "a minus sign stands here, and a word is a number from 0 to 65535";
    case '\r':
        return goes_on(c, "\n") ? "the line ends with CR LF, and it has to end with LF alone"
                                : "a carriage return stands here, and only spaces and newlines divide numbers";
    default: return NULL;
    }
}

static void fault_here(struct cursor *c, struct fault *fault)
{
    const struct spot at = c->at;
    const char *const known = known_byte(c);
    if (known == NULL) {
        *fault = fault_of_byte(c, "digit, space or newline");
        return;
    }
    fault->at = at;
    snprintf(fault->sentence, sizeof fault->sentence, "%s", known);
}

/* ---- Words. */

/* Reads one number up to its end, or until it is too large and enough of it was read to be shown. */
static int read_number(struct cursor *c, uint16_t *word, struct fault *fault)
{
    char digits[DIGITS_SHOWN + 1];
    size_t shown = 0;
    uint32_t value = 0;
    fault->at = c->at;
    for (; is_digit(c->byte) && shown < DIGITS_SHOWN; step(c)) {
        if (value <= WORD_MOST)
            value = 10 * value + (uint32_t)(c->byte - '0');
        if (value > 0)
            digits[shown++] = (char)c->byte;
    }
    digits[shown] = '\0';
    if (value > WORD_MOST) {
        snprintf(fault->sentence, sizeof fault->sentence, "the number %s%s is above %d", digits,
                 is_digit(c->byte) ? "..." : "", WORD_MOST);
        return 0;
    }
    *word = (uint16_t)value;
    return 1;
}

/* Reads the number at the cursor, and the one byte behind it that has to divide. */
static int read_word(struct cursor *c, struct words *words, struct fault *fault)
{
    if (!is_digit(c->byte)) {
        fault_here(c, fault);
        return 0;
    }
    if (words->len == TUBOCHRE_PATTERN_WORDS_MOST) {
        fault->at = c->at;
        snprintf(fault->sentence, sizeof fault->sentence, "number %d begins here, and a pattern has at most %d",
                 TUBOCHRE_PATTERN_WORDS_MOST + 1, TUBOCHRE_PATTERN_WORDS_MOST);
        return 0;
    }
    words->at[words->len] = c->at;
    if (!read_number(c, &words->word[words->len], fault))
        return 0;
    words->len++;
    if (c->byte != EOF && !divides(c->byte)) {
        fault_here(c, fault);
        return 0;
    }
    return 1;
}

int read_words(const char *name, struct words *words, struct fault *fault)
{
    struct cursor c = open_text(name);
    int good = 1;
    words->len = 0;
    while (good && c.byte != EOF)
        if (divides(c.byte))
            step(&c);
        else
            good = read_word(&c, words, fault);
    close_text(&c);
    return good;
}
