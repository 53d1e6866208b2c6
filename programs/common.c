#include "common.h"

#include <errno.h>
#include <stdint.h>
#include <stdlib.h>
#include <string.h>

/* How many bytes a character of UTF-8 has that begins with this one; 0 where none does. */
static size_t character_bytes(unsigned char first)
{
    if (first < 0x80)
        return 1;
    if (first < 0xc2 || first > 0xf4)
        return 0;
    return first < 0xe0 ? 2 : first < 0xf0 ? 3 : 4;
}

/* How many bytes the character has that begins here; 0 where none does, or one that could steer a terminal or begin a
 * new line: U+0000 to U+001F and U+007F to U+009F. */
static size_t plain_bytes(const char *word)
{
    const unsigned char *const byte = (const unsigned char *)word;
    const size_t len = character_bytes(byte[0]);
    size_t i;
    if (byte[0] < ' ' || byte[0] == 0x7f || (byte[0] == 0xc2 && byte[1] < 0xa0))
        return 0;
    for (i = 1; i < len; i++)
        if (byte[i] < 0x80 || byte[i] > 0xbf)
            return 0;
    return len;
}

void print_word(FILE *out, const char *word)
{
    if (*word == '\0')
        fputs("''", out);
    while (*word != '\0') {
        const size_t plain = plain_bytes(word);
        if (plain == 0)
            fprintf(out, "\\x%02x", (unsigned char)*word++);
        fwrite(word, 1, plain, out);
        word += plain;
    }
}

static void say_trouble(const char *what, const char *why)
{
    fprintf(stderr, "%s: ", program_name);
    print_word(stderr, what);
    fprintf(stderr, ": %s\n", why);
}

_Noreturn void trouble(const char *what, const char *why)
{
    fflush(stdout);
    say_trouble(what, why);
    exit(TROUBLE);
}

void *memory(size_t count, size_t size, const char *what_for)
{
    return more_memory(NULL, count, size, what_for);
}

void *more_memory(void *old, size_t count, size_t size, const char *what_for)
{
    const size_t some = count > 0 ? count : 1;
    void *const p = some > SIZE_MAX / size ? NULL : realloc(old, some * size);
    char why[100];
    if (p == NULL) {
        snprintf(why, sizeof why, "there is not enough memory: it takes %zu times %zu bytes", some, size);
        trouble(what_for, why);
    }
    return p;
}

int finish(int status)
{
    const int failed = ferror(stdout);
    /* EBADF behind a flush that had nothing to do: standard output was closed, and nothing was to be written there. */
    if (fflush(stdout) != 0 || (fclose(stdout) != 0 && errno != EBADF))
        say_trouble("standard output", strerror(errno));
    else if (failed)
        say_trouble("standard output", "not all of it could be written");
    else if (!ferror(stderr))
        return status;
    return TROUBLE;
}
