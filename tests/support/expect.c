#include "expect.h"

#include <stdarg.h>
#include <stdio.h>

static struct {
    unsigned long held, failed, failed_before;
} count;

void expect(int holds, const char *what, ...)
{
    va_list words;
    if (holds) {
        count.held++;
        return;
    }
    count.failed++;
    fputs("FAILED: ", stdout);
    va_start(words, what);
    vprintf(what, words);
    va_end(words);
    putchar('\n');
}

void section(const char *name)
{
    if (count.failed == count.failed_before)
        printf("ok: %s\n", name);
    else
        printf("FAILED: %s\n", name);
    count.failed_before = count.failed;
    fflush(stdout);
}

int summary(const char *program)
{
    printf("%s: %lu expectations held, %lu failed\n", program, count.held, count.failed);
    return count.failed == 0 ? 0 : 1;
}
