#include "arguments.h"

#include <errno.h>
#include <stdio.h>
#include <stdlib.h>
#include <string.h>

void wrong_use(const char *what, const char *usage)
{
    fprintf(stderr, "wrong use: %s\n%s", what, usage);
    exit(2);
}

uint64_t argument_number(const char *text, const char *usage)
{
    char *end;
    uint64_t number;
    errno = 0;
    number = strtoull(text, &end, 10);
    if (text[0] < '0' || text[0] > '9' || *end != '\0' || errno != 0)
        wrong_use(text, usage);
    return number;
}

static const struct argument *find(const char *name, const struct argument *known, size_t count)
{
    size_t i;
    for (i = 0; i < count; i++)
        if (strcmp(name, known[i].name) == 0)
            return &known[i];
    return NULL;
}

int read_arguments(int argc, char **argv, const struct argument *known, size_t count, const char *usage)
{
    int i, words = 0;
    for (i = 1; i < argc; i++) {
        const struct argument *const option = find(argv[i], known, count);
        if (option == NULL && argv[i][0] == '-')
            wrong_use(argv[i], usage);
        if (option == NULL)
            argv[++words] = argv[i];
        else if (option->number == NULL)
            *option->flag = 1;
        else if (i + 1 == argc)
            wrong_use(argv[i], usage);
        else
            *option->number = argument_number(argv[++i], usage);
    }
    return words;
}
