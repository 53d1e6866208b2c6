/* The command line of the test programs. */
#ifndef ARGUMENTS_H
#define ARGUMENTS_H

#include <stddef.h>
#include <stdint.h>

/* An option: with a number behind it, or, where there is no place for one, a flag that becomes 1. */
struct argument {
    const char *name;
    uint64_t *number;
    int *flag;
};

/* Reads the options, wherever they stand, and moves all other words to the front of argv, from 1 on. It answers how
 * many these are. Wrong use prints the usage on standard error and ends the program with status 2. */
int read_arguments(int argc, char **argv, const struct argument *known, size_t count, const char *usage);

/* A decimal number, or wrong use. */
uint64_t argument_number(const char *text, const char *usage);

/* Says what is wrong, prints the usage, and ends the program with status 2. */
void wrong_use(const char *what, const char *usage);

#endif
