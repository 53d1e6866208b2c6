/* What the programs share: exit statuses, messages, memory, and the end of the output. */
#ifndef COMMON_H
#define COMMON_H

#include <stddef.h>
#include <stdio.h>

/* Exit statuses: all was answered; something was refused; wrong use, a lasso that cannot be read, or a file, memory or
 * output that failed. */
enum { FINE = 0, REFUSED = 1, TROUBLE = 2 };

/* The name that messages begin with; each program's main file defines it. */
extern const char program_name[];

/* Prints a word of the command line whole, on one line: a control character, and a byte that is no text, as \x and two
 * digits for each byte; no byte as ''. */
void print_word(FILE *out, const char *word);

/* Prints "program: what: why" on standard error and ends the program with status 2. What is printed as a word. */
_Noreturn void trouble(const char *what, const char *why);

/* Memory for so many things of a size, or trouble with what it was for. The caller frees it. */
void *memory(size_t count, size_t size, const char *what_for);

/* The same memory for so many things instead, with what it held; NULL is none yet. */
void *more_memory(void *old, size_t count, size_t size, const char *what_for);

/* Ends the output: the status, or 2 where not all of it could be written, on standard output or on standard error. */
int finish(int status);

#endif
