/* What the test programs expect, and how they say whether it held. */
#ifndef EXPECT_H
#define EXPECT_H

/* Notes whether something holds; where it does not, says so. `what` is a printf format. */
void expect(int holds, const char *what, ...)
#if defined(__GNUC__)
    __attribute__((format(printf, 2, 3)))
#endif
    ;

/* Prints an ok line for the expectations since the last one, if all of them held. */
void section(const char *name);

/* Prints the summary; the exit status. */
int summary(const char *program);

#endif
