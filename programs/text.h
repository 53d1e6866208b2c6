/* A text that is read byte by byte, with the place of each byte, and the names of bytes that may not stand there. */
#ifndef TEXT_H
#define TEXT_H

#include <stddef.h>
#include <stdio.h>

/* A place in a text: line and column from 1 on, a column being a byte. */
struct spot {
    size_t line, column;
};

/* Where reading stands: the byte there, or EOF. The name is for messages. */
struct cursor {
    FILE *file;
    const char *name;
    int byte;
    struct spot at;
};

/* Opens a file, or standard input for "-", and stands at its first byte. What cannot be opened or read is trouble. The
 * name is kept by reference. */
struct cursor open_text(const char *name);
void step(struct cursor *c);
void close_text(struct cursor *c);

/* Whether the text goes on with these bytes behind the cursor; it is read as far as they agree. */
int goes_on(struct cursor *c, const char *bytes);

/* What may not stand where it stands: its first byte, and a sentence without a full stop. */
struct fault {
    struct spot at;
    char sentence[120];
};

/* Names the byte at the cursor, which is none of what is allowed ("digit, space or newline"), or the byte order mark
 * that it begins. It may read on, so nothing is read behind it. */
struct fault fault_of_byte(struct cursor *c, const char *allowed);

#endif
