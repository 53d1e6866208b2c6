#include "text.h"

#include "common.h"

#include <errno.h>
#include <string.h>

static void read_byte(struct cursor *c)
{
    c->byte = getc(c->file);
    if (c->byte == EOF && ferror(c->file))
        trouble(c->name, strerror(errno));
}

struct cursor open_text(const char *name)
{
    const int standard = strcmp(name, "-") == 0;
    struct cursor c = {standard ? stdin : fopen(name, "rb"), standard ? "standard input" : name, EOF, {1, 1}};
    if (c.file == NULL)
        trouble(name, strerror(errno));
    read_byte(&c);
    return c;
}

void step(struct cursor *c)
{
    if (c->byte == '\n') {
        c->at.line++;
        c->at.column = 1;
    } else {
        c->at.column++;
    }
    read_byte(c);
}

void close_text(struct cursor *c)
{
    if (c->file != stdin)
        fclose(c->file);
}

int goes_on(struct cursor *c, const char *bytes)
{
    for (; *bytes != '\0'; bytes++) {
        step(c);
        if (c->byte != (unsigned char)*bytes)
            return 0;
    }
    return 1;
}

/* What is said of a byte order mark, which only the first bytes of a text can be; NULL where there is none. */
static const char *byte_order_mark(struct cursor *c)
{
    if (c->at.line != 1 || c->at.column != 1)
        return NULL;
    switch (c->byte) {
    case 0xef: return goes_on(c, "\xbb\xbf") ? "the file begins with a byte order mark, and may not" : NULL;
    case 0xfe: return goes_on(c, "\xff") ? "the file begins with a byte order mark of UTF-16" : NULL;
    case 0xff: return goes_on(c, "\xfe") ? "the file begins with a byte order mark of UTF-16" : NULL;
    default: return NULL;
    }
}

struct fault fault_of_byte(struct cursor *c, const char *allowed)
{
    struct fault fault = {c->at, ""};
    const int byte = c->byte;
    const char *const mark = byte_order_mark(c);
    if (mark != NULL)
        snprintf(fault.sentence, sizeof fault.sentence, "%s", mark);
    else if (byte > ' ' && byte < 0x7f)
        snprintf(fault.sentence, sizeof fault.sentence, "'%c' is no %s", byte, allowed);
    else
        snprintf(fault.sentence, sizeof fault.sentence, "the byte 0x%02x is no %s", byte, allowed);
    return fault;
}
