/* A tray: the lassos of a text file, one a line, and what a table says of all of them at once.
 *
 * A line has a prefix and a loop, written as on the command line and divided by blanks: spaces, tabs, or the carriage
 * return of lines that end with CR LF. Lines without either, and those that begin with #, are skipped. */
#ifndef TRAY_H
#define TRAY_H

#include "lassos.h"
#include "text.h"

#include <stddef.h>
#include <stdint.h>

/* Where a part of a lasso begins, in the tray's text and in the file. */
struct tray_part {
    size_t text;
    struct spot at;
};

struct tray_line {
    struct tray_part prefix, loop;
};

/* The lassos as the library takes them, and as they were written: the parts one behind the other, each ended by a zero
 * byte. All of it grows with the file. */
struct tray {
    uint16_t *list;
    size_t list_len, list_room;
    struct tray_line *line;
    size_t lassos, line_room;
    char *text;
    size_t text_len, text_room;
};

/* Reads a file, or standard input for "-". A line that is no lasso is trouble, with the place of its first fault. */
struct tray read_tray(const char *name);
void free_tray(struct tray *t);

/* One of its lassos, counted from 0; the caller frees it. */
struct lasso tray_lasso(const struct tray *t, size_t i);

/* Where a letter of a part, counted from 0, stands in the file; of a part without letters where the part begins. */
struct spot letter_spot(const struct tray *t, const struct tray_part *part, size_t letter);

/* Asks the library, with as many work words as the dearest lasso needs: a byte for each lasso. The caller frees them.
 * The table is one that no call refuses. */
uint8_t *try_tray(const uint16_t *words, size_t len, const struct tray *t);

#endif
