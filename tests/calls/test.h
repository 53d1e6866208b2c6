/* What the tests of the C calls share: the five calls made on fenced memory. */
#ifndef TEST_H
#define TEST_H

#include "expect.h"
#include "tubochre.h"

#include <stddef.h>
#include <stdint.h>

/* Each call is made twice, with its buffers right behind an unreadable page and right before one, and with other
 * garbage in the buffers that it writes. The answers and all that was written must agree. Buffers that are only read
 * are write-protected. */

/* Also expects that the place is (0, 0) unless it is refused by 10. */
struct tubochre_checked lent_check(const uint16_t *table, size_t len);

int same_place(struct tubochre_place a, struct tubochre_place b);

struct built {
    struct tubochre_counts counts;
    size_t words_len, sets_len;
    uint16_t *words;
    uint32_t *sets;
};

/* Also expects that all is zero after a refusal, and all beyond the used part otherwise; and of the place as above. */
struct built lent_build(const uint16_t *table, size_t len, size_t words_len, size_t sets_len);
void built_free(struct built *b);

struct lasso {
    const uint8_t *prefix;
    size_t prefix_len;
    const uint8_t *loop;
    size_t loop_len;
};

/* Also expects that all work words are zero, and that a refusal is not an answer. */
struct tubochre_decision lent_lasso(const uint16_t *table, size_t len, struct lasso l, size_t work_len);

/* With as many work words as it needs: 1 taken, 0 not taken, and the number plus 100 where it is refused. */
uint32_t decide(const uint16_t *table, size_t len, struct lasso l);

/* What a tray is tried with: table, list, and how many bytes and work words are lent. */
struct tray {
    const uint16_t *table;
    size_t table_len;
    const uint16_t *list;
    size_t list_len, bytes, work_len;
};

struct tried {
    struct tubochre_written written;
    size_t bytes;
    uint8_t *byte;
};

/* Also expects what holds of every tray: all work words are zero; the count is that of the bytes where it is accepted,
 * and 0 otherwise; the bytes are zero after 17 and 18, its number after any other refusal, and otherwise 0, 1 or 13 to
 * 16 each. */
struct tried lent_tray(struct tray t);

/* The same where the list is a part of the table's own words. */
struct tried lent_tray_inside(struct tray t);
void tried_free(struct tried *t);

/* What a merge is tried with: two tables, and how many words are lent. */
struct merge {
    const uint16_t *first;
    size_t first_len;
    const uint16_t *second;
    size_t second_len, words_len;
};

struct merged {
    struct tubochre_written written;
    size_t words_len;
    uint16_t *words;
};

/* Also expects what holds of every merge: the count is that of its states and records where it is accepted, and 0
 * otherwise; all words beyond the count are zero. */
struct merged lent_merge(struct merge m);

/* The same where the second table lies among the first's own words, or is all of them. */
struct merged lent_merge_inside(struct merge m);
void merged_free(struct merged *m);

#endif
