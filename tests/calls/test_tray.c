/* A tray of lassos: every byte and every refusal of it, and lists cut at every place. */
#include "rings.h"
#include "room.h"
#include "test.h"

#include <stdio.h>
#include <stdlib.h>
#include <string.h>

#define LENGTH(array) (sizeof(array) / sizeof(array)[0])

enum { PART_MOST = TUBOCHRE_LASSO_PART_MOST, WORD_MOST = 65535, LIST_ROOM = 300000, BYTES_ROOM = 40 };

/* Takes the words with finitely many ones; its complement takes the others. */
static const uint16_t pattern[] = {2, 2, 4, 1, 1, 2, 4, 0, 0, 2, 1, 0, 3, 0, 1, 0, 0, 1, 0};
static const uint16_t complement[] = {2, 2, 4, 3, 1, 0, 3, 0, 1, 2, 1, 0, 0, 0, 1, 4, 1, 0, 0};

enum { PATTERN_LEN = LENGTH(pattern), STATES = 2 };

/* ---- Lists, and the bytes that are expected of them. */

/* A list that grows, where each lasso ends, what it needs, and the byte that the pattern gives it in enough room. */
struct list {
    size_t len, lassos;
    size_t end[BYTES_ROOM], need[BYTES_ROOM];
    uint8_t byte[BYTES_ROOM];
    uint16_t word[LIST_ROOM];
};

static struct list *new_list(void)
{
    struct list *const l = room_for(1, sizeof *l);
    l->len = l->lassos = 0;
    return l;
}

/* Puts a lasso of these lengths, all letters alike; where its letters begin. */
static uint16_t *put(struct list *l, size_t prefix_len, size_t loop_len, uint16_t letter, uint8_t byte)
{
    uint16_t *const letters = l->word + l->len + 2;
    size_t i;
    if (l->lassos == BYTES_ROOM || LIST_ROOM - l->len < tubochre_lasso_words(prefix_len, loop_len)) {
        fputs("test_tray: a list has no room for a lasso\n", stderr);
        exit(2);
    }
    l->word[l->len] = (uint16_t)prefix_len;
    l->word[l->len + 1] = (uint16_t)loop_len;
    for (i = 0; i < prefix_len + loop_len; i++)
        letters[i] = letter;
    l->len += tubochre_lasso_words(prefix_len, loop_len);
    l->end[l->lassos] = l->len;
    l->need[l->lassos] = byte <= TUBOCHRE_TAKEN ? tubochre_work_words(STATES, prefix_len, loop_len) : 0;
    l->byte[l->lassos++] = byte;
    return letters;
}

/* Puts a lasso whose letters are digits. */
static void put_digits(struct list *l, const char *prefix, const char *loop, uint8_t byte)
{
    const size_t prefix_len = strlen(prefix), loop_len = strlen(loop);
    uint16_t *const letters = put(l, prefix_len, loop_len, 0, byte);
    size_t i;
    for (i = 0; i < prefix_len; i++)
        letters[i] = (uint16_t)(prefix[i] - '0');
    for (i = 0; i < loop_len; i++)
        letters[prefix_len + i] = (uint16_t)(loop[i] - '0');
}

/* Lassos of every kind; no byte is that of a neighbour, and no lasso with letters has parts of the same length. */
static struct list *mixed_list(void)
{
    struct list *const l = new_list();
    put_digits(l, "", "0", 1);
    put_digits(l, "1", "", TUBOCHRE_LOOP_EMPTY);
    put_digits(l, "00", "1", 0);
    put_digits(l, "1", "00", 1);
    put_digits(l, "01", "2", TUBOCHRE_LETTER);
    put_digits(l, "1", "000", 1);
    put_digits(l, "", "0110", 0);
    put_digits(l, "", "", TUBOCHRE_LOOP_EMPTY);
    put_digits(l, "111", "00", 1);
    put_digits(l, "30", "0", TUBOCHRE_LETTER);
    put_digits(l, "0000", "10", 0);
    put_digits(l, "1101", "0", 1);
    return l;
}

/* Enough work words for every lasso of the list. */
static size_t enough(const struct list *l)
{
    return tubochre_tray_work_words(STATES, l->word, l->len);
}

static struct tried try_list(const struct list *l, size_t list_len, size_t bytes, size_t work_len)
{
    return lent_tray((struct tray){pattern, PATTERN_LEN, l->word, list_len, bytes, work_len});
}

static void expect_number(const char *name, struct tried t, uint32_t number)
{
    expect(t.written.number == number, "%s: %u instead of %u", name, (unsigned)t.written.number, (unsigned)number);
    tried_free(&t);
}

/* The first lassos of the list, as many as bytes are lent; those that need more work words than there are get 16. */
static void expect_bytes(const char *name, const struct list *l, struct tried t, size_t work_len)
{
    size_t i;
    expect(t.written.number == TUBOCHRE_OK, "%s: accepted, not %u", name, (unsigned)t.written.number);
    for (i = 0; i < t.bytes; i++) {
        const unsigned byte = l->need[i] > work_len ? TUBOCHRE_WORK : l->byte[i];
        expect(t.byte[i] == byte, "%s: byte %zu is %u instead of %u", name, i, (unsigned)t.byte[i], byte);
    }
    tried_free(&t);
}

/* ---- Bytes. */

static void try_mixed(void)
{
    struct list *const l = mixed_list();
    const size_t work = enough(l);
    struct tried by_complement;
    size_t i;
    for (i = 0; i + 1 < l->lassos; i++)
        expect(l->byte[i] != l->byte[i + 1], "bytes %zu and %zu of the mixed list differ", i, i + 1);
    expect(tubochre_list_lassos(l->word, l->len) == l->lassos, "the header counts the lassos");
    expect_bytes("every kind of lasso", l, try_list(l, l->len, l->lassos, work), work);
    by_complement = lent_tray((struct tray){complement, LENGTH(complement), l->word, l->len, l->lassos, work});
    for (i = 0; i < l->lassos; i++)
        expect(by_complement.byte[i] == (l->byte[i] <= 1 ? 1 - l->byte[i] : l->byte[i]),
               "the complement's byte %zu is the opposite, or the same refusal", i);
    tried_free(&by_complement);
    free(l);
}

/* The list that the header shows, with exactly what its helpers say is to be lent. */
static void try_example(void)
{
    static const uint16_t list[] = {0, 1, 0, 2, 2, 1, 1, 0, 1};
    const size_t bytes = tubochre_list_lassos(list, LENGTH(list));
    const size_t work = tubochre_tray_work_words(pattern[0], list, LENGTH(list));
    struct tried t = lent_tray((struct tray){pattern, PATTERN_LEN, list, LENGTH(list), bytes, work});
    expect(t.written.number == TUBOCHRE_OK && t.bytes == 2 && t.byte[0] == 1 && t.byte[1] == 0,
           "0 for ever is taken, and 1 1, then 0 1 for ever is not");
    tried_free(&t);
}

/* The only edge of the table is on one letter: every other letter ends the run. A lasso with a letter, odd or not, at a
 * place: 0 for the first letter of the prefix, 1 for its last, 2 and 3 likewise for the loop. All other letters are the
 * edge's, and the lassos beside it, in front and behind, are taken. */
static void try_letter(uint16_t letters, uint16_t edge, uint16_t letter, int place)
{
    const uint16_t table[] = {1, letters, 1, 3, 1, edge, 0, 0};
    struct list *const l = new_list();
    const size_t at[] = {0, 2, 3, 7};
    const uint8_t byte = letter >= letters ? TUBOCHRE_LETTER : letter == edge;
    char name[80];
    put(l, 0, 1, edge, 1);
    put(l, 3, 5, edge, byte)[at[place]] = letter;
    put(l, 2, 1, edge, 1);
    snprintf(name, sizeof name, "letter %u of %u at place %d, the edge on %u", (unsigned)letter, (unsigned)letters,
             place, (unsigned)edge);
    expect_bytes(name, l, lent_tray((struct tray){table, LENGTH(table), l->word, l->len, 3, enough(l)}), enough(l));
    free(l);
}

static void try_letters(void)
{
    static const uint16_t letters[] = {0,   1,   2,   14,  15,  16,   17,    254,   255,
                                       256, 257, 271, 272, 512, 4096, 32768, 65280, 65535};
    size_t i;
    int place;
    for (i = 0; i < LENGTH(letters); i++)
        for (place = 0; place < 4; place++) {
            try_letter(1, 0, letters[i], place);
            try_letter(2, 0, letters[i], place);
            try_letter(16, 0, letters[i], place);
            try_letter(16, 15, letters[i], place);
        }
}

/* Lassos of one kind each, between two others, beside what the single call says with the same work words. */
static void try_as_single(size_t prefix_len, size_t loop_len, uint8_t letter, size_t work_len)
{
    struct list *const l = new_list();
    uint8_t *const letters = room_for(prefix_len + loop_len, 1);
    const struct lasso single = {letters, prefix_len, letters, loop_len};
    struct tubochre_decision d;
    struct tried t;
    memset(letters, letter, prefix_len + loop_len);
    put(l, 0, 1, 0, 1);
    put(l, prefix_len, loop_len, letter, 0);
    put(l, 0, 1, 1, 0);
    d = lent_lasso(pattern, PATTERN_LEN, single, work_len);
    t = try_list(l, l->len, 3, work_len);
    expect(t.written.number == TUBOCHRE_OK && t.byte[1] == (d.number == TUBOCHRE_OK ? d.taken : d.number),
           "a prefix of %zu, a loop of %zu, letter %u, %zu work words: byte %u, and the single call says %u %u",
           prefix_len, loop_len, (unsigned)letter, work_len, (unsigned)t.byte[1], (unsigned)d.number,
           (unsigned)d.taken);
    expect(t.byte[0] == (work_len < 8 ? TUBOCHRE_WORK : 1) && t.byte[2] == (work_len < 8 ? TUBOCHRE_WORK : 0),
           "the lassos beside it");
    tried_free(&t);
    free(letters);
    free(l);
}

static void try_lengths(void)
{
    static const size_t lengths[] = {0, 1, 2, PART_MOST - 1, PART_MOST, PART_MOST + 1, WORD_MOST};
    static const uint8_t letters[] = {0, 1, 2, 255};
    size_t i, j, k;
    for (i = 0; i < LENGTH(lengths); i++)
        for (j = 0; j < LENGTH(lengths); j++)
            for (k = 0; k < LENGTH(letters); k++) {
                const int too_long = lengths[i] > PART_MOST || lengths[j] > PART_MOST;
                const size_t need = too_long ? 8 : tubochre_work_words(STATES, lengths[i], lengths[j]);
                try_as_single(lengths[i], lengths[j], letters[k], need);
                try_as_single(lengths[i], lengths[j], letters[k], need > 0 ? need - 1 : 0);
                try_as_single(lengths[i], lengths[j], letters[k], 0);
            }
}

/* ---- Work words: each lasso is measured against all of them. */

static void try_work_rooms(void)
{
    struct list *const l = mixed_list();
    const size_t most = enough(l);
    size_t work, i, short_of = 0;
    for (work = 0; work <= most + 9; work++) {
        char name[60];
        snprintf(name, sizeof name, "%zu work words", work);
        expect_bytes(name, l, try_list(l, l->len, l->lassos, work), work);
    }
    for (i = 0; i < l->lassos; i++)
        short_of += l->need[i] > most - 1;
    expect(short_of > 0 && short_of < l->lassos, "one work word fewer refuses some lassos and not all");
    free(l);
}

/* Lassos that need exactly what is lent, one after the other, and among them one that has a letter more. */
static void try_exact_work(void)
{
    struct list *const l = new_list();
    const size_t work = tubochre_work_words(STATES, 2, 3);
    put_digits(l, "00", "000", 1);
    put_digits(l, "00", "001", 0);
    put_digits(l, "11", "000", 1);
    put_digits(l, "00", "0001", 0);
    put_digits(l, "0000", "1", 0);
    put_digits(l, "010", "00", 1);
    expect(l->need[0] == work && l->need[5] == work && l->need[3] > work, "which lassos need more");
    expect_bytes("exactly the work words of each but one", l, try_list(l, l->len, l->lassos, work), work);
    expect_bytes("one fewer", l, try_list(l, l->len, l->lassos, work - 1), work - 1);
    free(l);
}

/* ---- 17: where a list ends. */

/* Cut at every place, and with bytes for the whole lassos before it, for one more, for all, and for none. */
static void try_cuts(void)
{
    struct list *const l = mixed_list();
    const size_t work = enough(l);
    size_t len, whole = 0;
    for (len = 0; len <= l->len; len++) {
        const int ends = len == 0 || (whole < l->lassos && len == l->end[whole]);
        char name[60];
        snprintf(name, sizeof name, "the list cut behind %zu words", len);
        if (len > 0 && ends)
            whole++;
        expect(tubochre_list_lassos(l->word, len) == whole, "%s: the header counts %zu", name, whole);
        if (ends)
            expect_bytes(name, l, try_list(l, len, whole, work), work);
        else
            expect_number(name, try_list(l, len, whole, work), TUBOCHRE_LIST);
        expect_number(name, try_list(l, len, whole + 1, work), ends ? TUBOCHRE_BYTES : TUBOCHRE_LIST);
        expect_number(name, try_list(l, len, l->lassos + 2, work), ends ? TUBOCHRE_BYTES : TUBOCHRE_LIST);
        expect_number(name, try_list(l, len, 0, 0), !ends ? TUBOCHRE_LIST : whole > 0 ? TUBOCHRE_BYTES : TUBOCHRE_OK);
    }
    expect(whole == l->lassos, "every end was met");
    free(l);
}

/* One word behind the last lasso, whatever it is: it begins a lasso, and there is none. */
static void try_left_over(void)
{
    static const uint16_t words[] = {0, 1, 2, 255, 256, 4096, WORD_MOST};
    struct list *const l = mixed_list();
    size_t i;
    for (i = 0; i < LENGTH(words); i++) {
        l->word[l->len] = words[i];
        expect_number("one word left over", try_list(l, l->len + 1, l->lassos, 40), TUBOCHRE_LIST);
        expect_number("one word left over, a byte for it", try_list(l, l->len + 1, l->lassos + 1, 40), TUBOCHRE_LIST);
        expect_number("one word alone", lent_tray((struct tray){pattern, PATTERN_LEN, &words[i], 1, 0, 40}), 17);
        expect_number("a byte for it", lent_tray((struct tray){pattern, PATTERN_LEN, &words[i], 1, 1, 0}), 17);
    }
    free(l);
}

/* The longest lasso that a list can hold, before others: all of it, and one word fewer and more. */
static void try_huge(size_t prefix_len, size_t loop_len)
{
    struct list *const l = new_list();
    const uint8_t byte = loop_len == 0 ? TUBOCHRE_LOOP_EMPTY : TUBOCHRE_LASSO_LONG;
    size_t huge, len;
    put_digits(l, "", "0", 1);
    put(l, prefix_len, loop_len, 0, byte);
    huge = l->len;
    l->word[huge] = 0;
    expect_bytes("a huge lasso", l, try_list(l, huge, 2, 8), 8);
    expect_number("a huge lasso, one word short", try_list(l, huge - 1, 2, 8), TUBOCHRE_LIST);
    expect_number("a huge lasso, one word long", try_list(l, huge + 1, 2, 8), TUBOCHRE_LIST);
    for (len = 3 + 1; len < 3 + 20; len++) {
        expect_number("a huge lasso of which little is there", try_list(l, len, 1, 8), TUBOCHRE_LIST);
        expect_number("the same, with a byte for it", try_list(l, len, 2, 8), TUBOCHRE_LIST);
    }
    put_digits(l, "", "1", 0);
    expect_bytes("a lasso behind a huge one", l, try_list(l, l->len, 3, 8), 8);
    free(l);
}

/* ---- 18, and the order of the refusals. */

static void try_bytes(void)
{
    struct list *const l = mixed_list();
    size_t bytes;
    for (bytes = 0; bytes <= 2 * l->lassos; bytes++)
        expect_number("bytes for other lassos than there are", try_list(l, l->len, bytes, enough(l)),
                      bytes == l->lassos ? TUBOCHRE_OK : TUBOCHRE_BYTES);
    free(l);
}

/* A table for each refusal that a tray can give. */
static const struct refused_table {
    uint32_t number;
    size_t len;
    uint16_t words[10];
} refused_tables[] = {
    {2, 0, {0}},
    {2, 2, {1, 1}},
    {3, 3, {0, 1, 0}},
    {4, 5, {1, 17, 0, 0, 0}},
    {6, 4, {1, 1, 0, 0}},
    {7, 5, {1, 1, 0, 4, 0}},
    {8, 8, {1, 1, 1, 3, 1, 0, 1, 0}},
    {9, 8, {1, 1, 1, 3, 1, 0, 0, 1}},
};

static void try_order(const struct refused_table *t)
{
    struct list *const l = mixed_list();
    struct tray tray = {t->words, t->len, l->word, l->len, l->lassos, 40};
    expect_number("a refused table", lent_tray(tray), t->number);
    tray.work_len = 0;
    expect_number("a refused table without work words", lent_tray(tray), t->number);
    tray.bytes = l->lassos + 1;
    expect_number("18 before a refused table", lent_tray(tray), TUBOCHRE_BYTES);
    tray.bytes = 0;
    expect_number("18 before a refused table, no bytes", lent_tray(tray), TUBOCHRE_BYTES);
    tray.list_len = l->len - 1;
    expect_number("17 before 18 and a refused table", lent_tray(tray), TUBOCHRE_LIST);
    tray.bytes = l->lassos - 1;
    expect_number("17 before a refused table", lent_tray(tray), TUBOCHRE_LIST);
    tray.list_len = 0;
    expect_number("18 of an empty list before a refused table", lent_tray(tray), TUBOCHRE_BYTES);
    tray.bytes = 0;
    expect_number("an empty list on a refused table", lent_tray(tray), t->number);
    tray.work_len = 7;
    expect_number("an empty list on a refused table, with work words", lent_tray(tray), t->number);
    free(l);
}

/* ---- The ends of what there can be. */

/* More lassos than a word can count; each third is taken, and those between are refused. */
static void try_many(size_t lassos)
{
    static const uint16_t kinds[] = {0, 1, 0, 0, 0, 0, 1, 9};
    static const uint8_t bytes[] = {1, TUBOCHRE_LOOP_EMPTY, TUBOCHRE_LETTER};
    uint16_t *const words = room_for(3 * lassos + 1, sizeof *words);
    size_t i, len = 0, wrong = 0;
    struct tried t;
    for (i = 0; i < lassos; i++) {
        const size_t from = i % 3 == 0 ? 0 : i % 3 == 1 ? 3 : 5, count = i % 3 == 1 ? 2 : 3;
        memcpy(words + len, kinds + from, count * sizeof *words);
        len += count;
    }
    t = lent_tray((struct tray){pattern, PATTERN_LEN, words, len, lassos, 8});
    for (i = 0; i < lassos; i++)
        wrong += t.byte[i] != bytes[i % 3];
    expect(t.written.number == TUBOCHRE_OK && t.written.count == lassos && wrong == 0,
           "%zu lassos: %u %llu, %zu bytes are wrong", lassos, (unsigned)t.written.number,
           (unsigned long long)t.written.count, wrong);
    tried_free(&t);
    expect_number("a byte too few", lent_tray((struct tray){pattern, PATTERN_LEN, words, len, lassos - 1, 8}), 18);
    expect_number("a byte too many", lent_tray((struct tray){pattern, PATTERN_LEN, words, len, lassos + 1, 8}), 18);
    expect_number("a word too few", lent_tray((struct tray){pattern, PATTERN_LEN, words, len - 1, lassos, 8}), 17);
    free(words);
}

/* Tables only a wide range has: many states, and more records than a pattern may have. */
static void try_wide(uint32_t states, uint32_t records)
{
    const size_t len = tubochre_table_words(states, records);
    uint16_t *const table = room_for(len, sizeof *table);
    struct list *const l = new_list();
    struct tried t;
    size_t need;
    ring_table(table, states, 2, records);
    put_digits(l, "", "0", 1);
    put_digits(l, "0", "01", 0);
    put_digits(l, "000", "00", 1);
    need = tubochre_tray_work_words(states, l->word, l->len);
    t = lent_tray((struct tray){table, len, l->word, l->len, 3, need});
    expect(t.written.number == TUBOCHRE_OK && memcmp(t.byte, l->byte, 3) == 0, "a ring of %u states, %u records",
           (unsigned)states, (unsigned)records);
    tried_free(&t);
    t = lent_tray((struct tray){table, len, l->word, l->len, 3, need - 1});
    expect(t.byte[0] == 1 && t.byte[1] == 0 && t.byte[2] == TUBOCHRE_WORK, "the same, one work word short");
    tried_free(&t);
    free(table);
    free(l);
}

/* ---- Overlap: table and list are only read. */

static void try_overlap(void)
{
    static const uint16_t both[] = {1, 2, 0, 1, 0}; /* a table without edges, and the lasso (0 10) */
    struct tried t = lent_tray_inside((struct tray){both, LENGTH(both), both, LENGTH(both), 1, 12});
    expect(t.written.number == TUBOCHRE_OK && t.byte[0] == 0, "a table that is a list too");
    tried_free(&t);
    t = lent_tray_inside((struct tray){pattern, PATTERN_LEN, pattern + 11, 8, 2, 24});
    expect(t.written.number == TUBOCHRE_OK && t.byte[0] == 0 && t.byte[1] == 1,
           "a list of (- 010) and (- 0) among the pattern's records");
    tried_free(&t);
    expect_number("the pattern's words as a list",
                  lent_tray_inside((struct tray){pattern, PATTERN_LEN, pattern, PATTERN_LEN, 3, 24}), TUBOCHRE_LIST);
}

int main(void)
{
    struct list *const none = new_list();
    size_t i;
    try_mixed();
    try_example();
    section("lassos of every kind in one tray, on pattern and complement");
    try_letters();
    section("letters below k, from k on, and above 255, at each end of both parts");
    try_lengths();
    section("each lasso as the single call answers it, with parts of 0 to 65,535 letters");
    try_work_rooms();
    try_exact_work();
    section("each lasso is measured against all work words");
    try_cuts();
    try_left_over();
    try_huge(WORD_MOST, WORD_MOST);
    try_huge(WORD_MOST, 0);
    try_huge(0, WORD_MOST);
    section("lists cut at every place, with a word left over, and huge lassos: 17");
    try_bytes();
    section("a byte too few or too many: 18");
    for (i = 0; i < LENGTH(refused_tables); i++)
        try_order(&refused_tables[i]);
    section("17 before 18 before a table's refusal, which fills each byte");
    expect_bytes("an empty list", none, try_list(none, 0, 0, 40), 40);
    expect_bytes("an empty list in no room", none, try_list(none, 0, 0, 0), 0);
    expect_number("an empty list and a byte", try_list(none, 0, 1, 40), TUBOCHRE_BYTES);
    section("the empty list");
    try_many(WORD_MOST + 1);
    try_many(100001);
    try_wide(TUBOCHRE_PATTERN_STATES_MOST + 1, TUBOCHRE_PATTERN_RECORDS_MOST + 1);
    try_wide(TUBOCHRE_WIDE_STATES_MOST, TUBOCHRE_WIDE_RECORDS_MOST);
    section("more lassos than a word can count, and the largest wide table");
    try_overlap();
    section("a list among its own table's words");
    free(none);
    return summary("test_tray");
}
