/* The header by itself, in the part of C that is C++ too: it is compiled as both. */
#include "tubochre.h"

#include <stdio.h>
#include <string.h>

static int failed;

static void expect(int holds, const char *what)
{
    if (!holds) {
        printf("FAILED: %s\n", what);
        failed = 1;
    }
}

static void try_sentences(void)
{
    uint32_t i, j;
    for (i = 0; i <= 23; i++) {
        const char *const text = tubochre_refusal_text(i);
        expect(text != NULL && strlen(text) > 10, "each refusal has a sentence");
        for (j = 0; j < i; j++)
            expect(strcmp(text, tubochre_refusal_text(j)) != 0, "and one of its own");
    }
    expect(strcmp(tubochre_refusal_text(23), tubochre_refusal_text(UINT32_MAX)) == 0, "above 22 there is no refusal");
    expect(strcmp(tubochre_refusal_text(TUBOCHRE_LOOP_EMPTY), "the loop is empty") == 0, "13 is the empty loop");
    expect(strcmp(tubochre_refusal_text(TUBOCHRE_LIST), "the list does not end exactly at a lasso's end") == 0,
           "17 is the list's end");
    expect(strcmp(tubochre_refusal_text(TUBOCHRE_BYTES), "the answer bytes are not as many as the list's lassos") == 0,
           "18 is the number of bytes");
    expect(strcmp(tubochre_refusal_text(TUBOCHRE_MERGE_LETTERS),
                  "the two patterns have different numbers of letters") == 0,
           "19 is the number of letters of two patterns");
    expect(strcmp(tubochre_refusal_text(TUBOCHRE_MERGE_WORDS),
                  "the merged pattern needs more words than are lent") == 0,
           "22 is the room of a merge");
}

/* The numbers of the refusals that are about two patterns at once. */
static void try_merge_numbers(void)
{
    expect(TUBOCHRE_MERGE_LETTERS == 19 && TUBOCHRE_MERGE_STATES == 20, "19 and 20");
    expect(TUBOCHRE_MERGE_RECORDS == 21 && TUBOCHRE_MERGE_WORDS == 22, "21 and 22");
}

static void try_sizes(void)
{
    expect(tubochre_table_words(32, 4096) == TUBOCHRE_PATTERN_WORDS_MOST, "the largest pattern");
    expect(tubochre_table_words(65535, 65535) == TUBOCHRE_WIDE_WORDS_MOST, "the largest wide table");
    expect(tubochre_table_words(2, 4) == 19, "pattern A");
    expect(tubochre_table_words(1 + 31, 96 + 4000) == TUBOCHRE_PATTERN_WORDS_MOST, "the largest merged pattern");
    expect(tubochre_table_words(5, 7) + tubochre_table_words(6, 8) == tubochre_table_words(5 + 6, 7 + 8) + 3,
           "two patterns are three words longer than what they are made into");
    expect(tubochre_sets_words(3) == 12, "three records");
    expect(tubochre_sets_words(1) == TUBOCHRE_RECORD_WORDS, "one record");
    expect(tubochre_work_words(65535, 4096, 4096) == TUBOCHRE_WORK_WORDS_MOST, "the most work words");
    expect(tubochre_work_words(32, 4096, 4096) == 1048576, "the most work words of a pattern");
    expect(tubochre_bound(1, 1, 0) == 6, "the bound of pattern A");
    expect(tubochre_bound(2, 3, 4) == 4 * 27 * 256, "2^2 3^3 4^4");
    expect(tubochre_bound(0, 40, 0) == UINT64_C(12157665459056928801), "3^40 fits");
    expect(tubochre_bound(0, 41, 0) == UINT64_MAX, "3^41 does not");
    expect(tubochre_bound(63, 0, 0) == UINT64_C(1) << 63, "2^63 fits");
    expect(tubochre_bound(0, 0, 32) == UINT64_MAX, "4^32 does not");
    expect(tubochre_bound(UINT32_MAX, UINT32_MAX, UINT32_MAX) == UINT64_MAX, "nor does the largest");
}

/* Lassos of 0 and 1, 2 and 3, 1 and 0 letters. */
static const uint16_t list[] = {0, 1, 5, 2, 3, 5, 5, 5, 5, 5, 1, 0, 5};

enum { LIST_LEN = sizeof list / sizeof list[0], FIRST_END = 3, SECOND_END = 10 };

/* The list cut at every place: whole lassos alone count. */
static void try_cut_list(void)
{
    size_t len;
    for (len = 0; len <= LIST_LEN; len++) {
        const size_t lassos = (len >= FIRST_END) + (len >= SECOND_END) + (len >= LIST_LEN);
        const size_t work = len >= SECOND_END ? 4 * 7 * 5 : len >= FIRST_END ? 4 * 7 * 1 : 0;
        expect(tubochre_list_lassos(list, len) == lassos, "the lassos of a list that is cut");
        expect(tubochre_tray_work_words(7, list, len) == work, "the work words of a list that is cut");
        expect(tubochre_lasso_end(list, len, 0) == (len >= FIRST_END ? FIRST_END : 0), "the first lasso's end");
    }
    expect(tubochre_lasso_end(list, LIST_LEN, FIRST_END) == SECOND_END, "the second lasso's end");
    expect(tubochre_lasso_end(list, SECOND_END - 1, FIRST_END) == 0, "the second lasso is cut");
    expect(tubochre_lasso_end(list, LIST_LEN, SECOND_END) == LIST_LEN, "the third lasso's end");
    expect(tubochre_lasso_end(list, LIST_LEN, LIST_LEN) == 0, "there is no fourth lasso");
    expect(tubochre_lasso_end(list, LIST_LEN, LIST_LEN + 1) == 0, "none begins behind the list's end");
    expect(tubochre_lasso_end(list, LIST_LEN, SIZE_MAX) == 0 && tubochre_lasso_end(NULL, 0, SIZE_MAX) == 0,
           "none begins anywhere behind it");
    expect(tubochre_list_lassos(NULL, 0) == 0 && tubochre_tray_work_words(7, NULL, 0) == 0, "no words at all");
}

/* A list of one lasso with parts of these lengths. */
static size_t work_words(size_t prefix_len, size_t loop_len)
{
    static uint16_t words[2 + 2 * 65535];
    words[0] = (uint16_t)prefix_len;
    words[1] = (uint16_t)loop_len;
    expect(tubochre_list_lassos(words, tubochre_lasso_words(prefix_len, loop_len)) == 1, "a list of one lasso");
    expect(tubochre_list_lassos(words, tubochre_lasso_words(prefix_len, loop_len) - 1) == 0, "and one word fewer");
    return tubochre_tray_work_words(65535, words, tubochre_lasso_words(prefix_len, loop_len));
}

static void try_lists(void)
{
    expect(tubochre_lasso_words(0, 0) == 2 && tubochre_lasso_words(3, 5) == 10, "the words of a lasso in a list");
    try_cut_list();
    expect(work_words(0, 1) == tubochre_work_words(65535, 0, 1), "the shortest lasso");
    expect(work_words(4096, 4096) == TUBOCHRE_WORK_WORDS_MOST, "the longest lasso");
    expect(work_words(4097, 1) == 0 && work_words(1, 4097) == 0 && work_words(65535, 65535) == 0,
           "lassos that 14 refuses need no work words");
    expect(work_words(0, 0) == 0 && work_words(4096, 0) == 0, "nor do those without a loop");
}

/* The answers have no gaps but one, before a count of 64 bits. That the archives lay them out so, the tests of the
 * calls show. */
static void try_layouts(void)
{
    expect(sizeof(struct tubochre_place) == 8 && offsetof(struct tubochre_place, state) == 0 &&
               offsetof(struct tubochre_place, letter) == 4,
           "a place");
    expect(sizeof(struct tubochre_checked) == 12 && offsetof(struct tubochre_checked, number) == 0 &&
               offsetof(struct tubochre_checked, place) == 4,
           "what a check answers");
    expect(sizeof(struct tubochre_counts) == 20 && offsetof(struct tubochre_counts, number) == 0 &&
               offsetof(struct tubochre_counts, states) == 4 && offsetof(struct tubochre_counts, edges) == 8 &&
               offsetof(struct tubochre_counts, place) == 12,
           "what a build answers");
    expect(sizeof(struct tubochre_decision) == 8 && offsetof(struct tubochre_decision, number) == 0 &&
               offsetof(struct tubochre_decision, taken) == 4,
           "what a decision answers");
    expect(sizeof(struct tubochre_written) == 16 && offsetof(struct tubochre_written, number) == 0 &&
               offsetof(struct tubochre_written, count) == 8,
           "what a tray and a merge answer");
    expect(sizeof(struct tubochre_quadruple) == TUBOCHRE_RECORD_WORDS * sizeof(uint32_t), "a record");
}

static void try_version(void)
{
    char text[40];
    snprintf(text, sizeof text, "%d.%d.%d", TUBOCHRE_VERSION_MAJOR, TUBOCHRE_VERSION_MINOR, TUBOCHRE_VERSION_PATCH);
    expect(strcmp(text, TUBOCHRE_VERSION) == 0, "the version as text");
}

int main(void)
{
    try_version();
    try_sentences();
    try_merge_numbers();
    try_sizes();
    try_lists();
    try_layouts();
    puts(failed ? "test_header: FAILED" : "ok: the header\ntest_header: all expectations held");
    return failed;
}
