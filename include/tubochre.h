/* Tubochre: checks patterns of endless behaviour, makes two of them into one, builds their complements, and decides
 * lassos, singly or in trays.
 *
 * A pattern is a semi-deterministic Büchi automaton, held as a chained table of 16-bit words:
 *
 *     word 0            n, the number of states
 *     word 1            k, the number of letters, 1 to 16
 *     word 2            m, the number of records
 *     3 + 2q, 4 + 2q    flags (1 initial, 2 accepting, 3 both, 0 neither) and head of state q, 0 to n - 1
 *     then three words for each record, 1 to m: letter, target, next
 *
 * Head and next are record numbers; zero ends a state's chain. The records of a state's chain are its edges; records
 * that repeat an edge mean it once. One form has two ranges: a pattern has 1 to 32 states and 0 to 4,096 records, a
 * wide table (such as a complement) 1 to 65,535 states and 0 to 65,535 records. Every valid pattern is a valid wide
 * table. A lasso is a prefix and a loop of letters; it stands for the word that reads the prefix once and then the
 * loop for ever. RULES.md (docs, and share/doc/tubochre where installed) has all rules.
 *
 * A list holds the lassos of a tray as 16-bit words, one lasso behind the other without anything between them:
 *
 *     prefix length, loop length, the letters of the prefix, the letters of the loop
 *
 * So the two lassos "0 for ever" and "1 1, then 0 1 for ever" are the list {0, 1, 0, 2, 2, 1, 1, 0, 1}. An empty list
 * holds none.
 *
 * What the caller sees to:
 *
 *   - A buffer is a pointer and the number of its elements (not bytes), aligned as C asks for its element type (2 bytes
 *     for uint16_t, 4 for uint32_t), all of it readable, and writable where its pointer is not to const.
 *   - A buffer that is lent to be written overlaps no other buffer of the same call. Those only read may overlap.
 *   - An empty buffer (number 0) is not read or written through: its pointer may be NULL, or any other.
 *   - A buffer has fewer than 2^63 bytes, and no other thread writes any buffer of a call while it runs.
 *
 * What every call keeps to, for every content of its buffers:
 *
 *   - It returns. It reads and writes nothing outside the lent buffers, and holds no pointer after it has returned.
 *   - Tables, prefixes, loops and lists are only read. Nothing is assumed of what the written buffers hold before.
 *   - All of a written buffer is written, however much of it is used: what is lent beyond the need costs its clearing.
 *   - It has no state from call to call, no global variables, and allocates nothing, so any number of threads may call
 *     at the same time, each with written buffers of its own.
 *   - It needs less than 32 KiB of stack.
 *
 * What to lend so that room never refuses:
 *
 *   - A build: TUBOCHRE_WIDE_WORDS_MOST words and tubochre_sets_words(TUBOCHRE_WIDE_STATES_MOST) sets words, 1.7 MB in
 *     all. Then 11 and 12 tell that the complement has more than 65,535 states or edges. Where tubochre_bound is
 *     smaller, records for that many states are enough; the edges have no bound but 65,535.
 *   - A decision: tubochre_work_words(n, prefix_len, loop_len) work words, which is 4 n (prefix_len + loop_len). For
 *     the largest table and the longest lasso that is TUBOCHRE_WORK_WORDS_MOST words, 8.6 GB; a pattern needs at most
 *     1,048,576 words, 4.2 MB.
 *   - A tray: tubochre_list_lassos(list, list_len) bytes, no more and no fewer, and
 *     tubochre_tray_work_words(n, list, list_len) work words: what the longest lasso needs that 13 and 14 let pass,
 *     since all lassos use the same words in turn.
 *   - A merge: TUBOCHRE_PATTERN_WORDS_MOST words, 25 KB, or first_len + second_len words, which are three more than the
 *     merged pattern takes.
 *
 * What a call costs:
 *
 *   - A check: time that grows with the table's length.
 *   - A build: every successor is made once and looked up by going through the states found so far, so time grows with
 *     edges times states. For each letter 10,000 states take some hundredths of a second, and 57,344 states more than
 *     half a second. 11 comes as soon as there are too many states, 12 only when all states are known.
 *   - A decision: time that grows with records times (prefix_len + loop_len), at most; it may find its answer early.
 *     Then all work words are cleared, those beyond the need too, and also where it refuses.
 *   - A tray: one check of the table and one clearing of the work words for all of it, and for each lasso what its
 *     search costs. Decisions check and clear for each lasso anew, which may take longer than the searches.
 *   - A merge: one check of each table, and one pass over each.
 *
 * The calls are proved against contracts that say the same. This header, the programs that call, and the compiler's
 * back end are outside those proofs. The header is C99 and C++11; the archives are for x86-64 Linux.
 */
#ifndef TUBOCHRE_H
#define TUBOCHRE_H

#include <stddef.h>
#include <stdint.h>

/* The version of this header, of the archives and of the programs. */
#define TUBOCHRE_VERSION_MAJOR 0
#define TUBOCHRE_VERSION_MINOR 5
#define TUBOCHRE_VERSION_PATCH 0
#define TUBOCHRE_VERSION_TEXT(major, minor, patch) #major "." #minor "." #patch
#define TUBOCHRE_VERSION_OF(major, minor, patch) TUBOCHRE_VERSION_TEXT(major, minor, patch)
#define TUBOCHRE_VERSION TUBOCHRE_VERSION_OF(TUBOCHRE_VERSION_MAJOR, TUBOCHRE_VERSION_MINOR, TUBOCHRE_VERSION_PATCH)

#ifdef __cplusplus
extern "C" {
#endif

/* Why a call refuses. The tests are made in this order, each over all of the table before the next one starts, and the
 * answer is the first that fails. The check gives 2 to 10, the build 2 to 12, the lasso decision 2 to 9 (in the wide
 * range, where 5 cannot occur) and 13 to 16. A tray gives 17 and 18 first, and then 2 to 9 in the wide range; 13 to 16
 * are bytes of its lassos there and refuse no tray. A merge gives 2 to 10 for its first table, then 2 to 10 for its
 * second, then 19 to 22. Refusal 10 of the check and of the build comes with a place, that of a merge does not. */
enum tubochre_refusal {
    TUBOCHRE_OK = 0,             /* not refused */
    TUBOCHRE_TEXT = 1,           /* only programs that read text: not decimal words from 0 to 65,535, or too many */
    TUBOCHRE_SHORT = 2,          /* the table has fewer than three words */
    TUBOCHRE_STATES = 3,         /* n is outside its range */
    TUBOCHRE_LETTERS = 4,        /* k is outside 1 to 16 */
    TUBOCHRE_RECORDS = 5,        /* m is above 4,096 in a pattern */
    TUBOCHRE_LENGTH = 6,         /* the length is not 3 + 2n + 3m */
    TUBOCHRE_FLAGS = 7,          /* a flags word is above 3 */
    TUBOCHRE_RECORD = 8,         /* a record's letter is k or more, or its target is n or more */
    TUBOCHRE_CHAIN = 9,          /* a head or next is above m, a next is neither zero nor larger than its own record's
                                    number, or a record is not named exactly once among all heads and nexts */
    TUBOCHRE_FORK = 10,          /* the pattern is not semi-deterministic: it forks at the place */
    TUBOCHRE_MANY_STATES = 11,   /* the complement has more states than records are lent, or more than 65,535 */
    TUBOCHRE_MANY_EDGES = 12,    /* the complement has more than 65,535 edges, or needs more words than are lent */
    TUBOCHRE_LOOP_EMPTY = 13,    /* the loop is empty */
    TUBOCHRE_LASSO_LONG = 14,    /* the prefix or the loop is longer than 4,096 */
    TUBOCHRE_LETTER = 15,        /* a letter of the prefix or the loop is k or more */
    TUBOCHRE_WORK = 16,          /* the work words are fewer than 4 n (prefix length + loop length) */
    TUBOCHRE_LIST = 17,          /* the list does not end exactly at a lasso's end: words are missing or left over */
    TUBOCHRE_BYTES = 18,         /* the answer bytes are not as many as the list's lassos */
    TUBOCHRE_MERGE_LETTERS = 19, /* the two patterns have different numbers of letters */
    TUBOCHRE_MERGE_STATES = 20,  /* the two patterns have more than 32 states together */
    TUBOCHRE_MERGE_RECORDS = 21, /* the two patterns have more than 4,096 records together */
    TUBOCHRE_MERGE_WORDS = 22    /* the merged pattern needs more words than are lent */
};

/* The largest tables and lassos, and what a build stores for a state. */
enum tubochre_limit {
    TUBOCHRE_LETTERS_MOST = 16,
    TUBOCHRE_PATTERN_STATES_MOST = 32,
    TUBOCHRE_PATTERN_RECORDS_MOST = 4096,
    TUBOCHRE_PATTERN_WORDS_MOST = 12355, /* 3 + 2 * 32 + 3 * 4,096 */
    TUBOCHRE_WIDE_STATES_MOST = 65535,
    TUBOCHRE_WIDE_RECORDS_MOST = 65535,
    TUBOCHRE_WIDE_WORDS_MOST = 327678, /* 3 + 2 * 65,535 + 3 * 65,535 */
    TUBOCHRE_RECORD_WORDS = 4,         /* sets words for each state of a complement: N, C, S, B */
    TUBOCHRE_LASSO_PART_MOST = 4096,   /* letters of a prefix, and of a loop */
    TUBOCHRE_WORK_WORDS_MOST = 2147450880 /* 4 * 65,535 * (4,096 + 4,096): the largest table, the longest lasso */
};

/* What a lasso decision, or a byte of a tray, says of a lasso that it does not refuse: a truth value. */
enum tubochre_taken { TUBOCHRE_NOT_TAKEN = 0, TUBOCHRE_TAKEN = 1 };

/* Where a pattern forks: the smallest state, accepting or reached from an accepting one by edges, that has two targets
 * on one letter, and the smallest such letter of that state. With every number but 10, 0 among them, both are 0. With
 * 10, two zeros are state 0 and letter 0, a place like any other: only number tells. */
struct tubochre_place {
    uint32_t state, letter;
};

/* What a check answers: number 0, or the number of the refusal; and the place. */
struct tubochre_checked {
    uint32_t number;
    struct tubochre_place place;
};

/* What a build answers: number 0 and both counts, or the number of the refusal and both counts zero; and the place,
 * which is that of the check. */
struct tubochre_counts {
    uint32_t number, states, edges;
    struct tubochre_place place;
};

/* What a decision answers: number 0 and taken 1 or 0, or the number of the refusal and taken 0. Only number tells a
 * refusal; a lasso is taken if (d.number == 0 && d.taken). */
struct tubochre_decision {
    uint32_t number, taken;
};

/* What a tray and a merge answer, and every later call that writes items and is no build: number 0 and how many items
 * it wrote, or the number of the refusal and count 0. An accepted call may write no items: only number tells a
 * refusal. */
struct tubochre_written {
    uint32_t number;
    uint64_t count;
};

/* Checks a pattern: number 0 if it passes, otherwise which of 2 to 10 refuses it, and with 10 the place. */
struct tubochre_checked tubochre_check(const uint16_t *table, size_t table_len);

/* Builds the complement of a pattern, refusing by 2 to 12, and by 10 with the place.
 *
 * words  receives the complement as a wide table: 3 + 2 states + 3 edges words.
 * sets   receives a record for each state of the complement: TUBOCHRE_RECORD_WORDS words, its sets N, C, S, B of
 *        pattern states, in which state q adds 2^q. Words left over that make no full record count for no state.
 *
 * Initial states come first, by rising S; then, for each state in number order and each letter in rising order, the
 * successors by rising S; a state not met before gets the next number. Edges are numbered in that same order.
 * All of both buffers beyond the used part is zero, and after a refusal both are zero throughout. */
struct tubochre_counts tubochre_build(const uint16_t *table, size_t table_len, uint16_t *words, size_t words_len,
                                      uint32_t *sets, size_t sets_len);

/* Decides whether a wide table takes a lasso, that is, has a run over it that passes accepting states without end. It
 * refuses by 2 to 9 and 13 to 16. All work words are zero after every call, refused or not.
 *
 * Of a pattern that passes the check and the used part of its complement's words, exactly one takes each lasso over
 * the pattern's letters. */
struct tubochre_decision tubochre_lasso(const uint16_t *table, size_t table_len, const uint8_t *prefix,
                                        size_t prefix_len, const uint8_t *loop, size_t loop_len, uint32_t *work,
                                        size_t work_len);

/* Tries all lassos of a list on one wide table, and answers how many there are. The first answer byte is that of the
 * first lasso, and so on: 1 taken, 0 not taken, or which of 13 to 16 refuses it, all as a decision with the same work
 * words would say. So 16 is measured for each lasso against all work words, 13 comes before 14, and letters are looked
 * at of those lassos alone that pass both. A letter word above 255 is a letter of k or more. A lasso that is refused
 * refuses no other lasso and not the call.
 *
 * The call is refused by 17, then by 18, then by 2 to 9. After 17 and 18 all bytes are zero; after 2 to 9 each of them
 * is that number, and a tray without lassos is refused all the same. All work words are zero after every call, refused
 * or not.
 *
 * Of a pattern that passes the check and the used part of its complement's words, one says 1 and the other 0 wherever
 * neither byte is a refusal; 13, 14 and 15 they say alike, and 16 the one for which the work words are too few. */
struct tubochre_written tubochre_tray(const uint16_t *table, size_t table_len, const uint16_t *list, size_t list_len,
                                      uint8_t *answers, size_t answers_len, uint32_t *work, size_t work_len);

/* Makes two patterns into one, and answers how many words it has: 3 + 2 (n1 + n2) + 3 (m1 + m2), where the first has n1
 * states and m1 records, the second n2 and m2.
 *
 * words  receives the merged pattern. The states of the second are numbered on from those of the first, and its records
 *        likewise: its state q is n1 + q, its record r is m1 + r, and its heads and nexts that are zero stay zero. All
 *        else is as it was. All words beyond the count are zero, and after a refusal all words are.
 *
 * The merged pattern passes the check, and takes a lasso exactly if at least one of the two does. So its complement
 * takes those that neither takes. Both tables may be the same memory.
 *
 * The call is refused by 2 to 10 for the first table, then by 2 to 10 for the second, then by 19 to 22. The answer is
 * the number alone: 10 comes without a place, and 2 to 10 do not tell which of the two tables they are about. The
 * caller may ask tubochre_check about the first: where that passes, the number is about the second. */
struct tubochre_written tubochre_merge(const uint16_t *first, size_t first_len, const uint16_t *second,
                                       size_t second_len, uint16_t *words, size_t words_len);

/* One state of a complement: its four sets of pattern states, in which state q adds 2^q. They have the paper's names:
 * include this header before any macro of such a name. */
struct tubochre_quadruple {
    uint32_t N, C, S, B;
};

/* Fills records from the sets words of a build, one for each full record there. Records beyond those become zero, and
 * words beyond the last record are not read. It refuses nothing. It stands in an archive of its own, which is installed
 * as libtubochre_records.a. */
void tubochre_records(struct tubochre_quadruple *records, size_t records_len, const uint32_t *sets, size_t sets_len);

/* What a refusal number means, as a sentence without a full stop. */
static inline const char *tubochre_refusal_text(uint32_t number)
{
    static const char *const text[] = {
        "nothing is refused",
        "the input is not decimal numbers from 0 to 65535 divided by spaces and newlines, or has more than 12355",
        "the table has fewer than three words",
        "the number of states is outside its range",
        "the number of letters is not 1 to 16",
        "the pattern has more than 4096 records",
        "the table's length is not 3 + 2 * states + 3 * records",
        "a flags word is above 3",
        "a record's letter or target is out of range",
        "a chain is broken: a link is out of range or not forward, or a record is not named exactly once",
        "the pattern is not semi-deterministic: a state at or behind an accepting one has two targets on one letter",
        "the complement has more states than records are lent, or more than 65535",
        "the complement has more than 65535 edges, or its table needs more words than are lent",
        "the loop is empty",
        "the prefix or the loop is longer than 4096 letters",
        "a letter of the prefix or the loop is none of the table's letters",
        "fewer work words are lent than 4 * states * (prefix length + loop length)",
        "the list does not end exactly at a lasso's end",
        "the answer bytes are not as many as the list's lassos",
        "the two patterns have different numbers of letters",
        "the two patterns have more than 32 states together",
        "the two patterns have more than 4096 records together",
        "the merged pattern needs more words than are lent",
    };
    return number < sizeof text / sizeof text[0] ? text[number] : "there is no refusal of that number";
}

/* The words of a table of so many states and records: after an accepted build, the used part of its words; with the
 * states and records of both patterns, what a merge writes. */
static inline size_t tubochre_table_words(uint32_t states, uint32_t records)
{
    return 3 + 2 * (size_t)states + 3 * (size_t)records;
}

/* The sets words to lend for a complement of so many states. */
static inline size_t tubochre_sets_words(uint32_t states)
{
    return TUBOCHRE_RECORD_WORDS * (size_t)states;
}

/* The work words to lend for a lasso on a table of so many states (word 0 of the table). */
static inline size_t tubochre_work_words(uint32_t states, size_t prefix_len, size_t loop_len)
{
    return 4 * (size_t)states * (prefix_len + loop_len);
}

/* The words that a lasso takes in a list; each part has at most 65,535 letters there, for its length is a word. */
static inline size_t tubochre_lasso_words(size_t prefix_len, size_t loop_len)
{
    return 2 + prefix_len + loop_len;
}

/* Where the lasso ends that begins at word `at` of a list: the next one begins there, or the list ends. 0 where the
 * list ends before the lasso does, or none begins there, whatever `at` is. Any words may be the list. */
static inline size_t tubochre_lasso_end(const uint16_t *list, size_t list_len, size_t at)
{
    size_t words;
    if (at > list_len || list_len - at < 2)
        return 0;
    words = tubochre_lasso_words(list[at], list[at + 1]);
    return words <= list_len - at ? at + words : 0;
}

/* How many lassos a list holds: the answer bytes to lend. Of a list that tubochre_tray refuses by 17 those are counted
 * that are whole, up to where it is cut. */
static inline size_t tubochre_list_lassos(const uint16_t *list, size_t list_len)
{
    size_t count = 0, at;
    for (at = tubochre_lasso_end(list, list_len, 0); at != 0; at = tubochre_lasso_end(list, list_len, at))
        count++;
    return count;
}

/* The work words to lend for a tray on a table of so many states, so that 16 refuses none of the list's lassos: the
 * most that one of them needs, of those that 13 and 14 let pass. */
static inline size_t tubochre_tray_work_words(uint32_t states, const uint16_t *list, size_t list_len)
{
    size_t most = 0, at = 0, end;
    for (end = tubochre_lasso_end(list, list_len, 0); end != 0; end = tubochre_lasso_end(list, list_len, at)) {
        const size_t prefix_len = list[at], loop_len = list[at + 1];
        const size_t need = tubochre_work_words(states, prefix_len, loop_len);
        if (loop_len > 0 && prefix_len <= TUBOCHRE_LASSO_PART_MOST && loop_len <= TUBOCHRE_LASSO_PART_MOST &&
            need > most)
            most = need;
        at = end;
    }
    return most;
}

/* A bound on a complement's states, 2^p 3^a 4^r: a counts the accepting states, r the other states that they reach, and
 * p the rest. UINT64_MAX where it does not fit. Who knows only n and a may take tubochre_bound(0, a, n - a). */
static inline uint64_t tubochre_bound(uint32_t p, uint32_t a, uint32_t r)
{
    const uint64_t doublings = (uint64_t)p + 2 * (uint64_t)r;
    uint64_t bound = 1;
    uint32_t i;
    if (doublings > 63)
        return UINT64_MAX;
    bound <<= doublings;
    for (i = 0; i < a; i++) {
        if (bound > UINT64_MAX / 3)
            return UINT64_MAX;
        bound *= 3;
    }
    return bound;
}

#ifdef __cplusplus
}
#endif

#endif
