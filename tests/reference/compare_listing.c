/* Compares what the listing program prints with the reference's rendering, on random patterns and damaged texts.
 *
 *     compare_listing PROGRAM [--seed N] [--trials N]
 *
 * Each trial has a seed of its own, one more than the last. At a difference the program shows the input, says which
 * trial it was, and ends with status 1. */
#define _GNU_SOURCE
#include "arguments.h"
#include "draw.h"
#include "reference.h"
#include "rings.h"
#include "room.h"
#include "tubochre.h"

#include <errno.h>
#include <fcntl.h>
#include <inttypes.h>
#include <signal.h>
#include <spawn.h>
#include <stdio.h>
#include <stdlib.h>
#include <string.h>
#include <sys/wait.h>
#include <unistd.h>

extern char **environ;

enum { TRIALS = 4000, MOST_NUMBERS = TUBOCHRE_PATTERN_WORDS_MOST, TEXT_ROOM = 400000 };

static const uint64_t default_seed = 20160404;

static struct {
    uint64_t listed, refused, text_refused;
} tally;

static void need(int good, const char *what)
{
    if (!good) {
        fprintf(stderr, "compare_listing: %s: %s\n", what, strerror(errno));
        exit(2);
    }
}

/* ---- Texts. */

struct text {
    size_t len;
    char bytes[TEXT_ROOM];
};

static void add_byte(struct text *t, char byte)
{
    if (t->len < TEXT_ROOM)
        t->bytes[t->len++] = byte;
}

static void add_string(struct text *t, const char *string)
{
    while (*string != '\0')
        add_byte(t, *string++);
}

static void add_number(struct text *t, uint32_t number)
{
    char digits[12];
    snprintf(digits, sizeof digits, "%" PRIu32, number);
    add_string(t, digits);
}

static void add_zeros(struct text *t, uint32_t count)
{
    while (count-- > 0)
        add_byte(t, '0');
}

/* How a text is laid out: which bytes divide, how many, and whether numbers have leading zeros. */
enum layout { ONE_LINE, LINES, LOOSE, LAYOUTS };

static void add_divider(struct random *r, struct text *t, enum layout layout)
{
    uint32_t more;
    if (layout == ONE_LINE)
        add_byte(t, ' ');
    else if (layout == LINES)
        add_byte(t, '\n');
    else
        for (more = random_between(r, 1, 4); more > 0; more--)
            add_byte(t, random_chance(r, 50) ? ' ' : '\n');
}

static void write_table(struct random *r, struct text *t, const struct drawn_table *table)
{
    const enum layout layout = (enum layout)random_below(r, LAYOUTS);
    size_t i;
    t->len = 0;
    if (layout == LOOSE && random_chance(r, 50))
        add_divider(r, t, layout);
    for (i = 0; i < table->len; i++) {
        if (i > 0)
            add_divider(r, t, layout);
        if (layout == LOOSE && random_chance(r, 10))
            add_zeros(t, random_chance(r, 90) ? random_below(r, 6) : random_below(r, 3000));
        add_number(t, table->words[i]);
    }
    if (random_chance(r, 50))
        add_divider(r, t, layout);
}

/* So many numbers in all: the table's, then zeros or what else. */
static void pad_numbers(struct random *r, struct text *t, const struct drawn_table *table, size_t count)
{
    size_t i;
    write_table(r, t, table);
    for (i = table->len; i < count; i++) {
        add_byte(t, ' ');
        add_number(t, random_chance(r, 1) ? random_below(r, 65536) : 0);
    }
}

static void replace_byte(struct random *r, struct text *t)
{
    static const char odd[] = "\t\r\v\f\0-+.,a/:90 \n\x80\xff"; /* its last byte, a zero, too */
    if (t->len > 0)
        t->bytes[random_below(r, (uint32_t)t->len)] = odd[random_below(r, sizeof odd)];
}

static void append_number(struct random *r, struct text *t)
{
    static const char *const odd[] = {"65535", "65536", "065535", "0065536", "99999", "100000", "4294967296",
                                      "18446744073709551616", "000000000000000000000000", "-1", "0x1", "1e1"};
    add_byte(t, ' ');
    add_string(t, odd[random_below(r, sizeof odd / sizeof odd[0])]);
}

static void blank_text(struct random *r, struct text *t)
{
    uint32_t more;
    t->len = 0;
    for (more = random_chance(r, 50) ? random_below(r, 4) : random_below(r, 20000); more > 0; more--)
        add_byte(t, random_chance(r, 50) ? ' ' : '\n');
}

static void draw_text(struct random *r, struct text *t)
{
    static struct drawn_table table;
    draw_pattern(r, &table);
    if (random_chance(r, 30))
        draw_damage(r, &table);
    write_table(r, t, &table);
    if (random_chance(r, 50))
        return;
    switch (random_below(r, 8)) {
    case 0: replace_byte(r, t); break;
    case 1: append_number(r, t); break;
    case 2: t->len = random_below(r, (uint32_t)t->len + 1); break;
    case 3:
        if (random_chance(r, 20))
            blank_text(r, t);
        break;
    case 4:
        if (random_chance(r, 20))
            pad_numbers(r, t, &table, random_between(r, MOST_NUMBERS - 1, MOST_NUMBERS + 2));
        break;
    case 5: /* a number made of two, or a text that begins with a number too large */
        add_string(t, random_chance(r, 50) ? "1" : "70000");
        break;
    case 6: add_byte(t, '\t'); break;
    default:
        replace_byte(r, t);
        replace_byte(r, t);
        break;
    }
}

/* ---- The program. */

static struct {
    const char *path;
    int input, output; /* files without a name */
} program;

static int nameless_file(void)
{
    FILE *const file = tmpfile();
    int fd;
    need(file != NULL, "tmpfile");
    fd = dup(fileno(file));
    need(fd >= 0, "dup");
    fclose(file);
    return fd;
}

static void write_all(int fd, const char *bytes, size_t len)
{
    while (len > 0) {
        const ssize_t written = write(fd, bytes, len);
        if (written < 0 && errno == EPIPE)
            return; /* a program may stop reading once it knows its answer */
        need(written >= 0, "write");
        bytes += written;
        len -= (size_t)written;
    }
}

static pid_t start_program(int input)
{
    posix_spawn_file_actions_t files;
    char *const arguments[] = {(char *)program.path, NULL};
    pid_t child;
    need(ftruncate(program.output, 0) == 0 && lseek(program.output, 0, SEEK_SET) == 0, "output");
    posix_spawn_file_actions_init(&files);
    posix_spawn_file_actions_adddup2(&files, input, STDIN_FILENO);
    posix_spawn_file_actions_adddup2(&files, program.output, STDOUT_FILENO);
    errno = posix_spawn(&child, program.path, &files, NULL, arguments, environ);
    need(errno == 0, program.path);
    posix_spawn_file_actions_destroy(&files);
    return child;
}

static pid_t start_on_file(const struct text *t)
{
    need(ftruncate(program.input, 0) == 0 && lseek(program.input, 0, SEEK_SET) == 0, "input");
    write_all(program.input, t->bytes, t->len);
    need(lseek(program.input, 0, SEEK_SET) == 0, "input");
    return start_program(program.input);
}

/* A pipe that is filled piece by piece, so that reads end within numbers. */
static pid_t start_on_pipe(struct random *r, const struct text *t)
{
    int ends[2];
    size_t at = 0;
    pid_t child;
    need(pipe2(ends, O_CLOEXEC) == 0, "pipe");
    child = start_program(ends[0]);
    close(ends[0]);
    while (at < t->len) {
        size_t piece = random_between(r, 1, t->len > 5000 ? 3000 : 40);
        if (piece > t->len - at)
            piece = t->len - at;
        write_all(ends[1], t->bytes + at, piece);
        at += piece;
    }
    close(ends[1]);
    return child;
}

/* What the program printed; whether it ended well. */
static int finish_program(pid_t child, char **printed, size_t *len)
{
    const off_t room = 1 << 22;
    int status;
    ssize_t got;
    need(waitpid(child, &status, 0) == child, "waitpid");
    *printed = room_for((size_t)room, 1);
    got = pread(program.output, *printed, (size_t)room, 0);
    need(got >= 0, "pread");
    *len = (size_t)got;
    return WIFEXITED(status) && WEXITSTATUS(status) == 0;
}

/* ---- The comparison. */

static void show(const char *what, const char *bytes, size_t len)
{
    fprintf(stderr, "---- %s (%zu bytes)\n", what, len);
    fwrite(bytes, 1, len < 3000 ? len : 3000, stderr);
    fputs(len < 3000 ? "\n" : "...\n", stderr);
}

static void compare_text(struct random *r, const struct text *t, uint64_t seed)
{
    char *printed, *expected;
    size_t printed_len, expected_len;
    const pid_t child = random_chance(r, 80) ? start_on_file(t) : start_on_pipe(r, t);
    const int ended_well = finish_program(child, &printed, &printed_len);
    expected = reference_listing(t->bytes, t->len, &expected_len);
    if (!ended_well || printed_len != expected_len || memcmp(printed, expected, printed_len) != 0) {
        show("input", t->bytes, t->len);
        show("printed", printed, printed_len);
        show("expected", expected, expected_len);
        fprintf(stderr, "FAILED in the trial with seed %" PRIu64 "%s\n", seed,
                ended_well ? "" : ": the program did not end well");
        exit(1);
    }
    tally.listed += expected[0] == 's';
    tally.refused += expected[0] == 'r';
    tally.text_refused += expected_len == 10 && memcmp(expected, "refused 1\n", 10) == 0;
    free(printed);
    free(expected);
}

/* Pattern A, as the rules print it: this is right by itself, not only like the reference. */
static void compare_pattern_a(struct random *r)
{
    static struct text t;
    static const char input[] = "2 2 4 1 1 2 4 0 0 2 1 0 3 0 1 0 0 1 0";
    static const char output[] = "states 2 edges 4\n0 1 0 0 0 3\n1 1 2 0 2 0\n0 0 1\n0 1 0\n1 0 1\n1 1 0\n";
    char *expected;
    size_t len;
    t.len = sizeof input - 1;
    memcpy(t.bytes, input, t.len);
    expected = reference_listing(t.bytes, t.len, &len);
    if (len != sizeof output - 1 || memcmp(expected, output, len) != 0) {
        fputs("FAILED: the reference does not list pattern A as it should\n", stderr);
        exit(1);
    }
    free(expected);
    compare_text(r, &t, 0);
}

/* Complements of 1,024 states, as many as there is room for, and of more; and of more words than there is room for. */
static void compare_rings(struct random *r)
{
    static const uint32_t rings[][3] = {{8, 7, 1}, {9, 7, 1}, {8, 7, 4}, {8, 7, 5}};
    static struct text t;
    static struct drawn_table table;
    size_t i;
    for (i = 0; i < sizeof rings / sizeof rings[0]; i++) {
        const uint32_t states = rings[i][0] + rings[i][1] + 1;
        ring_pattern(table.words, rings[i][0], rings[i][1], rings[i][2]);
        table.len = tubochre_table_words(states, states * rings[i][2]);
        write_table(r, &t, &table);
        compare_text(r, &t, 0);
    }
}

int main(int argc, char **argv)
{
    static const char usage[] = "usage: compare_listing PROGRAM [--seed N] [--trials N]\n";
    uint64_t seed = default_seed, trials = TRIALS, i;
    const struct argument known[] = {{"--seed", &seed, NULL}, {"--trials", &trials, NULL}};
    struct random r = random_from(0);
    if (read_arguments(argc, argv, known, 2, usage) != 1)
        wrong_use("one program is named", usage);
    program.path = argv[1];
    program.input = nameless_file();
    program.output = nameless_file();
    signal(SIGPIPE, SIG_IGN);
    printf("compare_listing: %" PRIu64 " trials from seed %" PRIu64 "\n", trials, seed);
    compare_pattern_a(&r);
    compare_rings(&r);
    for (i = 0; i < trials; i++) {
        static struct text t;
        r = random_from(seed + i);
        draw_text(&r, &t);
        compare_text(&r, &t, seed + i);
    }
    if (trials >= TRIALS && (tally.listed == 0 || tally.text_refused == 0 || tally.refused == tally.text_refused)) {
        printf("compare_listing: FAILED: a kind of answer did not occur\n");
        return 1;
    }
    printf("compare_listing: ok: seeds %" PRIu64 " to %" PRIu64 ": %" PRIu64 " listed, %" PRIu64 " refused (%" PRIu64
           " for the text), 0 differences\n",
           seed, seed + trials - 1, tally.listed, tally.refused, tally.text_refused);
    return 0;
}
