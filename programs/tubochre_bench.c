/* tubochre-bench: checks a pattern, builds its complement, and says which of the two takes each lasso; or makes two
 * patterns into one.
 *
 * It uses the header's calls only. The options stand in a table below; `usage` says what it takes and answers. */
#include "common.h"
#include "complement.h"
#include "lassos.h"
#include "merge.h"
#include "places.h"
#include "print.h"
#include "refusals.h"
#include "tray.h"
#include "tubochre.h"
#include "words.h"

#include <stdio.h>
#include <stdlib.h>
#include <string.h>

const char program_name[] = "tubochre-bench";

/* ---- The command line. */

enum graph { NO_GRAPH, PATTERN_GRAPH, COMPLEMENT_GRAPH };

/* What the command line asks for. Words are the pattern's name, then two for each lasso; or the names of two patterns
 * that are to be merged. */
struct request {
    int help, version, states, merge;
    enum graph graph;
    const char *tray; /* the name of a file of lassos, or NULL */
    int count;
    char **words;
};

static const char synopsis[] = "usage: tubochre-bench [OPTION]... PATTERN [PREFIX LOOP]...\n"
                               "       tubochre-bench [OPTION]... PATTERN --tray FILE\n"
                               "       tubochre-bench --merge FIRST SECOND\n";

static const char description[] =
    "\n"
    "Checks a pattern, builds its complement, and says of each lasso which of the two takes it.\n"
    "\n"
    "PATTERN is a file that holds a pattern's words as decimal numbers divided by spaces and newlines,\n"
    "or - for standard input. So are FIRST and SECOND.\n"
    "\n"
    "Each PREFIX and LOOP is a lasso: the word that reads PREFIX once and then LOOP for ever. Either is\n"
    "written as digits, one for each letter (0110), or as numbers divided by commas (10,3,15; a single\n"
    "letter above 9 is written with a comma behind it: 12,). The empty prefix is - or ''.\n"
    "\n"
    "Options:\n";

static const char statuses[] =
    "  --               ends the options: all words behind it are PATTERN, PREFIX and LOOP, or FIRST and SECOND\n"
    "\n"
    "Exit status: 0 all was answered; 1 a pattern, its complement, a merge or a lasso was refused;\n"
    "2 wrong use, a lasso that cannot be read, or a file, memory or output that failed.\n";

/* Prints why a command line is wrong, with the word at fault if there is one, and how one looks. */
static _Noreturn void wrong_use(const char *why, const char *word)
{
    fprintf(stderr, "%s: %s", program_name, why);
    if (word != NULL) {
        fputs(": ", stderr);
        print_word(stderr, word);
    }
    fprintf(stderr, "\n%s%s --help says more\n", synopsis, program_name);
    exit(TROUBLE);
}

static void ask_states(struct request *r, const char *value)
{
    (void)value;
    r->states = 1;
}

static void ask_graph(struct request *r, const char *value)
{
    if (r->graph != NO_GRAPH)
        wrong_use("--dot writes one graph, and this is a second", value);
    if (strcmp(value, "pattern") == 0)
        r->graph = PATTERN_GRAPH;
    else if (strcmp(value, "complement") == 0)
        r->graph = COMPLEMENT_GRAPH;
    else
        wrong_use("this is no graph, which is pattern or complement", value);
}

static void ask_tray(struct request *r, const char *value)
{
    if (r->tray != NULL)
        wrong_use("--tray reads one file, and this is a second", value);
    r->tray = value;
}

static void ask_merge(struct request *r, const char *value)
{
    (void)value;
    r->merge = 1;
}

static void ask_help(struct request *r, const char *value)
{
    (void)value;
    r->help = 1;
}

static void ask_version(struct request *r, const char *value)
{
    (void)value;
    r->version = 1;
}

static const struct option {
    const char *name, *short_name, *value; /* value: what stands behind it, or NULL */
    void (*ask)(struct request *, const char *);
    const char *help;
} options[] = {
    {"--states", NULL, NULL, ask_states,
     "  --states         also prints each state of the complement: number, N, C, S, B, flags\n"},
    {"--dot", NULL, "GRAPH", ask_graph,
     "  --dot GRAPH      writes the graph of the pattern or of the complement in DOT, and nothing else;\n"
     "                   GRAPH is pattern or complement\n"},
    {"--tray", NULL, "FILE", ask_tray,
     "  --tray FILE      takes the lassos from a file, or - for standard input, and counts the answers; a line\n"
     "                   has a PREFIX, blanks, and a LOOP, and the empty prefix is -; blank lines and lines that\n"
     "                   begin with # are skipped\n"},
    {"--merge", NULL, NULL, ask_merge,
     "  --merge          makes FIRST and SECOND into one pattern, which takes a lasso if at least one of them does,\n"
     "                   and writes its words, and nothing else\n"},
    {"--help", "-h", NULL, ask_help, "  -h, --help       prints this, and ends\n"},
    {"--version", NULL, NULL, ask_version, "  --version        prints the version, and ends\n"},
};

enum { OPTIONS = sizeof options / sizeof options[0] };

static void usage(void)
{
    int i;
    fputs(synopsis, stdout);
    fputs(description, stdout);
    for (i = 0; i < OPTIONS; i++)
        fputs(options[i].help, stdout);
    fputs(statuses, stdout);
}

/* Whether a word is this option, by its name, its short name, or its name with =VALUE behind it. */
static int is_option(const struct option *o, const char *word)
{
    const size_t len = strlen(o->name);
    if (o->short_name != NULL && strcmp(word, o->short_name) == 0)
        return 1;
    return strncmp(word, o->name, len) == 0 && (word[len] == '\0' || word[len] == '=');
}

/* Reads the option at argv[i], and answers where its last word stands. */
static int read_option(struct request *r, int argc, char **argv, int i)
{
    const char *const equals = strchr(argv[i], '=');
    const struct option *o = options;
    while (o < options + OPTIONS && !is_option(o, argv[i]))
        o++;
    if (o == options + OPTIONS)
        wrong_use("unknown option", argv[i]);
    if (o->value == NULL && equals != NULL)
        wrong_use("this option takes no value", argv[i]);
    if (o->value != NULL && equals == NULL && i + 1 == argc)
        wrong_use("a value is missing behind this option", argv[i]);
    if (o->value == NULL || equals != NULL) {
        o->ask(r, equals != NULL ? equals + 1 : "");
        return i;
    }
    o->ask(r, argv[i + 1]);
    return i + 1;
}

/* Options may stand anywhere before "--"; the other words are moved to the front. A lone - is a word. */
static struct request read_command_line(int argc, char **argv)
{
    struct request r = {0, 0, 0, 0, NO_GRAPH, NULL, 0, argv + 1};
    int i, ended = 0;
    for (i = 1; i < argc; i++)
        if (!ended && strcmp(argv[i], "--") == 0)
            ended = 1;
        else if (!ended && argv[i][0] == '-' && argv[i][1] != '\0')
            i = read_option(&r, argc, argv, i);
        else
            r.words[r.count++] = argv[i];
    return r;
}

static void check_merge(const struct request *r)
{
    if (r->states || r->graph != NO_GRAPH || r->tray != NULL)
        wrong_use("--merge writes a pattern alone, without states, graphs and lassos", NULL);
    if (r->count == 1)
        wrong_use("--merge takes two patterns, and this is the only one", r->words[0]);
    if (r->count > 2)
        wrong_use("--merge takes two patterns, and this is a third", r->words[2]);
    if (strcmp(r->words[0], "-") == 0 && strcmp(r->words[1], "-") == 0)
        wrong_use("two patterns cannot both be read from standard input", NULL);
}

static void check_request(const struct request *r)
{
    if (r->count == 0)
        wrong_use("no pattern is named", NULL);
    if (r->merge) {
        check_merge(r);
        return;
    }
    if (r->graph != NO_GRAPH && (r->count > 1 || r->states || r->tray != NULL))
        wrong_use("--dot writes a graph alone, without lassos and states", NULL);
    if (r->tray != NULL && r->count > 1)
        wrong_use("--tray takes all lassos from its file, and this is another", r->words[1]);
    if (r->tray != NULL && strcmp(r->tray, "-") == 0 && strcmp(r->words[0], "-") == 0)
        wrong_use("pattern and tray cannot both be read from standard input", NULL);
    if (r->count % 2 == 0)
        wrong_use("a prefix has no loop beside it", r->words[r->count - 1]);
}

/* ---- Graphs. */

/* A pattern that forks can still be drawn: its table is sound, and the drawing shows where. */
static int draw_pattern(const struct words *w)
{
    const struct tubochre_checked checked = tubochre_check(w->word, w->len);
    if (checked.number == TUBOCHRE_OK || checked.number == TUBOCHRE_FORK)
        print_pattern_graph(w->word, checked.number == TUBOCHRE_FORK ? &checked.place : NULL);
    return checked.number == TUBOCHRE_OK ? FINE : pattern_refused(stderr, "pattern", checked, w);
}

static int draw_complement(const struct words *w)
{
    const struct tubochre_checked checked = tubochre_check(w->word, w->len);
    struct complement c;
    int status = FINE;
    if (checked.number != TUBOCHRE_OK)
        return pattern_refused(stderr, "pattern", checked, w);
    c = build(w->word, w->len);
    if (c.counts.number == TUBOCHRE_OK)
        print_complement_graph(&c);
    else
        status = complement_refused(stderr, c.counts.number);
    free_complement(&c);
    return status;
}

/* ---- Answers. */

static void say_taken(const struct lasso *l, int by_pattern)
{
    printf("%s: the %s takes it, the %s does not\n", l->name, by_pattern ? "pattern" : "complement",
           by_pattern ? "complement" : "pattern");
}

static _Noreturn void contradiction(const struct lasso *l)
{
    trouble(l->name, "pattern and complement contradict each other, which the library rules out");
}

/* Says which of the two takes a lasso; both are asked, though each answer decides the other. */
static int answer_lasso(const struct words *w, const struct complement *c, const struct lasso *l)
{
    const size_t used = tubochre_table_words(c->counts.states, c->counts.edges);
    const struct tubochre_decision by_pattern = decide(w->word, w->len, l);
    struct tubochre_decision by_complement;
    if (by_pattern.number != TUBOCHRE_OK)
        return say_refused(stdout, l->name, by_pattern.number, NULL,
                           place_in_lasso(by_pattern.number, w->word, l).sentence);
    by_complement = decide(c->words, used, l);
    if (by_complement.number != TUBOCHRE_OK || by_complement.taken == by_pattern.taken)
        contradiction(l);
    say_taken(l, by_pattern.taken == TUBOCHRE_TAKEN);
    return FINE;
}

/* Says of a tray's lasso that it is refused, with the place in the tray's file. */
static void say_refused_in_tray(const struct lasso *l, uint32_t number, const struct words *w, const struct tray *t,
                                const struct tray_line *line)
{
    const struct place p = place_in_lasso(number, w->word, l);
    const struct spot at = letter_spot(t, p.word == PREFIX_WORD ? &line->prefix : &line->loop, p.letter);
    say_refused(stdout, l->name, number, p.word != NO_WORD ? &at : NULL, p.sentence);
}

/* Says what the two bytes of a tray's lasso, counted from 0, mean; where it is refused, both say why. */
static void say_bytes(const struct words *w, const struct tray *t, size_t i, uint8_t by_pattern, uint8_t by_complement)
{
    const int refused = by_pattern > TUBOCHRE_TAKEN;
    struct lasso l = tray_lasso(t, i);
    if (refused ? by_complement != by_pattern : by_complement != 1 - by_pattern)
        contradiction(&l);
    if (refused)
        say_refused_in_tray(&l, by_pattern, w, t, &t->line[i]);
    else
        say_taken(&l, by_pattern == TUBOCHRE_TAKEN);
    free_lasso(&l);
}

static size_t count_bytes(const uint8_t *bytes, size_t len, uint8_t byte)
{
    size_t i, count = 0;
    for (i = 0; i < len; i++)
        count += bytes[i] == byte;
    return count;
}

static int say_counts(const uint8_t *by_pattern, size_t lassos)
{
    const size_t taken = count_bytes(by_pattern, lassos, TUBOCHRE_TAKEN);
    const size_t not_taken = count_bytes(by_pattern, lassos, TUBOCHRE_NOT_TAKEN);
    const size_t refused = lassos - taken - not_taken;
    printf("tray: lassos %zu, the pattern takes %zu, the complement takes %zu, refused %zu\n", lassos, taken, not_taken,
           refused);
    return refused == 0 ? FINE : REFUSED;
}

/* A line for each lasso, and one that counts them. */
static int answer_tray(const struct words *w, const struct complement *c, const struct tray *t)
{
    const size_t used = tubochre_table_words(c->counts.states, c->counts.edges);
    uint8_t *const by_pattern = try_tray(w->word, w->len, t), *const by_complement = try_tray(c->words, used, t);
    size_t i;
    int status;
    for (i = 0; i < t->lassos; i++)
        say_bytes(w, t, i, by_pattern[i], by_complement[i]);
    status = say_counts(by_pattern, t->lassos);
    free(by_pattern);
    free(by_complement);
    return status;
}

/* The lassos that are asked about: those of the command line, or those of a tray. */
struct asked {
    struct lasso *lassos;
    size_t count;
    struct tray *tray; /* NULL: none */
};

static int answer_lassos(const struct words *w, const struct complement *c, const struct asked *asked)
{
    int status = FINE;
    size_t i;
    if (asked->tray != NULL)
        return answer_tray(w, c, asked->tray);
    for (i = 0; i < asked->count; i++)
        if (answer_lasso(w, c, &asked->lassos[i]) != FINE)
            status = REFUSED;
    return status;
}

static int answer_complement(const struct request *r, const struct words *w, const struct asked *asked)
{
    struct complement c = build(w->word, w->len);
    int status;
    if (c.counts.number != TUBOCHRE_OK) {
        status = complement_refused(stdout, c.counts.number);
    } else {
        printf("complement: states %u, edges %u\n", (unsigned)c.counts.states, (unsigned)c.counts.edges);
        if (r->states)
            print_states(&c);
        status = answer_lassos(w, &c, asked);
    }
    free_complement(&c);
    return status;
}

static int answer(const struct request *r, const struct words *w, const struct asked *asked)
{
    const struct tubochre_checked checked = tubochre_check(w->word, w->len);
    if (checked.number != TUBOCHRE_OK)
        return pattern_refused(stdout, "pattern", checked, w);
    printf("pattern: passes the check (states %u, letters %u, records %u)\n", (unsigned)w->word[0],
           (unsigned)w->word[1], (unsigned)w->word[2]);
    fflush(stdout); /* before the build, which may take long */
    return answer_complement(r, w, asked);
}

static int run_asked(const struct request *r, const struct asked *asked)
{
    struct words *const w = memory(1, sizeof *w, "the pattern");
    struct fault fault;
    int status;
    if (!read_words(r->words[0], w, &fault))
        status = say_refused(r->graph == NO_GRAPH ? stdout : stderr, "pattern", TUBOCHRE_TEXT, &fault.at,
                             fault.sentence);
    else if (r->graph == PATTERN_GRAPH)
        status = draw_pattern(w);
    else if (r->graph == COMPLEMENT_GRAPH)
        status = draw_complement(w);
    else
        status = answer(r, w, asked);
    free(w);
    return status;
}

/* All lassos are read before the pattern, so that a slip in one costs no long build. */
static int run(const struct request *r)
{
    struct asked asked = {NULL, (size_t)(r->count - 1) / 2, NULL};
    struct tray tray;
    int status;
    if (r->tray != NULL) {
        tray = read_tray(r->tray);
        asked.tray = &tray;
    }
    asked.lassos = read_lassos(asked.count, r->words + 1);
    status = run_asked(r, &asked);
    free_lassos(asked.lassos, asked.count);
    if (asked.tray != NULL)
        free_tray(asked.tray);
    return status;
}

int main(int argc, char **argv)
{
    const struct request r = read_command_line(argc, argv);
    int status = FINE;
    if (r.help) {
        usage();
    } else if (r.version) {
        printf("%s %s\n", program_name, TUBOCHRE_VERSION);
    } else {
        check_request(&r);
        status = r.merge ? merge_files(r.words[0], r.words[1]) : run(&r);
    }
    return finish(status);
}
