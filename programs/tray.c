#include "tray.h"

#include "common.h"
#include "progress.h"
#include "tubochre.h"

#include <stdio.h>
#include <stdlib.h>
#include <string.h>

/* The text of a part is kept while it is read, so it has an end, behind 65,535 letters as anyone would write them. */
enum { WORD_MOST = 65535, PART_TEXT_MOST = 1 << 20 };

static const char what_for[] = "the tray";

/* ---- What grows with the file. */

/* Memory in which there is room for one thing more; the room is doubled where it is full. */
static void *with_room(void *old, size_t count, size_t *room, size_t size)
{
    if (count < *room)
        return old;
    *room = 2 * *room + 64;
    return more_memory(old, *room, size, what_for);
}

static void add_word(struct tray *t, size_t word)
{
    t->list = with_room(t->list, t->list_len, &t->list_room, sizeof *t->list);
    t->list[t->list_len++] = (uint16_t)word;
}

static void add_byte(struct tray *t, int byte)
{
    t->text = with_room(t->text, t->text_len, &t->text_room, sizeof *t->text);
    t->text[t->text_len++] = (char)byte;
}

static void add_line(struct tray *t, const struct tray_line *line)
{
    t->line = with_room(t->line, t->lassos, &t->line_room, sizeof *t->line);
    t->line[t->lassos++] = *line;
}

static void add_letters(struct tray *t, const struct letters *l)
{
    size_t i;
    for (i = 0; i < l->len; i++)
        add_word(t, l->letter[i]);
}

/* ---- Reading. */

static _Noreturn void bad_line(const struct cursor *c, struct spot at, const char *why)
{
    const size_t room = strlen(c->name) + 80;
    char *const what = memory(room, 1, "a message");
    snprintf(what, room, "%s, line %zu, column %zu", c->name, at.line, at.column);
    trouble(what, why);
}

static int is_blank(int byte)
{
    return byte == ' ' || byte == '\t' || byte == '\r';
}

static int ends_line(int byte)
{
    return byte == '\n' || byte == EOF;
}

static int may_stand_in_part(int byte)
{
    return (byte >= '0' && byte <= '9') || byte == ',' || byte == '-';
}

static void skip_blanks(struct cursor *c)
{
    while (is_blank(c->byte))
        step(c);
}

static void skip_line(struct cursor *c)
{
    while (!ends_line(c->byte))
        step(c);
}

static _Noreturn void bad_byte(struct cursor *c)
{
    const struct fault fault = fault_of_byte(c, "digit, comma, minus sign, blank or newline");
    bad_line(c, fault.at, fault.sentence);
}

static void check_part(struct cursor *c, struct spot at, const struct letters *l, struct part_fault fault)
{
    char why[100];
    if (fault.why != NULL)
        bad_line(c, (struct spot){at.line, at.column + fault.byte}, fault.why);
    if (!is_blank(c->byte) && !ends_line(c->byte))
        bad_byte(c);
    if (l->len > WORD_MOST) {
        snprintf(why, sizeof why, "the part has %zu letters, and in a tray a part has at most %d", l->len, WORD_MOST);
        bad_line(c, at, why);
    }
}

/* Keeps the text of a part, up to the first byte that may stand in none, and where it begins. */
static struct tray_part keep_part(struct tray *t, struct cursor *c)
{
    const struct tray_part part = {t->text_len, c->at};
    char why[100];
    for (; may_stand_in_part(c->byte); step(c)) {
        if (t->text_len - part.text == PART_TEXT_MOST) {
            snprintf(why, sizeof why, "the part has more than %d bytes, the most that its text may have",
                     PART_TEXT_MOST);
            bad_line(c, part.at, why);
        }
        add_byte(t, c->byte);
    }
    add_byte(t, '\0');
    return part;
}

static struct letters read_part(struct tray *t, struct cursor *c, struct tray_part *part)
{
    struct part_fault fault;
    struct letters l;
    *part = keep_part(t, c);
    l = read_letters(t->text + part->text, &fault);
    check_part(c, part->at, &l, fault);
    return l;
}

static void read_line(struct tray *t, struct cursor *c)
{
    struct tray_line line;
    struct letters prefix, loop;
    prefix = read_part(t, c, &line.prefix);
    skip_blanks(c);
    if (ends_line(c->byte))
        bad_line(c, line.prefix.at, "a prefix has no loop beside it");
    loop = read_part(t, c, &line.loop);
    skip_blanks(c);
    if (!ends_line(c->byte))
        bad_line(c, c->at, "the line goes on behind its loop, and it has one prefix and one loop");
    add_line(t, &line);
    add_word(t, prefix.len);
    add_word(t, loop.len);
    add_letters(t, &prefix);
    add_letters(t, &loop);
    free(prefix.letter);
    free(loop.letter);
}

struct tray read_tray(const char *name)
{
    struct cursor c = open_text(name);
    struct tray t = {NULL, 0, 0, NULL, 0, 0, NULL, 0, 0};
    while (c.byte != EOF)
        if (is_blank(c.byte) || c.byte == '\n')
            step(&c);
        else if (c.byte == '#')
            skip_line(&c);
        else
            read_line(&t, &c);
    close_text(&c);
    return t;
}

void free_tray(struct tray *t)
{
    free(t->list);
    free(t->line);
    free(t->text);
}

struct lasso tray_lasso(const struct tray *t, size_t i)
{
    return read_lasso(i + 1, t->text + t->line[i].prefix.text, t->text + t->line[i].loop.text);
}

struct spot letter_spot(const struct tray *t, const struct tray_part *part, size_t letter)
{
    const char *const text = t->text + part->text, *at = text;
    if (strchr(text, ',') == NULL)
        at += letter; /* a letter is a digit */
    else
        for (; letter > 0; letter--)
            at = strchr(at, ',') + 1;
    return (struct spot){part->at.line, part->at.column + (size_t)(at - text)};
}

/* ---- Deciding. */

uint8_t *try_tray(const uint16_t *words, size_t len, const struct tray *t)
{
    const size_t work_len = tubochre_tray_work_words(words[0], t->list, t->list_len);
    uint32_t *const work = memory(work_len, sizeof *work, "a tray's work words");
    uint8_t *const answers = memory(t->lassos, sizeof *answers, what_for);
    struct tubochre_written written;
    progress_begin("trying the tray");
    written = tubochre_tray(words, len, t->list, t->list_len, answers, t->lassos, work, work_len);
    progress_end();
    free(work);
    if (written.number != TUBOCHRE_OK)
        trouble(what_for, tubochre_refusal_text(written.number));
    return answers;
}
