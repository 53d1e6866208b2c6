/* A tray: what a list holds is found from its end to its start, and each byte is a decision of its own. */
#include "reference.h"
#include "reference_parts.h"
#include "room.h"

#include <stdlib.h>

/* For each place of a list, and for its end: how many lassos the words from there on are, plus one, or 0 where they are
 * not all words of lassos. Most places lie inside a lasso, and nobody asks about them. */
static size_t *lassos_behind(const uint16_t *list, size_t len)
{
    size_t *const behind = room_for(len + 1, sizeof *behind);
    size_t at;
    behind[len] = 1;
    for (at = len; at-- > 0;) {
        const size_t end = at + 1 < len ? at + 2 + list[at] + list[at + 1] : len + 1;
        behind[at] = end <= len && behind[end] > 0 ? behind[end] + 1 : 0;
    }
    return behind;
}

/* What the single call says of the lasso that begins here; no table has letter 255, as it has none of those above. */
static uint8_t byte_of(const uint16_t *table, size_t len, const uint16_t *lasso, size_t work_len)
{
    const size_t prefix_len = lasso[0], loop_len = lasso[1];
    uint8_t *const letters = room_for(prefix_len + loop_len, 1);
    struct reference_decision d;
    size_t i;
    for (i = 0; i < prefix_len + loop_len; i++)
        letters[i] = (uint8_t)(lasso[2 + i] < 255 ? lasso[2 + i] : 255);
    d = reference_decide(table, len, letters, prefix_len, letters + prefix_len, loop_len, work_len);
    free(letters);
    return (uint8_t)(d.number != 0 ? d.number : d.taken);
}

struct reference_written reference_tray(const uint16_t *table, size_t len, const uint16_t *list, size_t list_len,
                                        uint8_t *answers, size_t answers_len, uint32_t *work, size_t work_len)
{
    size_t *const behind = lassos_behind(list, list_len);
    const size_t lassos = behind[0] - 1; /* where there is a number of them at all */
    const uint32_t of_table = reference_table_refusal(table, len, WIDE_MOST, WIDE_MOST);
    struct reference_written w = {behind[0] == 0 ? 17 : answers_len != lassos ? 18 : of_table, 0};
    size_t i;
    for (i = 0; i < work_len; i++)
        work[i] = 0;
    for (i = 0; i < answers_len; i++)
        answers[i] = (uint8_t)(w.number < 17 ? w.number : 0);
    if (w.number == 0) {
        w.count = lassos;
        for (i = 0; i < list_len; i += 2 + (size_t)list[i] + list[i + 1])
            answers[lassos - (behind[i] - 1)] = byte_of(table, len, list + i, work_len);
    }
    free(behind);
    return w;
}
