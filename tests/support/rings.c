#include "rings.h"

#include "draw.h"
#include "tubochre.h"

#include <stddef.h>
#include <string.h>

static void begin(uint16_t *words, uint32_t n, uint32_t k, uint32_t m)
{
    memset(words, 0, tubochre_table_words(n, m) * sizeof *words);
    words[0] = (uint16_t)n;
    words[1] = (uint16_t)k;
    words[2] = (uint16_t)m;
}

static uint16_t *record_of(uint16_t *words, uint32_t record)
{
    return words + tubochre_table_words(words[0], record - 1);
}

/* State q gets an edge on each letter to one target: k records in a row, the first of them number q * k + 1. */
static void move_on(uint16_t *words, uint32_t q, uint32_t target)
{
    const uint32_t k = words[1], first = q * k + 1;
    uint32_t c;
    words[4 + 2 * q] = (uint16_t)first;
    for (c = 0; c < k; c++) {
        uint16_t *const record = record_of(words, first + c);
        record[0] = (uint16_t)c;
        record[1] = (uint16_t)target;
        record[2] = c + 1 < k ? (uint16_t)(first + c + 1) : 0;
    }
}

void ring_pattern(uint16_t *words, uint32_t p, uint32_t r, uint32_t k)
{
    const uint32_t n = p + r + 1, marked = p + r;
    uint32_t q;
    begin(words, n, k, n * k);
    for (q = 0; q < p; q++) {
        words[3 + 2 * q] = q == 0 ? 1 : 0;
        move_on(words, q, q + 1 < p ? q + 1 : 0);
    }
    for (q = p; q < p + r; q++) {
        words[3 + 2 * q] = 1;
        move_on(words, q, q + 1 < p + r ? q + 1 : p);
    }
    words[3 + 2 * marked] = 2;
    move_on(words, marked, r > 0 ? p : marked);
}

void ring_table(uint16_t *words, uint32_t n, uint32_t k, uint32_t m)
{
    uint32_t q, r;
    begin(words, n, k, m);
    words[3] = 1;
    words[3 + 2 * (n - 1)] |= 2;
    for (q = 0; q < n; q++) {
        words[4 + 2 * q] = (uint16_t)(q + 1);
        record_of(words, q + 1)[1] = (uint16_t)(q + 1 < n ? q + 1 : 0);
    }
    for (r = n + 1; r <= m; r++) {
        record_of(words, r == n + 1 ? 1 : r - 1)[2] = (uint16_t)r;
        record_of(words, r)[1] = record_of(words, 1)[1];
    }
}

void full_table(uint16_t *words, uint32_t n, uint32_t k, uint32_t m)
{
    uint32_t q, r;
    begin(words, n, k, m);
    for (q = 0; q < n; q++) {
        words[3 + 2 * q] = (uint16_t)(q % 4);
        words[4 + 2 * q] = (uint16_t)(q < m ? q + 1 : 0);
    }
    for (r = 1; r <= m; r++) {
        uint16_t *const record = record_of(words, r);
        const uint32_t source = (r - 1) % n, letter = (r - 1) / n % k;
        record[0] = (uint16_t)letter;
        record[1] = (uint16_t)((7 * source + letter) % n);
        record[2] = (uint16_t)(r + n <= m ? r + n : 0);
    }
}

/* A state of a ring of so many states from `first` on, at most `reach` places on from where q stands in its own. */
static uint32_t near_state(struct random *r, uint32_t q, uint32_t first, uint32_t count, uint32_t reach)
{
    return first + (q + random_below(r, reach < count ? reach : count)) % count;
}

/* The first half of the states form a ring and lead to the accepting quarter, which leads on to the last quarter, a
 * ring that nothing leaves. */
void barren_table(uint16_t *words, uint32_t n, uint32_t reach)
{
    const uint32_t front = n / 2, marked = n / 4, tail = front + marked, rest = n - tail;
    struct random r = random_from(n);
    uint32_t q, i;
    begin(words, n, 1, 3 * n);
    for (q = 0; q < n; q++) {
        uint32_t target[3];
        target[0] = q < front ? (q + 1) % front : tail + (q + 1) % rest;
        target[1] = q < front ? front + q % marked : near_state(&r, q, tail, rest, reach);
        target[2] = q < front ? near_state(&r, q, 0, front, reach) : near_state(&r, q, tail, rest, reach);
        words[3 + 2 * q] = q >= front && q < tail ? 3 : 1;
        words[4 + 2 * q] = (uint16_t)(3 * q + 1);
        for (i = 0; i < 3; i++) {
            record_of(words, 3 * q + i + 1)[1] = (uint16_t)target[i];
            record_of(words, 3 * q + i + 1)[2] = i < 2 ? (uint16_t)(3 * q + i + 2) : 0;
        }
    }
}
