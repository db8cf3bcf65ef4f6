#include "sections.h"

#include <string.h>

/* At the most: how many providers, descriptors of each, and behind all providers; how long names and descriptors. */
struct shape {
    unsigned providers, name, descriptors, descriptor, additional;
    size_t bytes; /* of the section */
    int full;     /* 1: it has these, by descriptors behind all providers; at least 12 */
};

static size_t least(size_t a, size_t b)
{
    return a < b ? a : b;
}

/* ---- Whole sections ---- */

static void begin_thing(struct section *s, int tagged)
{
    s->tagged[s->things] = (uint8_t)tagged;
    s->start[s->things++] = s->n;
}

/* A count of 0; where it is. */
static uint8_t *put_count(struct section *s)
{
    begin_thing(s, 0);
    s->bytes[s->n] = 0;
    return &s->bytes[s->n++];
}

/* A length, and so many random bytes; where they are. */
static uint8_t *put_bytes(struct rng *r, struct section *s, size_t n)
{
    uint8_t *to = s->bytes + s->n;

    to[0] = (uint8_t)n;
    rng_fill(r, to + 1, n);
    s->n += 1 + n;
    return to + 1;
}

static void put_name(struct rng *r, struct section *s, size_t n)
{
    uint8_t *text;
    size_t i;

    s->name[s->names++] = s->things;
    begin_thing(s, 0);
    text = put_bytes(r, s, n);
    if (!rng_once_in(r, 8))
        for (i = 0; i < n; i++)
            text[i] = (uint8_t)(0x20 + (text[i] * 95 >> 8));
}

static void put_descriptor(struct rng *r, struct section *s, size_t n)
{
    begin_thing(s, 1);
    s->bytes[s->n++] = (uint8_t)rng_next(r);
    put_bytes(r, s, n);
}

/* As many as there is room for. */
static void put_descriptors(struct rng *r, struct section *s, unsigned many, unsigned longest, size_t end)
{
    uint8_t *count = put_count(s);

    for (; many > 0 && s->n + 2 <= end; many--, ++*count)
        put_descriptor(r, s, least(rng_edge(r, longest), end - s->n - 2));
}

/* Up to the end, which is at least two bytes behind the count. */
static void put_rest(struct rng *r, struct section *s, size_t end)
{
    uint8_t *count = put_count(s);

    for (; s->n < end; ++*count) {
        const size_t left = end - s->n - 2, n = left <= SECTION_MOST ? left : 128 + rng_below(r, 128);

        put_descriptor(r, s, left - n == 1 ? n - 1 : n);
    }
}

static void make(struct rng *r, struct section *s, const struct shape *shape)
{
    const size_t end = shape->bytes - (shape->full ? 3 : 1); /* of the providers */
    uint8_t *count;

    rng_fill(r, s->bytes, SECTION_LOOPS);
    s->bytes[0] = SECTION_TABLE;
    s->bytes[3] = 0;
    s->n = SECTION_LOOPS;
    s->things = s->names = 0;
    count = put_count(s);
    for (; *count < shape->providers && s->n + 2 <= end; ++*count) {
        put_name(r, s, least(rng_edge(r, shape->name), end - s->n - 2));
        put_descriptors(r, s, rng_edge(r, shape->descriptors), shape->descriptor, end);
    }
    if (shape->full)
        put_rest(r, s, shape->bytes);
    else
        put_descriptors(r, s, rng_edge(r, shape->additional), shape->descriptor, shape->bytes);
    s->start[s->things] = s->n;
    section_number(s, 0, 0, 0);
    section_mend(s);
}

void section_any(struct rng *r, struct section *s)
{
    struct shape shape = {rng_below(r, 6), 24, 3, 12, 3, SECTION_LONGEST, 0};

    if (rng_once_in(r, 8))
        shape.name = SECTION_MOST;
    if (rng_once_in(r, 8))
        shape.descriptor = SECTION_MOST;
    switch (rng_below(r, 32)) {
    case 0: /* any */
        shape.providers = rng_edge(r, SECTION_MOST);
        shape.name = rng_edge(r, SECTION_MOST);
        shape.descriptors = rng_edge(r, 4);
        shape.bytes = 12 + rng_edge(r, SECTION_LONGEST - 12);
        shape.full = rng_once_in(r, 2);
        break;
    case 1: /* as many names as can be */
        shape.providers = SECTION_MOST - rng_below(r, 2);
        shape.name = rng_edge(r, 13);
        shape.descriptors = rng_edge(r, 1);
        shape.descriptor = 0;
        break;
    case 2: /* or descriptors, of one provider or of none */
        shape.providers = rng_below(r, 3);
        shape.descriptors = shape.additional = SECTION_MOST;
        shape.descriptor = rng_edge(r, 6);
        break;
    case 3: /* of any length */
        shape.bytes = 10 + rng_below(r, 400);
        shape.providers = SECTION_MOST;
        shape.full = shape.bytes >= 12;
        break;
    default: break;
    }
    make(r, s, &shape);
}

int section_named(struct rng *r, struct section *s, const char *name)
{
    const struct shape small = {1 + rng_below(r, 4), 20, 2, 12, 1, SECTION_LONGEST, 0}, large = {SECTION_MOST, 40, 2, 40, 0, SECTION_LONGEST, 1};

    if (strcmp(name, "mixed") == 0)
        section_any(r, s);
    else if (strcmp(name, "small") == 0)
        make(r, s, &small);
    else if (strcmp(name, "large") == 0)
        make(r, s, &large);
    else
        return 0;
    return 1;
}

void section_number(struct section *s, unsigned version, unsigned number, unsigned last)
{
    s->bytes[5] = (uint8_t)((s->bytes[5] & 0xC0) | version << 1 | 1);
    s->bytes[6] = (uint8_t)number;
    s->bytes[7] = (uint8_t)last;
}

void section_mend(struct section *s)
{
    s->bytes[1] = (uint8_t)((s->bytes[1] & 0xF0) | ((s->n - 3) >> 8 & 15));
    s->bytes[2] = (uint8_t)(s->n - 3);
}

void section_pad(struct rng *r, struct section *s, size_t to)
{
    if (s->n < to)
        rng_fill(r, s->bytes + s->n, to - s->n);
}

/* ---- What is known of them ---- */

uint64_t section_place(const struct section *s, size_t n)
{
    const size_t *start = s->start + s->name[n];

    return (start[0] + 1) | (uint64_t)(start[1] - start[0] - 1) << 16;
}

size_t section_runs_over(const struct section *s, size_t n)
{
    size_t i = s->things;

    while (s->start[i] > n)
        i--;
    return s->start[i];
}

/* ---- Damages ---- */

/* A byte other than it was: a bit turned over, one more, one less, or any. */
static uint8_t other(struct rng *r, uint8_t byte)
{
    switch (rng_below(r, 4)) {
    case 0: return (uint8_t)(byte + 1);
    case 1: return (uint8_t)(byte - 1);
    case 2: return (uint8_t)(byte ^ 1u << rng_below(r, 8));
    default: return (uint8_t)(byte + 1 + rng_below(r, 255));
    }
}

static void change(struct rng *r, struct section *s, size_t at)
{
    if (at < s->n)
        s->bytes[at] = other(r, s->bytes[at]);
}

/* A place in the loops, as far as they are there. */
static size_t any_place(struct rng *r, const struct section *s)
{
    return SECTION_LOOPS + rng_below(r, s->n > SECTION_LOOPS ? (unsigned)s->n - SECTION_LOOPS : 1);
}

static void cut_out(struct rng *r, struct section *s)
{
    const size_t at = any_place(r, s);

    if (at < s->n)
        memmove(s->bytes + at, s->bytes + at + 1, --s->n - at);
}

/* By a few bytes, or to about the longest. */
static void lengthen(struct rng *r, struct section *s)
{
    const unsigned more = 1 + rng_below(r, 20);
    const size_t to = s->n < SECTION_LONGEST - 8 && rng_once_in(r, 4) ? SECTION_LONGEST - 8 + more : least(s->n + more, SECTION_ROOM);

    section_pad(r, s, to);
    s->n = to;
}

static void small_numbers(struct rng *r, struct section *s)
{
    const unsigned most = 2 + rng_below(r, 5);
    size_t i;

    s->n = SECTION_SHORTEST + rng_below(r, 20);
    for (i = SECTION_LOOPS; i < s->n; i++)
        s->bytes[i] = (uint8_t)rng_below(r, most);
}

void section_damage(struct rng *r, struct section *s, unsigned which)
{
    const size_t thing = rng_below(r, (unsigned)s->things);

    switch (which) {
    case 0: change(r, s, 0); break;
    case 1: change(r, s, 3); break;
    case 2: s->bytes[5] &= 0xFE; break;
    case 3:
        s->bytes[7] = (uint8_t)rng_edge(r, 254);
        s->bytes[6] = (uint8_t)(s->bytes[7] + 1 + rng_below(r, 255u - s->bytes[7]));
        break;
    case 4: s->bytes[rng_below(r, SECTION_SHORTEST)] ^= (uint8_t)(1u << rng_below(r, 8)); break;
    case 5: change(r, s, 1 + rng_below(r, 2)); break;
    case 6: change(r, s, s->start[thing] + s->tagged[thing]); break;
    case 7: change(r, s, any_place(r, s)); break;
    case 8: cut_out(r, s); break;
    case 9: s->n = least(s->n, rng_below(r, rng_once_in(r, 4) ? SECTION_SHORTEST + 3 : (unsigned)s->n + 1)); break;
    case 10: lengthen(r, s); break;
    default: small_numbers(r, s); break;
    }
    if (which >= 8 && !rng_once_in(r, 6))
        section_mend(s);
}

/* ---- Tables ---- */

static void next_table(struct rng *r, struct tables *t)
{
    const unsigned sort = rng_below(r, 8);
    unsigned again, i;

    if (!rng_once_in(r, 3))
        t->version = rng_once_in(r, 2) ? (t->version + 1) % 32 : rng_below(r, 32);
    if (!rng_once_in(r, 3))
        t->last = sort == 0 ? rng_edge(r, 255) : sort == 1 ? 62 + rng_below(r, 4) : rng_below(r, 6);
    again = rng_below(r, t->last + 2);
    t->left = 0;
    for (i = 0; i <= t->last + again; i++) { /* each goes to a place that is any of those so far */
        const unsigned place = rng_below(r, ++t->left);

        t->number[i] = t->number[place];
        t->number[place] = (uint8_t)(i <= t->last ? i : rng_below(r, t->last + 1));
    }
    if (rng_once_in(r, 4))
        t->left -= rng_below(r, t->left);
}

void tables_next(struct rng *r, struct tables *t, struct section *s)
{
    if (t->left == 0)
        next_table(r, t);
    section_number(s, t->version, t->number[--t->left], t->last);
}
