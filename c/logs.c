#include "logs.h"

#include "make.h"

#include <stdio.h>
#include <stdlib.h>
#include <string.h>

unsigned long logs_left;

static struct make_list list;
static struct made made;

static void put_mark(const char *mark)
{
    fwrite(mark, 1, 2, stdout);
}

static void put_segment(const uint8_t *segment)
{
    if (logs_left == 0)
        return;
    logs_left--;
    put_mark("SG");
    fwrite(segment, 1, MAKE_SEGMENT, stdout);
}

static void put_boundary(struct rng *r)
{
    put_mark(rng_once_in(r, 2) ? "GA" : "FR");
}

/* ---- Mixed ---- */

/* The records of a gathering, each with a key that orders them. */
struct record {
    unsigned key, came;
    const char *mark;
    uint8_t segment[MAKE_SEGMENT];
};

enum { STEP = 64, SPAN = 2 * MAKE_PLACES * STEP, RECORDS = 128 };

static struct record record[RECORDS];
static unsigned records;

static int by_key(const void *a, const void *b)
{
    const struct record *x = a, *y = b;

    if (x->key != y->key)
        return x->key < y->key ? -1 : 1;
    return x->came < y->came ? -1 : x->came > y->came;
}

static struct record *add(unsigned key, const char *mark, const uint8_t *segment)
{
    struct record *to = &record[records];

    if (records + 1 < RECORDS) /* what is too much is overwritten */
        records++;
    to->key = key;
    to->came = records;
    to->mark = mark;
    if (segment != NULL)
        memcpy(to->segment, segment, MAKE_SEGMENT);
    return to;
}

/* Makes the chunk one that is refused when it is complete, or (3) of the other kind than its segments. */
static void spoil_chunk(struct rng *r, unsigned how)
{
    switch (how) {
    case 0: make_damage_chunk(r, &made, 8); break;
    case 1: case 2: /* a count that no chunk has room for; 1: the last ensemble's, made unknown */
        if (how == 1 && made.ensembles > 0)
            made.bytes[made.start[made.ensembles - 1] + 1] |= (uint8_t)(1 + rng_below(r, 31));
        made.bytes[made.ensembles > 0 ? made.start[made.ensembles - 1] + 3 + made.shape.ensemble
                                      : 4u + made.shape.header] = 255;
        break;
    case 3: made.bytes[1] ^= 1; break;
    default: make_damage_chunk(r, &made, rng_below(r, MAKE_CHUNK_DAMAGES)); break;
    }
    if (made.n > MAKE_CHUNK)
        made.n = MAKE_CHUNK;
}

static unsigned any_segments(struct rng *r, unsigned kind, uint8_t to[MAKE_PLACES][MAKE_SEGMENT])
{
    static const uint8_t places[] = {1, 1, 1, 2, 2, 3, 4, 5, 7, 11, 15, 16, 16};
    struct make_shape shape = make_shape(r);
    const size_t most = (size_t)MAKE_PAYLOAD * (rng_once_in(r, 4) ? 1 + rng_below(r, MAKE_PLACES)
                                                                     : places[rng_below(r, sizeof places)]);

    shape.kind = kind;
    make_any_chunk(r, &list, &shape, most, &made);
    if (rng_once_in(r, 2))
        make_stuffing(r, &made, most - rng_below(r, MAKE_PAYLOAD));
    if (rng_once_in(r, 5))
        spoil_chunk(r, rng_below(r, 5));
    return make_segments(r, made.bytes, made.n, kind, 0, to);
}

/* A segment that is refused for its header; the rest of it may be wrong too. */
static void spoil_header(struct rng *r, uint8_t *segment)
{
    switch (rng_below(r, 5)) {
    case 0: segment[0] |= (uint8_t)((1 + rng_below(r, 3)) << 6); break;
    case 1: segment[0] |= 1; break;
    case 2: segment[0] |= (uint8_t)((1 + rng_below(r, 3)) << 2); break;
    case 3: segment[1] = (uint8_t)((1 + rng_below(r, 15)) << 4); segment[1] |= (uint8_t)rng_below(r, segment[1] >> 4); break;
    default: rng_fill(r, segment, 2); break;
    }
}

static void add_extras(struct rng *r, unsigned kinds)
{
    const unsigned own = records;
    struct record *to;
    unsigned i;

    if (rng_once_in(r, 2)) /* repeats, nearly always with any reserved bits */
        for (i = 1 + rng_below(r, rng_once_in(r, 3) ? 24 : 3); i > 0; i--) {
            to = &record[rng_below(r, own)];
            to = add(rng_once_in(r, 2) ? rng_below(r, SPAN) : to->key + rng_below(r, SPAN), "SG", to->segment);
            if (!rng_once_in(r, 4))
                to->segment[0] = (uint8_t)((to->segment[0] & 0xCF) | rng_below(r, 4) << 4);
        }
    if (rng_once_in(r, 3))
        for (i = 1 + rng_below(r, 3); i > 0; i--)
            spoil_header(r, add(rng_below(r, SPAN), "SG", record[rng_below(r, own)].segment)->segment);
    if (rng_once_in(r, 5)) { /* a clash: other payload, or another last number */
        to = add(rng_below(r, SPAN + SPAN / 2), "SG", record[rng_below(r, own)].segment);
        if (rng_once_in(r, 2))
            to->segment[2 + rng_below(r, MAKE_PAYLOAD)] ^= (uint8_t)(1u << rng_below(r, 8));
        else
            to->segment[1] = (uint8_t)((to->segment[1] & 0xF0) | rng_below(r, MAKE_PLACES));
    }
    if (kinds == 1 && rng_once_in(r, 8)) /* a piece of the other kind, of the same chunk */
        add(rng_below(r, SPAN), "SG", record[rng_below(r, own)].segment)->segment[0] ^= 2;
    if (rng_once_in(r, 10)) /* a boundary in the midst */
        add(rng_below(r, SPAN), rng_once_in(r, 2) ? "GA" : "FR", NULL);
    if (rng_once_in(r, 12)) /* a piece lost */
        record[rng_below(r, own)].mark = NULL;
}

void logs_gathering(struct rng *r, unsigned extras)
{
    const unsigned kinds = 1 + rng_below(r, 2), first = rng_below(r, 2), order = rng_below(r, 3);
    uint8_t segment[MAKE_PLACES][MAKE_SEGMENT], other[MAKE_PLACES][MAKE_SEGMENT];
    unsigned k, i, n;

    records = 0;
    for (k = 0; k < kinds; k++) {
        n = any_segments(r, first ^ k, segment);
        if (rng_once_in(r, 24) && any_segments(r, first ^ k, other) >= n) /* pieces of two chunks */
            for (i = 0; i < n; i++)
                if (rng_once_in(r, 2))
                    memcpy(segment[i] + 2, other[i] + 2, MAKE_PAYLOAD);
        for (i = 0; i < n; i++) /* one after the other, the two kinds in turn, shuffled */
            add(order == 0 ? (k * MAKE_PLACES + i) * STEP : order == 1 ? 2 * i * STEP + rng_below(r, 2 * STEP) : rng_below(r, SPAN),
                "SG", segment[i]);
    }
    for (; extras > 0; extras--)
        add_extras(r, kinds);
    qsort(record, records, sizeof *record, by_key);
    for (i = 0; i < records; i++)
        if (record[i].mark == NULL)
            continue;
        else if (record[i].mark[0] == 'S')
            put_segment(record[i].segment);
        else
            put_mark(record[i].mark);
    if (rng_once_in(r, 10))
        return; /* no boundary */
    put_boundary(r);
    while (rng_once_in(r, 6))
        put_boundary(r);
}

/* ---- The others ---- */

static void put_chunk(struct rng *r, const struct make_shape *shape)
{
    uint8_t segment[MAKE_PLACES][MAKE_SEGMENT];
    unsigned i, n;

    make_chunk(r, &list, shape, &made);
    n = make_segments(r, made.bytes, made.n, shape->kind, 0, segment);
    for (i = 0; i < n; i++)
        put_segment(segment[i]);
}

/* One of each kind, then a boundary: chunks of one segment, or of 183 services. */
void logs_pair(struct rng *r, int longest)
{
    const struct make_shape plain = {0, 0, 0, 0, 0, 0};
    struct make_shape shape = plain;
    unsigned kind;

    for (kind = 0; kind < 2; kind++) {
        if (longest)
            make_counts(r, &list, 1, 183);
        else {
            shape = make_shape(r);
            make_list(r, &list, &shape, MAKE_PAYLOAD);
            if (rng_once_in(r, 4))
                make_unknown(r, &list);
        }
        shape.kind = kind;
        put_chunk(r, &shape);
    }
    put_boundary(r);
}

/* One list of 16 segments, then repeats of its pieces in turn, with any reserved bits. */
void logs_repeats(struct rng *r)
{
    const struct make_shape shape = {0, 0, 0, 0, 1, 0};
    uint8_t segment[MAKE_PLACES][MAKE_SEGMENT];
    unsigned i, n;

    make_counts(r, &list, 1, 183);
    make_chunk(r, &list, &shape, &made);
    n = make_segments(r, made.bytes, made.n, shape.kind, 0, segment);
    for (i = 0; logs_left > 0; i = (i + 1) % n) {
        put_segment(segment[i]);
        segment[i][0] = (uint8_t)((segment[i][0] & 0xCF) | rng_below(r, 4) << 4);
    }
}

/* ---- The end ---- */

void logs_cut(struct rng *r)
{
    uint8_t bytes[MAKE_SEGMENT];
    const unsigned n = rng_below(r, MAKE_SEGMENT + 1);

    rng_fill(r, bytes, sizeof bytes);
    if (n == MAKE_SEGMENT) {
        putchar("SGF"[rng_below(r, 3)]);
        return;
    }
    put_mark("SG");
    fwrite(bytes, 1, n, stdout);
}
