#include "make.h"

#include <string.h>

/* ---- Lists ---- */

struct make_shape make_shape(struct rng *r)
{
    const struct make_shape shape = {rng_below(r, 8), rng_edge(r, 7), rng_edge(r, 7),
                                     rng_edge(r, 7),  rng_below(r, 2), 0};

    return shape;
}

/* All but the counts. */
static void make_fields(struct rng *r, struct make_list *list)
{
    unsigned i;

    list->stream = (uint16_t)rng_edge(r, 0xFFFF);
    list->unknown = 0;
    for (i = 0; i < list->ensembles; i++) {
        list->ensemble[i].id = (uint8_t)rng_edge(r, 0xFF);
        list->ensemble[i].version = 0;
        list->ensemble[i].flags = (uint8_t)rng_edge(r, 7);
        list->ensemble[i].channel = (uint8_t)rng_edge(r, 31);
    }
    for (i = 0; i < list->services; i++) {
        const uint64_t x = rng_next(r);

        list->service[i].id = (uint16_t)((x & 0xF000000) == 0 ? 0 : (x & 0xF000000) == 0xF000000 ? 0xFFFF : x);
        list->service[i].multi = x >> 32 & 3;
        list->service[i].status = x >> 34 & 3;
        list->service[i].sp = x >> 36 & 1;
    }
}

void make_list(struct rng *r, struct make_list *list, const struct make_shape *shape, size_t limit)
{
    const size_t header = 5u + shape->header, ensemble = 4u + shape->ensemble, service = 3u + shape->service;
    const unsigned style = rng_below(r, 6);
    const int empty = rng_once_in(r, 4);
    size_t left = limit < header ? 0 : limit - header;
    unsigned want;

    want = style == 0 ? rng_below(r, 4) : style == 1 ? 1 : style == 2 ? 255 : rng_below(r, style == 3 ? 8 : 20);
    list->ensembles = 0;
    list->services = 0;
    while (list->ensembles < want && left >= ensemble) {
        unsigned most, count;

        left -= ensemble;
        most = left / service > 255 ? 255 : (unsigned)(left / service);
        if (style == 1) /* one ensemble, filled up */
            count = most;
        else if (style == 2) /* many, all or nearly all of them empty */
            count = most > 0 && !empty && rng_once_in(r, 16);
        else if (style == 3) /* any, the last ones short of room */
            count = rng_below(r, most + 1);
        else
            count = rng_below(r, most < 6 ? most + 1 : 6);
        left -= count * service;
        list->services += count;
        list->ensemble[list->ensembles++].services = (uint8_t)count;
    }
    make_fields(r, list);
}

void make_counts(struct rng *r, struct make_list *list, unsigned ensembles, unsigned services)
{
    unsigned i, at;

    if (services > ensembles * 255)
        services = ensembles * 255;
    for (i = 0; i < ensembles; i++)
        list->ensemble[i].services = 0;
    list->ensembles = ensembles;
    list->services = services;
    if (services == ensembles * 255)
        for (i = 0; i < ensembles; i++)
            list->ensemble[i].services = 255;
    else
        for (i = 0; i < services; i++) {
            at = rng_below(r, ensembles);
            while (list->ensemble[at].services == 255)
                at = (at + 1) % ensembles;
            list->ensemble[at].services++;
        }
    make_fields(r, list);
}

void make_unknown(struct rng *r, struct make_list *list)
{
    const unsigned style = rng_below(r, 6);
    const unsigned one = list->ensembles == 0 ? 0 : style == 1 ? list->ensembles - 1 : rng_below(r, list->ensembles);
    unsigned i;

    list->unknown = 0;
    for (i = 0; i < list->ensembles; i++) {
        const int is_unknown = style < 2 ? i == one : style == 2 ? i != one : style == 3 || rng_once_in(r, 2);

        list->ensemble[i].version = (uint8_t)(is_unknown ? 1 + rng_edge(r, 30) : 0);
        list->unknown += is_unknown;
    }
}

size_t make_size(const struct make_list *list, const struct make_shape *shape)
{
    return 5u + shape->header + (size_t)list->ensembles * (4u + shape->ensemble)
         + (size_t)list->services * (3u + shape->service);
}

/* ---- Chunks and listings ---- */

static uint8_t *extension(struct rng *r, uint8_t *to, unsigned n)
{
    rng_fill(r, to, n);
    return to + n;
}

/* Reserved bits, from their mask. */
static unsigned reserved(struct rng *r, const struct make_shape *shape, unsigned mask)
{
    return mask & (shape->ones ? 0xFFu : rng_below(r, 256));
}

void make_chunk(struct rng *r, const struct make_list *list, const struct make_shape *shape, struct made *to)
{
    const struct make_service *service = list->service;
    uint8_t *at = to->bytes;
    unsigned i, j;

    to->shape = *shape;
    to->ensembles = list->ensembles;
    *at++ = (uint8_t)(shape->minor << 3 | shape->header);
    *at++ = (uint8_t)(shape->ensemble << 5 | shape->service << 2 | reserved(r, shape, 2) | shape->kind);
    *at++ = (uint8_t)(list->stream >> 8);
    *at++ = (uint8_t)list->stream;
    at = extension(r, at, shape->header);
    *at++ = (uint8_t)list->ensembles;
    for (i = 0; i < list->ensembles; i++) {
        const struct make_ensemble *ensemble = &list->ensemble[i];

        to->start[i] = (size_t)(at - to->bytes);
        *at++ = ensemble->id;
        *at++ = (uint8_t)(reserved(r, shape, 0xE0) | ensemble->version);
        *at++ = (uint8_t)(ensemble->flags << 5 | ensemble->channel);
        at = extension(r, at, shape->ensemble);
        *at++ = ensemble->services;
        for (j = 0; j < ensemble->services; j++) {
            *at++ = (uint8_t)(service->id >> 8);
            *at++ = (uint8_t)service->id;
            *at++ = (uint8_t)(reserved(r, shape, 0xE0) | (unsigned)service->multi << 3
                              | (unsigned)service->status << 1 | service->sp);
            at = extension(r, at, shape->service);
            service++;
        }
    }
    to->n = (size_t)(at - to->bytes);
    to->start[i] = to->n;
}

void make_any_chunk(struct rng *r, struct make_list *list, const struct make_shape *shape, size_t limit, struct made *to)
{
    make_list(r, list, shape, limit);
    if (rng_once_in(r, 3))
        make_unknown(r, list);
    make_chunk(r, list, shape, to);
}

void make_stuffing(struct rng *r, struct made *chunk, size_t length)
{
    const unsigned style = chunk->shape.ones ? 0 : rng_below(r, 4);

    if (length <= chunk->n)
        return;
    if (style < 2)
        memset(chunk->bytes + chunk->n, style == 0 ? 0xFF : 0, length - chunk->n);
    else
        rng_fill(r, chunk->bytes + chunk->n, length - chunk->n);
    chunk->n = length;
}

/* The records of an ensemble, to at; their end. */
static uint8_t *list_known(const struct make_ensemble *ensemble, const struct make_service *service, uint8_t *at)
{
    unsigned i;

    *at++ = 0x45;
    *at++ = 0x4E;
    *at++ = ensemble->id;
    *at++ = ensemble->flags;
    *at++ = ensemble->channel;
    *at++ = ensemble->services;
    for (i = 0; i < ensemble->services; i++, service++) {
        *at++ = 0x53;
        *at++ = 0x56;
        *at++ = ensemble->id;
        *at++ = (uint8_t)(service->id >> 8);
        *at++ = (uint8_t)service->id;
        *at++ = service->multi;
        *at++ = service->status;
        *at++ = service->sp;
    }
    return at;
}

static uint8_t *list_unknown(const struct make_ensemble *ensemble, uint8_t *at)
{
    *at++ = 0x45;
    *at++ = 0x55;
    *at++ = ensemble->id;
    *at++ = ensemble->version;
    return at;
}

void make_listing(const struct make_list *list, struct made *to)
{
    const struct make_service *service = list->service;
    uint8_t *at = to->bytes;
    unsigned i;

    memset(&to->shape, 0, sizeof to->shape);
    to->ensembles = list->ensembles;
    *at++ = 0x54;
    *at++ = 0x53;
    *at++ = (uint8_t)(list->stream >> 8);
    *at++ = (uint8_t)list->stream;
    *at++ = (uint8_t)list->ensembles;
    for (i = 0; i < list->ensembles; i++) {
        const struct make_ensemble *ensemble = &list->ensemble[i];

        to->start[i] = (size_t)(at - to->bytes);
        at = ensemble->version == 0 ? list_known(ensemble, service, at) : list_unknown(ensemble, at);
        service += ensemble->services;
    }
    to->n = (size_t)(at - to->bytes);
    to->start[i] = to->n;
}

/* ---- Damages ---- */

/* A place of the input, more often one before the stuffing; n is not 0. */
static size_t any_place(struct rng *r, const struct made *m)
{
    const size_t end = m->start[m->ensembles];

    return rng_below(r, (unsigned)(end > 0 && end < m->n && !rng_once_in(r, 4) ? end : m->n));
}

/* One bit, or any other value. */
static void change(struct rng *r, struct made *m, size_t at)
{
    if (at < m->n)
        m->bytes[at] ^= (uint8_t)(rng_once_in(r, 2) ? 1u << rng_below(r, 8) : 1 + rng_below(r, 255));
}

static void set(struct made *m, size_t at, unsigned value)
{
    if (at < m->n)
        m->bytes[at] = (uint8_t)value;
}

static unsigned get(const struct made *m, size_t at)
{
    return at < m->n ? m->bytes[at] : 0;
}

static void cut_out(struct made *m, size_t at, size_t length)
{
    if (at >= m->n)
        return;
    if (length > m->n - at)
        length = m->n - at;
    memmove(m->bytes + at, m->bytes + at + length, m->n - at - length);
    m->n -= length;
}

static void put_twice(struct made *m, size_t at, size_t length)
{
    if (at >= m->n || length > m->n - at || length > MAKE_ROOM - m->n)
        return;
    memmove(m->bytes + at + length, m->bytes + at, m->n - at);
    m->n += length;
}

static void recount(struct rng *r, struct made *m, size_t at)
{
    if (at >= m->n)
        return;
    switch (rng_below(r, 8)) {
    case 0: m->bytes[at] = (uint8_t)rng_below(r, 256); break;
    case 1: m->bytes[at] = (uint8_t)(rng_once_in(r, 2) ? 0 : 255); break;
    case 2: case 3: case 4: m->bytes[at]--; break;
    default: m->bytes[at]++; break;
    }
}

/* Damages 0 to 4. */
static void damage(struct rng *r, struct made *m, unsigned which)
{
    const size_t end = m->start[m->ensembles];
    size_t length;
    unsigned i;

    if (m->n == 0 && which < 4)
        return;
    switch (which) {
    case 0:
        change(r, m, any_place(r, m));
        break;
    case 1:
        for (i = 2 + rng_below(r, 7); i > 0; i--)
            change(r, m, any_place(r, m));
        break;
    case 2:
        cut_out(m, any_place(r, m), 1);
        break;
    case 3: /* just before the end of the last record, or anywhere */
        length = end <= m->n && rng_once_in(r, 2) ? end : m->n;
        i = rng_once_in(r, 2) ? 1 + rng_below(r, 12) : 1 + rng_below(r, (unsigned)length + 1);
        m->n = i > length ? 0 : length - i;
        break;
    default:
        length = rng_once_in(r, 512) ? 65536 : 1 + rng_below(r, rng_once_in(r, 2) ? 8 : 600);
        if (length > MAKE_ROOM - m->n)
            length = MAKE_ROOM - m->n;
        rng_fill(r, m->bytes + m->n, length);
        m->n += length;
        break;
    }
}

void make_damage_chunk(struct rng *r, struct made *m, unsigned which)
{
    const size_t start = m->ensembles > 0 ? m->start[rng_below(r, m->ensembles)] : m->n;

    switch (which) {
    case 5: recount(r, m, 4u + m->shape.header); break;
    case 6: recount(r, m, start + 3 + m->shape.ensemble); break;
    case 7: /* once in 8 times to 0 */
        if (start + 1 < m->n)
            m->bytes[start + 1] = (uint8_t)((m->bytes[start + 1] & 0xE0) | (rng_once_in(r, 8) ? 0 : 1 + rng_edge(r, 30)));
        break;
    case 8:
        if (m->n > 0)
            m->bytes[0] = (uint8_t)((m->bytes[0] & 0x3F) | (1 + rng_below(r, 3)) << 6);
        break;
    case 9:
        if (rng_once_in(r, 2))
            set(m, 0, (m->bytes[0] & 0xF8u) | rng_below(r, 8));
        else if (m->n > 1)
            m->bytes[1] ^= (uint8_t)(1u << rng_below(r, 8));
        break;
    default: damage(r, m, which); break;
    }
}

/* An ensemble of a listing: its record, that one's length, one of its services, the length of all of these, and the
   record of the ensemble before. What is not there is at m->n. */
struct pick {
    size_t ensemble, record, service, services, before;
};

static struct pick the_ensemble(const struct made *m, unsigned i)
{
    struct pick p = {m->start[i], 6, m->n, m->start[i + 1] - m->start[i], i > 0 ? m->start[i - 1] : m->n};

    if (p.services < p.record) /* EU */
        p.record = 4;
    p.services -= p.record;
    return p;
}

static struct pick pick_ensemble(struct rng *r, const struct made *m)
{
    struct pick p = {m->n, 6, m->n, 0, m->n};
    unsigned count;

    if (m->ensembles == 0)
        return p;
    p = the_ensemble(m, rng_below(r, m->ensembles));
    count = (unsigned)(p.services / MAKE_SV);
    if (count > 0)
        p.service = p.ensemble + p.record + MAKE_SV * (size_t)(rng_once_in(r, 4) ? count - 1 : rng_below(r, count));
    return p;
}

/* The ensemble ids of the services that stand there, so many bytes of them: set, or cut out. */
static void set_ids(struct made *m, size_t at, size_t length, unsigned id)
{
    const size_t end = at + length;

    for (; at < end; at += MAKE_SV)
        set(m, at + 2, id);
}

static void cut_ids(struct made *m, size_t at, size_t length)
{
    size_t to = at, i;

    if (at >= m->n)
        return;
    if (length > m->n - at)
        length = m->n - at;
    for (i = 0; i < length; i++)
        if (i % MAKE_SV != 2)
            m->bytes[to++] = m->bytes[at + i];
    cut_out(m, to, at + length - to);
}

void make_damage_listing(struct rng *r, struct made *m, unsigned which)
{
    static const uint8_t marks[] = {0x54, 0x53, 0x45, 0x4E, 0x53, 0x56, 0x45, 0x55};
    const struct pick p = pick_ensemble(r, m);
    unsigned i, count;

    switch (which) {
    case 5: recount(r, m, 4); break;
    case 6: recount(r, m, p.ensemble + p.record - 1); break; /* an unknown one has its version there */
    case 7: {
        size_t at = rng_once_in(r, 4) ? 0 : rng_once_in(r, 2) ? p.ensemble : p.service;

        if (rng_once_in(r, 2)) { /* another record's mark */
            i = 2 * rng_below(r, 4);
            set(m, at, marks[i]);
            set(m, at + 1, marks[i + 1]);
        } else
            change(r, m, at + rng_below(r, 2));
        break;
    }
    case 8: {
        static const uint8_t limits[] = {7, 31, 3, 3, 1};

        i = rng_below(r, 5);
        count = rng_below(r, 4);
        set(m, i < 2 ? p.ensemble + 3 + i : p.service + 3 + i,
            count < 2 ? limits[i] + 1u : count == 2 ? 0x80u : limits[i] + 1u + rng_below(r, 255u - limits[i]));
        break;
    }
    case 9:
        i = rng_below(r, 4);
        if (i < 2)
            cut_out(m, i == 0 ? p.ensemble : p.service, i == 0 ? p.record : MAKE_SV);
        else
            put_twice(m, i == 2 ? p.ensemble : p.service, i == 2 ? p.record : MAKE_SV);
        break;
    case 10: /* its services cut out or left */
        set(m, p.ensemble + 1, 0x55);
        set(m, p.ensemble + 3, 1 + rng_edge(r, 30));
        cut_out(m, p.ensemble + 4, p.record - 4 + (rng_once_in(r, 2) ? p.services : 0));
        break;
    case 11: /* the ensemble's before, the high byte of the service's own, any */
        i = rng_below(r, 3);
        set(m, p.service + 2, i == 0 ? get(m, p.before + 2) : i == 1 ? get(m, p.service + 3) : rng_below(r, 256));
        break;
    case 12: change(r, m, p.ensemble + 2); break;
    case 13:
        change(r, m, p.ensemble + 2);
        set_ids(m, p.ensemble + p.record, p.services, get(m, p.ensemble + 2));
        break;
    case 14: /* of one, of an ensemble's, of all */
        i = rng_below(r, 3);
        if (i < 2)
            cut_ids(m, i == 0 ? p.service : p.ensemble + p.record, i == 0 ? MAKE_SV : p.services);
        else
            for (count = m->ensembles; count > 0; count--) {
                const struct pick each = the_ensemble(m, count - 1);

                cut_ids(m, each.ensemble + each.record, each.services);
            }
        break;
    default: damage(r, m, which); break;
    }
}

/* ---- Segments ---- */

unsigned make_segments(struct rng *r, const uint8_t *chunk, size_t n, unsigned kind, int ones,
                       uint8_t to[MAKE_PLACES][MAKE_SEGMENT])
{
    const unsigned count = n == 0 ? 1 : (unsigned)((n + MAKE_PAYLOAD - 1) / MAKE_PAYLOAD);
    unsigned i;

    for (i = 0; i < count; i++) {
        const size_t at = (size_t)i * MAKE_PAYLOAD, left = n - at < MAKE_PAYLOAD ? n - at : MAKE_PAYLOAD;

        to[i][0] = (uint8_t)((ones ? 3 : rng_below(r, 4)) << 4 | kind << 1);
        to[i][1] = (uint8_t)(i << 4 | (count - 1));
        if (left > 0)
            memcpy(to[i] + 2, chunk + at, left);
        if (ones)
            memset(to[i] + 2 + left, 0xFF, MAKE_PAYLOAD - left);
        else
            rng_fill(r, to[i] + 2 + left, MAKE_PAYLOAD - left);
    }
    return count;
}
