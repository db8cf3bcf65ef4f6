#include "plain.h"

#include <string.h>

/* ---- The reader ---- */

/* What the check of a chunk learns, for the listing and for the answer. */
struct chunk_facts {
    unsigned kind;
    unsigned minor;
    size_t header;   /* 5 + h */
    size_t ensemble; /* 4 + e */
    size_t service;  /* 3 + s */
    size_t length;   /* of the listing */
};

static int ends_early(struct plain_ran_out *ran_out, enum plain_thing thing, size_t at)
{
    ran_out->thing = thing;
    ran_out->at = at;
    return 9;
}

/* The reader's checks from 8 on. Writes nothing but the facts, where it answers
   0, and *ran_out, where it answers 9: what does not fit whole. */
static int check_chunk(const uint8_t *chunk, size_t n, struct chunk_facts *facts, struct plain_ran_out *ran_out)
{
    struct chunk_facts f;
    size_t left, length;
    const uint8_t *at;
    unsigned ensembles;

    if (n > PLAIN_CHUNK)
        return 8;
    if (n < 2)
        return ends_early(ran_out, PLAIN_HEADER, 0);
    if (chunk[0] >> 6 != 0)
        return 5;
    f.minor = chunk[0] >> 3 & 7u;
    f.header = 5u + (chunk[0] & 7u);
    f.ensemble = 4u + (chunk[1] >> 5);
    f.service = 3u + (chunk[1] >> 2 & 7u);
    f.kind = chunk[1] & 1u;
    if (n < f.header)
        return ends_early(ran_out, PLAIN_HEADER, 0);

    ensembles = chunk[f.header - 1];
    at = chunk + f.header;
    left = n - f.header;
    length = 5;
    for (; ensembles > 0; ensembles--) {
        size_t services, loop;

        if (left < f.ensemble)
            return ends_early(ran_out, PLAIN_ENSEMBLE, n - left);
        services = at[f.ensemble - 1];
        length += (at[1] & 0x1F) == 0 ? 6 + PLAIN_SV * services : 4; /* EN with its SVs, or EU */
        at += f.ensemble;
        left -= f.ensemble;
        loop = services * f.service;
        if (left < loop)
            return ends_early(ran_out, PLAIN_SERVICE, n - left % f.service); /* behind those that fit whole */
        at += loop;
        left -= loop;
    }
    f.length = length;
    *facts = f;
    return 0;
}

int plain_check(const uint8_t *chunk, size_t n, struct plain_ran_out *ran_out)
{
    struct chunk_facts facts;

    return check_chunk(chunk, n, &facts, ran_out);
}

/* Writes the listing, facts.length bytes, of a chunk that check_chunk accepts. */
static void list_chunk(const uint8_t *chunk, const struct chunk_facts *facts, uint8_t *to)
{
    const size_t ensemble = facts->ensemble;
    const size_t service = facts->service;
    const uint8_t *at = chunk + facts->header;
    unsigned ensembles = at[-1];

    to[0] = 'T';
    to[1] = 'S';
    to[2] = chunk[2];
    to[3] = chunk[3];
    to[4] = (uint8_t)ensembles;
    to += 5;
    for (; ensembles > 0; ensembles--) {
        const uint8_t id = at[0], version = at[1] & 0x1F;
        unsigned services = at[ensemble - 1];

        if (version != 0) { /* unknown: its services are passed over */
            to[0] = 'E';
            to[1] = 'U';
            to[2] = id;
            to[3] = version;
            to += 4;
            at += ensemble + services * service;
            continue;
        }
        to[0] = 'E';
        to[1] = 'N';
        to[2] = id;
        to[3] = at[2] >> 5;
        to[4] = at[2] & 0x1F;
        to[5] = (uint8_t)services;
        to += 6;
        at += ensemble;
        for (; services > 0; services--) {
            const uint8_t high = at[0], low = at[1], bits = at[2];

            to[0] = 'S';
            to[1] = 'V';
            to[2] = id;
            to[3] = high;
            to[4] = low;
            to[5] = bits >> 3 & 3;
            to[6] = bits >> 1 & 3;
            to[7] = bits & 1;
            to += PLAIN_SV;
            at += service;
        }
    }
}

struct plain_read plain_read(const uint8_t *chunk, size_t n, uint8_t *buffer, size_t room)
{
    struct plain_read answer = {0, 0, 0, 0, 0};
    struct chunk_facts facts;
    struct plain_ran_out ran_out = {PLAIN_HEADER, 0};

    if (room < PLAIN_LISTING) {
        answer.number = 1;
        return answer;
    }
    answer.number = check_chunk(chunk, n, &facts, &ran_out);
    if (answer.number != 0) {
        answer.at = ran_out.at;
        return answer;
    }
    list_chunk(chunk, &facts, buffer);
    answer.kind = (int)facts.kind;
    answer.minor = (int)facts.minor;
    answer.length = facts.length;
    return answer;
}

/* ---- The writer ---- */

/* Whether marks, counts, length and values of a listing agree, no ensemble is
   unknown (EU), and each service has the id of the ensemble above it; if so,
   *services is the number of services in all. */
static int check_listing(const uint8_t *listing, size_t n, size_t *services)
{
    size_t left, total = 0;
    const uint8_t *at;
    unsigned ensembles;

    if (n < 5 || listing[0] != 'T' || listing[1] != 'S')
        return 0;
    ensembles = listing[4];
    at = listing + 5;
    left = n - 5;
    for (; ensembles > 0; ensembles--) {
        unsigned count;
        uint8_t id;

        if (left < 6 || at[0] != 'E' || at[1] != 'N' || at[3] > 7 || at[4] > 31)
            return 0;
        id = at[2];
        count = at[5];
        total += count;
        at += 6;
        left -= 6;
        for (; count > 0; count--) {
            if (left < PLAIN_SV || at[0] != 'S' || at[1] != 'V' || at[2] != id
                || at[5] > 3 || at[6] > 3 || at[7] > 1)
                return 0;
            at += PLAIN_SV;
            left -= PLAIN_SV;
        }
    }
    if (left != 0)
        return 0;
    *services = total;
    return 1;
}

/* Writes the chunk, without stuffing, of a listing that check_listing accepts. */
static void chunk_listing(const uint8_t *listing, unsigned kind, uint8_t *to)
{
    unsigned ensembles = listing[4];
    const uint8_t *at = listing + 5;

    to[0] = 0;
    to[1] = (uint8_t)(0x02u | kind);
    to[2] = listing[2];
    to[3] = listing[3];
    to[4] = (uint8_t)ensembles;
    to += 5;
    for (; ensembles > 0; ensembles--) {
        unsigned services = at[5];

        to[0] = at[2];
        to[1] = 0xE0;
        to[2] = (uint8_t)(at[3] << 5 | at[4]);
        to[3] = (uint8_t)services;
        to += 4;
        at += 6;
        for (; services > 0; services--) {
            memcpy(to, at + 3, 2); /* byte by byte, gcc -O3 takes vectors, and longer */
            to[2] = (uint8_t)(0xE0 | at[5] << 3 | at[6] << 1 | at[7]);
            to += 3;
            at += PLAIN_SV;
        }
    }
}

struct plain_write plain_write(const uint8_t *listing, size_t n, int kind, uint8_t *out, size_t room)
{
    struct plain_write answer = {0, 0};
    const unsigned this = kind != 0;
    uint8_t chunk[PLAIN_CHUNK];
    size_t services, length, segments, i;

    if (room < PLAIN_OUTPUT) {
        answer.number = 1;
        return answer;
    }
    if (!check_listing(listing, n, &services)) {
        answer.number = 13;
        return answer;
    }
    length = 5 + 4 * (size_t)listing[4] + 3 * services;
    if (length > PLAIN_CHUNK) {
        answer.number = 14;
        return answer;
    }
    segments = (length + PLAIN_PAYLOAD - 1) / PLAIN_PAYLOAD;
    chunk_listing(listing, this, chunk);
    memset(chunk + length, 0xFF, segments * PLAIN_PAYLOAD - length);
    for (i = 0; i < segments; i++) {
        out[0] = (uint8_t)(0x30u | this << 1);
        out[1] = (uint8_t)(i << 4 | (segments - 1));
        memcpy(out + 2, chunk + i * PLAIN_PAYLOAD, PLAIN_PAYLOAD);
        out += PLAIN_SEGMENT;
    }
    answer.segments = segments;
    return answer;
}

/* ---- The desk ---- */

static const uint8_t zeros[PLAIN_CHUNK];

/* The set of all places up to last, which is at most 15. */
static unsigned places_to(unsigned last)
{
    return (2u << last) - 1u;
}

/* The number of ones in a set of 16 bits: in pairs, in fours, in eights, in all. */
static unsigned ones(unsigned set)
{
    set = (set & 0x5555u) + (set >> 1 & 0x5555u);
    set = (set & 0x3333u) + (set >> 2 & 0x3333u);
    set = (set & 0x0F0Fu) + (set >> 4 & 0x0F0Fu);
    return (set & 0x00FFu) + (set >> 8);
}

static int slot_well_formed(const struct plain_slot *slot)
{
    size_t i, places;

    if (slot->held == 0)
        return slot->last == 0 && (slot->spoiled == 0 || slot->spoiled == 1)
            && memcmp(slot->bytes, zeros, PLAIN_CHUNK) == 0;
    if (slot->spoiled != 0 || slot->last > 15 || slot->held > places_to(slot->last))
        return 0;
    places = slot->last + 1u;
    for (i = 0; i < places; i++)
        if ((slot->held >> i & 1u) == 0
            && memcmp(slot->bytes + i * PLAIN_PAYLOAD, zeros, PLAIN_PAYLOAD) != 0)
            return 0;
    return memcmp(slot->bytes + places * PLAIN_PAYLOAD, zeros,
                  PLAIN_CHUNK - places * PLAIN_PAYLOAD) == 0;
}

static int length_well_formed(size_t length)
{
    return length == 0 || (length >= 5 && length <= PLAIN_LISTING);
}

int plain_well_formed(const struct plain_desk *desk)
{
    return (desk->swapped == 0 || desk->swapped == 1)
        && length_well_formed(desk->length[0]) && length_well_formed(desk->length[1])
        && slot_well_formed(&desk->slot[0]) && slot_well_formed(&desk->slot[1]);
}

void plain_fresh(struct plain_desk *desk)
{
    memset(desk, 0, sizeof *desk);
}

/* A well formed slot that holds nothing and is not spoiled is zeros already. */
static void empty_slot(struct plain_slot *slot)
{
    if (slot->held != 0 || slot->spoiled != 0)
        memset(slot, 0, sizeof *slot);
}

void plain_gathering_formed(struct plain_desk *desk)
{
    empty_slot(&desk->slot[0]);
    empty_slot(&desk->slot[1]);
}

void plain_gathering(struct plain_desk *desk)
{
    if (plain_well_formed(desk))
        plain_gathering_formed(desk);
    else
        plain_fresh(desk);
}

void plain_frame_formed(struct plain_desk *desk)
{
    empty_slot(&desk->slot[0]);
    empty_slot(&desk->slot[1]);
    desk->length[1] = desk->length[0];
    desk->length[0] = 0;
    desk->swapped = !desk->swapped;
}

void plain_frame(struct plain_desk *desk)
{
    if (plain_well_formed(desk))
        plain_frame_formed(desk);
    else
        plain_fresh(desk);
}

static struct plain_answer refused(int number)
{
    struct plain_answer answer = {0, 0, 0, 0, 0, 0};

    answer.number = number;
    return answer;
}

static struct plain_answer still_missing(const struct plain_slot *slot)
{
    struct plain_answer answer = {0, 0, 0, 0, 0, 0};

    answer.missing = slot->last + 1u - ones(slot->held);
    return answer;
}

/* Reads the chunk of a slot whose last missing segment has come. */
static struct plain_answer read_slot(struct plain_desk *desk, unsigned kind,
                                     uint8_t *first, uint8_t *second)
{
    struct plain_answer answer = {0, 0, 0, 0, 0, 0};
    const struct plain_slot *slot = &desk->slot[kind];
    /* This frame has the first buffer unless swapped, the next the other. */
    uint8_t *buffer = (kind == 1) == (desk->swapped == 0) ? first : second;
    struct chunk_facts facts;
    struct plain_ran_out ran_out = {PLAIN_HEADER, 0};

    answer.number = check_chunk(slot->bytes, PLAIN_PAYLOAD * (slot->last + 1u), &facts, &ran_out);
    if (answer.number != 0) {
        answer.at = ran_out.at;
        return answer;
    }
    if (facts.kind != kind)
        return refused(10);
    list_chunk(slot->bytes, &facts, buffer);
    desk->length[kind] = facts.length;
    answer.listed = 1;
    answer.kind = (int)kind;
    answer.length = facts.length;
    return answer;
}

struct plain_answer plain_segment_formed(struct plain_desk *desk, const uint8_t *seg, size_t n,
                                         uint8_t *first, size_t n1, uint8_t *second, size_t n2)
{
    unsigned kind, number, last, bit;
    struct plain_slot *slot;
    uint8_t *place;

    if (n1 < PLAIN_LISTING || n2 < PLAIN_LISTING)
        return refused(1);
    if (n != PLAIN_SEGMENT)
        return refused(2);
    if (seg[0] >> 6 != 0)
        return refused(3);
    if ((seg[0] & 1) != 0)
        return refused(4);
    if ((seg[0] >> 2 & 3) != 0)
        return refused(5);
    number = seg[1] >> 4;
    last = seg[1] & 15u;
    if (number > last)
        return refused(6);

    kind = seg[0] >> 1 & 1u;
    slot = &desk->slot[kind];
    place = slot->bytes + number * PLAIN_PAYLOAD;
    bit = 1u << number;
    if (slot->spoiled != 0)
        return refused(7);
    if ((slot->held != 0 && slot->last != last)
        || ((slot->held & bit) != 0 && memcmp(place, seg + 2, PLAIN_PAYLOAD) != 0)) {
        memset(slot, 0, sizeof *slot);
        slot->spoiled = 1;
        return refused(7);
    }
    if ((slot->held & bit) != 0)
        return still_missing(slot); /* a repeat */

    memcpy(place, seg + 2, PLAIN_PAYLOAD);
    slot->held |= bit;
    slot->last = last;
    if (slot->held != places_to(last))
        return still_missing(slot);
    return read_slot(desk, kind, first, second);
}

struct plain_answer plain_segment(struct plain_desk *desk, const uint8_t *seg, size_t n,
                                  uint8_t *first, size_t n1, uint8_t *second, size_t n2)
{
    if (!plain_well_formed(desk))
        return refused(12);
    return plain_segment_formed(desk, seg, n, first, n1, second, n2);
}

const uint8_t *plain_show_formed(const struct plain_desk *desk, int kind,
                                 const uint8_t *first, size_t n1,
                                 const uint8_t *second, size_t n2, size_t *length)
{
    const unsigned this = kind != 0;

    if (n1 < PLAIN_LISTING || n2 < PLAIN_LISTING || desk->length[this] == 0) {
        *length = 0;
        return NULL;
    }
    *length = desk->length[this];
    return (this == 1) == (desk->swapped == 0) ? first : second;
}

const uint8_t *plain_show(const struct plain_desk *desk, int kind,
                          const uint8_t *first, size_t n1,
                          const uint8_t *second, size_t n2, size_t *length)
{
    if (!plain_well_formed(desk)) {
        *length = 0;
        return NULL;
    }
    return plain_show_formed(desk, kind, first, n1, second, n2, length);
}
