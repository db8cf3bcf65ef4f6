#include "outer.h"

#include <string.h>

unsigned outer_get(const uint8_t *at)
{
    return (unsigned)at[0] << 8 | at[1];
}

void outer_put(uint8_t *at, unsigned value)
{
    at[0] = (uint8_t)(value >> 8);
    at[1] = (uint8_t)value;
}

/* ---- Inner packets ---- */

/* Half of them: every four bytes are a packet's head, so that a reader who starts in the midst finds packets there. */
static void make_inner(struct rng *r, uint8_t *to, unsigned length)
{
    unsigned i;

    rng_fill(r, to, length);
    if (rng_once_in(r, 2))
        for (i = 0; i + 4 <= length; i += 4) {
            to[i] = (uint8_t)(0x40 | (to[i] & 15));
            outer_put(to + i + 2, INNER_SHORTEST + rng_edge(r, rng_once_in(r, 2) ? 100 : INNER_LONGEST - INNER_SHORTEST));
        }
    to[0] = (uint8_t)(0x40 | (to[0] & 15));
    outer_put(to + 2, length);
}

void stream_packets(struct rng *r, struct stream *s, unsigned least, unsigned most, size_t bytes)
{
    size_t at = 0;

    s->packets = 0;
    s->start[0] = 0;
    for (;;) {
        const unsigned length = least + rng_edge(r, most - least);

        if (at + length > bytes || at + length > STREAM_BYTES)
            return;
        make_inner(r, s->bytes + at, length);
        at += length;
        s->start[++s->packets] = at;
    }
}

/* ---- Payloads ---- */

static size_t stream_length(const struct stream *s)
{
    return s->start[s->packets];
}

static void uncut(struct stream *s)
{
    s->payloads = 0;
    s->cut[0] = 0;
}

/* The next payload, of this size or what is left; 0 once all bytes are cut. Where cuts get scarce, the longest. */
static int cut_next(struct stream *s, size_t size)
{
    const size_t at = s->cut[s->payloads], left = stream_length(s) - at;

    if (left == 0)
        return 0;
    if (size > OUTER_PAYLOAD || STREAM_PAYLOADS / 2 < s->payloads)
        size = OUTER_PAYLOAD;
    s->cut[++s->payloads] = at + (size < left ? size : left);
    return 1;
}

void stream_cut_even(struct stream *s, size_t size)
{
    uncut(s);
    while (cut_next(s, size))
        ;
}

static size_t any_size(struct rng *r, unsigned how)
{
    switch (how) {
    case 0: return OUTER_PAYLOAD;
    case 3: return rng_below(r, 4);
    case 4: return rng_edge(r, 40);
    default: return rng_edge(r, OUTER_PAYLOAD);
    }
}

/* To the end of each packet, or a few bytes about it, where that is not too far. */
static void cut_near_ends(struct rng *r, struct stream *s, unsigned about)
{
    size_t i;

    uncut(s);
    for (i = 1; i <= s->packets; i++) {
        const size_t aim = s->start[i] + rng_below(r, 2 * about + 1);
        size_t at;

        while ((at = s->cut[s->payloads]) + about < aim && cut_next(s, aim - about - at))
            ;
        if (rng_once_in(r, 8))
            cut_next(s, 0);
    }
    while (cut_next(s, OUTER_PAYLOAD))
        ;
}

void stream_cut(struct rng *r, struct stream *s, unsigned how)
{
    if (how == 1)
        stream_cut_even(s, 1 + rng_below(r, OUTER_PAYLOAD));
    else if (how >= 6)
        cut_near_ends(r, s, how == 6 ? 0 : 4);
    else {
        uncut(s);
        while (cut_next(s, any_size(r, how == 5 ? rng_below(r, 5) : how)))
            ;
    }
}

void stream_pad(struct stream *s, size_t behind, size_t empty)
{
    size_t i;

    memmove(s->cut + behind + empty, s->cut + behind, (s->payloads + 1 - behind) * sizeof *s->cut);
    for (i = 0; i < empty; i++)
        s->cut[behind + i] = s->cut[behind + empty];
    s->payloads += empty;
}

/* ---- Streams ---- */

void stream_any(struct rng *r, struct stream *s, size_t bytes)
{
    const unsigned any = rng_below(r, STREAM_CUTS), tiny = any == 3 || any == 4, sizes = rng_below(r, 4);
    const unsigned how = tiny && !rng_once_in(r, 4) ? 5 : any; /* tiny payloads are many */
    const unsigned least = INNER_SHORTEST + (sizes < 2 ? 0 : rng_edge(r, INNER_LONGEST - INNER_SHORTEST)), left = INNER_LONGEST - least;

    if (how == 3 && bytes > INNER_LONGEST + 100)
        bytes = INNER_LONGEST + 100;
    if (how == 4 && bytes > 3 * INNER_LONGEST)
        bytes = 3 * INNER_LONGEST;
    stream_packets(r, s, least, least + (sizes % 2 == 0 && left > 80 ? rng_below(r, 80) : left), bytes);
    stream_cut(r, s, how);
}

int stream_named(struct rng *r, struct stream *s, const char *name, size_t bytes)
{
    static const struct {
        const char *name;
        unsigned least, most, payload;
    } known[] = {{"small", 28, 100, 1400}, {"mixed", 28, 1500, 1400}, {"large", 1500, 1500, 1400}, {"split", 28, 1500, 200}};
    size_t i;

    for (i = 0; i < sizeof known / sizeof *known; i++)
        if (strcmp(name, known[i].name) == 0) {
            stream_packets(r, s, known[i].least, known[i].most, bytes);
            stream_cut_even(s, known[i].payload);
            return 1;
        }
    return 0;
}

size_t stream_store(const struct stream *s, size_t packet, uint8_t *to)
{
    const size_t start = s->start[packet], length = s->start[packet + 1] - start;

    to[0] = 0x49;
    to[1] = 0x50;
    outer_put(to + 2, (unsigned)length);
    memcpy(to + 4, s->bytes + start, length);
    return 4 + length;
}

/* ---- Outer packets ---- */

size_t stream_offset(const struct stream *s, size_t which)
{
    const size_t from = s->cut[which], to = s->cut[which + 1];
    size_t low = 0, high = s->packets; /* the first packet that begins at or behind the payload's start */

    while (low < high) {
        const size_t middle = (low + high) / 2;

        if (s->start[middle] < from)
            low = middle + 1;
        else
            high = middle;
    }
    return s->start[low] < to ? s->start[low] - from : to - from;
}

size_t stream_outer(struct rng *r, const struct stream *s, size_t which, unsigned sequence, uint8_t *to)
{
    const size_t from = s->cut[which], length = s->cut[which + 1] - from, offset = stream_offset(s, which);

    rng_fill(r, to, OUTER_HEADER);
    to[0] = 0x80;
    to[1] = (uint8_t)(97 | (offset < length ? 0x80 : 0));
    outer_put(to + 2, sequence);
    if (offset < length)
        outer_put(to + 10, (unsigned)offset);
    memcpy(to + OUTER_HEADER, s->bytes + from, length);
    return OUTER_HEADER + length;
}

/* ---- Damages ---- */

/* A number near this one, or any. */
static unsigned about(struct rng *r, unsigned value)
{
    switch (rng_below(r, 4)) {
    case 0: return rng_below(r, 65536);
    case 1: return rng_edge(r, INNER_LONGEST + 1);
    default: return (value + rng_below(r, 5) - 2) & 0xFFFF;
    }
}

unsigned length_outside(struct rng *r)
{
    return rng_once_in(r, 2) ? rng_edge(r, INNER_SHORTEST - 1) : INNER_LONGEST + 1 + rng_edge(r, 65534 - INNER_LONGEST);
}

size_t inner_spoil(struct rng *r, uint8_t *packet, size_t n)
{
    const unsigned lengths = INNER_LONGEST - INNER_SHORTEST + 1, past = (unsigned)n - INNER_SHORTEST;

    switch (rng_below(r, 5)) {
    case 0: /* the half byte */
        packet[0] ^= (uint8_t)((1 + rng_below(r, 15)) << 4);
        break;
    case 1: /* it says one more or less */
        outer_put(packet + 2, (unsigned)n + (rng_once_in(r, 2) ? 1 : (unsigned)-1));
        break;
    case 2: /* a length outside the limits */
        outer_put(packet + 2, length_outside(r));
        break;
    case 3: /* another within them */
        outer_put(packet + 2, INNER_SHORTEST + (past + 1 + rng_below(r, lengths - 1)) % lengths);
        break;
    default: /* it has one more or less */
        n += n == INNER_LONGEST || (n > INNER_SHORTEST && rng_once_in(r, 2)) ? (size_t)-1 : 1;
        packet[n - 1] = 0x45;
    }
    return n;
}

/* Where one of the inner packets that begin in an outer packet does; 0 if none. */
static size_t pick_inner(struct rng *r, const uint8_t *outer, size_t n)
{
    size_t at = OUTER_HEADER + outer_get(outer + 10), pick = 0;
    unsigned found = 0, length = 1;

    if ((outer[1] & 0x80) == 0)
        return 0;
    for (; length > 0 && at + 4 <= n; at += length) {
        if (rng_once_in(r, ++found))
            pick = at;
        length = outer_get(outer + at + 2);
    }
    return pick;
}

static void resize(struct rng *r, uint8_t *outer, size_t *n, size_t to)
{
    if (to > *n)
        rng_fill(r, outer + *n, to - *n);
    *n = to;
}

void outer_damage(struct rng *r, uint8_t *outer, size_t *n, unsigned which)
{
    const size_t inner = which == 9 || which == 10 ? pick_inner(r, outer, *n) : 0;

    switch (which) {
    case 0: outer[0] ^= (uint8_t)((1 + rng_below(r, 3)) << 6); break;
    case 1: outer[0] ^= 0x20; break;
    case 2: outer[0] ^= 0x10; break;
    case 3: outer[0] ^= (uint8_t)(1 + rng_below(r, 15)); break;
    case 4: outer[1] ^= (uint8_t)(rng_once_in(r, 2) ? 1u << rng_below(r, 7) : 1 + rng_below(r, 127)); break;
    case 5: outer[1] ^= 0x80; break;
    case 6: outer_put(outer + 2, about(r, outer_get(outer + 2))); break;
    case 7: outer_put(outer + 10, about(r, rng_once_in(r, 2) ? (unsigned)*n - OUTER_HEADER : outer_get(outer + 10))); break;
    case 8: outer[4 + rng_below(r, 6)] ^= (uint8_t)(1 + rng_below(r, 255)); break;
    case 9:
        if (inner > 0)
            outer[inner] ^= (uint8_t)((1 + rng_below(r, 15)) << 4);
        break;
    case 10:
        if (inner > 0)
            outer_put(outer + inner + 2, about(r, rng_once_in(r, 2) ? INNER_SHORTEST : outer_get(outer + inner + 2)));
        break;
    case 11: outer[rng_below(r, (unsigned)*n)] ^= (uint8_t)(1 + rng_below(r, 255)); break;
    case 12: resize(r, outer, n, *n - rng_below(r, rng_once_in(r, 2) || *n < 5 ? (unsigned)*n + 1 : 5)); break;
    default: resize(r, outer, n, *n + rng_below(r, *n > 1600 || rng_once_in(r, 2) ? 5 : 1600 - (unsigned)*n + 1)); break;
    }
}

/* ---- Corners ---- */

/* A length: the limits, about them, or any; seldom outside. */
static unsigned any_inner(struct rng *r)
{
    switch (rng_below(r, 16)) {
    case 0: return INNER_SHORTEST - 1;
    case 1: return INNER_LONGEST + 1;
    case 2: return rng_below(r, 65536);
    case 3: return INNER_LONGEST;
    case 4: case 5: case 6: return INNER_SHORTEST + rng_edge(r, INNER_LONGEST - INNER_SHORTEST);
    default: return INNER_SHORTEST + rng_edge(r, 12);
    }
}

/* Packet behind packet up to n, of which few are faulty. */
static void fill_packets(struct rng *r, uint8_t *to, size_t n)
{
    size_t at = 0;

    rng_fill(r, to, n);
    while (at + 4 <= n) {
        const unsigned length = any_inner(r);

        if (!rng_once_in(r, 32))
            to[at] = (uint8_t)(0x40 | (to[at] & 15));
        outer_put(to + at + 2, length);
        at += length == 0 ? 1 : length;
    }
    if (at < n && !rng_once_in(r, 4))
        to[at] = (uint8_t)(0x40 | (to[at] & 15));
}

static uint16_t any_held(struct rng *r, unsigned length)
{
    switch (rng_below(r, 8)) {
    case 0: return 0;
    case 1: return (uint16_t)rng_below(r, 8);
    case 2: return (uint16_t)rng_below(r, 65536);
    case 3: return (uint16_t)(INNER_LONGEST - 2 + rng_below(r, 5));
    case 4: return (uint16_t)(length + rng_below(r, 3) - 1);
    default: return (uint16_t)rng_below(r, length + 1);
    }
}

/* Up to the longest payload, and at times a byte more. */
static size_t any_payload(struct rng *r, size_t rest)
{
    size_t n;

    switch (rng_below(r, 8)) {
    case 0: n = rng_below(r, 8); break;
    case 1: n = OUTER_PAYLOAD; break;
    case 2: case 3: n = rest + rng_below(r, 3) - 1; break;
    case 4: n = rest + rng_below(r, 200); break;
    default: n = rng_edge(r, OUTER_PAYLOAD); break;
    }
    if (n <= OUTER_PAYLOAD)
        return n;
    return rng_once_in(r, 64) ? OUTER_PAYLOAD + 1 : OUTER_PAYLOAD;
}

static size_t any_offset(struct rng *r, size_t rest, size_t n)
{
    switch (rng_below(r, 8)) {
    case 0: return rng_below(r, 6);
    case 1: return n + rng_below(r, 3) - 1;
    case 2: return rng_below(r, 65536);
    case 3: return rng_below(r, (unsigned)n + 1);
    case 4: return rest + rng_below(r, 3) - 1;
    default: return rest;
    }
}

/* Makes it the call that stores the most: a packet of the longest that lacks one byte, then as many as can be. */
static void make_fullest(struct corner *to)
{
    uint8_t *at = to->outer + OUTER_HEADER + 1, *end = to->outer + OUTER_LONGEST;

    to->begun = 0;
    to->held = INNER_LONGEST - 1;
    to->part[0] = 0x45;
    outer_put(to->part + 2, INNER_LONGEST);
    to->n = OUTER_LONGEST;
    to->outer[1] |= 0x80;
    outer_put(to->outer + 10, 1);
    while (at < end) {
        const size_t length = end - at < 2 * INNER_SHORTEST ? (size_t)(end - at) : INNER_SHORTEST;

        at[0] = 0x45;
        outer_put(at + 2, (unsigned)length);
        at += length;
    }
}

void make_corner(struct rng *r, struct corner *to)
{
    const unsigned length = any_inner(r);
    uint8_t head[4], *payload = to->outer + OUTER_HEADER;
    size_t rest, n, offset, i;

    rng_fill(r, head, 4);
    if (!rng_once_in(r, 8))
        head[0] = (uint8_t)(0x40 | (head[0] & 15));
    outer_put(head + 2, length);
    to->held = any_held(r, length);
    to->begun = rng_once_in(r, 8) ? 0 : rng_once_in(r, 4) ? (uint32_t)rng_next(r) : 1;
    to->last = (uint16_t)rng_edge(r, 65535);
    rng_fill(r, to->part, sizeof to->part);
    rest = length > to->held ? length - to->held : 0; /* what the packet still lacks */
    n = any_payload(r, rest);
    offset = any_offset(r, rest, n);
    rng_fill(r, to->outer, OUTER_HEADER + n);
    if (offset < n)
        fill_packets(r, payload + offset, n - offset);
    for (i = 0; i < 4; i++) /* the head of the running packet, in the part and behind it */
        if (i < to->held)
            to->part[i] = head[i];
        else if (i - to->held < n && i - to->held < offset)
            payload[i - to->held] = head[i];
    to->n = OUTER_HEADER + n;
    to->outer[0] = 0x80;
    to->outer[1] = (uint8_t)(97 | (rng_once_in(r, 3) ? 0 : 0x80));
    outer_put(to->outer + 2, to->last + (rng_once_in(r, 8) ? rng_below(r, 4) : 1));
    outer_put(to->outer + 10, (unsigned)offset);
    if (rng_once_in(r, 500))
        make_fullest(to);
}

/* ---- What holds for every call ---- */

static int is_length(size_t length)
{
    return length >= INNER_SHORTEST && length <= INNER_LONGEST;
}

size_t part_held(const uint8_t *part, size_t held)
{
    if (held > INNER_LONGEST)
        held = INNER_LONGEST;
    if (held == 0 || (part[0] & 0xF0) != 0x40)
        return 0;
    return held < 4 || (is_length(outer_get(part + 2)) && outer_get(part + 2) > held) ? held : 0;
}

size_t store_own(const uint8_t *store, size_t n, size_t *packets)
{
    size_t at = 0, own = 0;

    for (*packets = 0; at < n; ++*packets) {
        const uint8_t *head = store + at;
        const size_t length = n - at < 4 + INNER_SHORTEST ? 0 : outer_get(head + 2);

        if (!is_length(length) || length > n - at - 4 || outer_get(head) != 0x4950 || head[4] >> 4 != 4 || outer_get(head + 6) != length)
            return STORE_BROKEN;
        own += length;
        at += 4 + length;
    }
    return own;
}
