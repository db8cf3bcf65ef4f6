/* Streams of the tunnel, from a generator: inner packets laid end to end, cut into payloads, and the outer packets that carry these. */
#ifndef OUTER_H
#define OUTER_H

#include "random.h"

#include <stddef.h>
#include <stdint.h>

enum {
    OUTER_HEADER = 12,
    OUTER_PAYLOAD = 1488, /* the longest */
    OUTER_LONGEST = OUTER_HEADER + OUTER_PAYLOAD,
    INNER_SHORTEST = 28,
    INNER_LONGEST = 1500,
    STREAM_BYTES = 1 << 19,
    STREAM_PACKETS = STREAM_BYTES / INNER_SHORTEST,
    STREAM_PAYLOADS = 1 << 17,
    STREAM_CUTS = 8,
    OUTER_DAMAGES = 14,
    OUTER_ROOM = 65535 /* what a damage may make of an outer packet */
};

struct stream {
    size_t packets, payloads;
    size_t start[STREAM_PACKETS + 1]; /* of each packet in the bytes; the end of the last */
    size_t cut[STREAM_PAYLOADS + 1];  /* of each payload, likewise */
    uint8_t bytes[STREAM_BYTES];
};

/* Inner packets of these lengths, the ends more often than the rest, as many as fit in so many bytes. What is in them is
   random, or looks like the heads of packets. */
void stream_packets(struct rng *r, struct stream *s, unsigned least, unsigned most, size_t bytes);

/* The bytes cut into payloads of one size, the last one shorter. */
void stream_cut_even(struct stream *s, size_t size);

/* Into payloads of 0 the longest, 1 one size, 2 any size, 3 0 to 3 bytes, 4 up to 40, 5 each of these by turns, 6 packet by packet,
   7 near the packets' ends. */
void stream_cut(struct rng *r, struct stream *s, unsigned how);

/* So many empty payloads more, behind the first few. */
void stream_pad(struct stream *s, size_t behind, size_t empty);

/* Any packets, of at most so many bytes in all, cut in any way. */
void stream_any(struct rng *r, struct stream *s, size_t bytes);

/* One of the streams that are measured, of at most so many bytes, by its name: small, packets of 28 to 100 bytes in payloads of 1,400; mixed, 28 to 1,500
   in these; large, 1,500 in these; split, 28 to 1,500 in payloads of 200. Answers 0 for another name. */
int stream_named(struct rng *r, struct stream *s, const char *name, size_t bytes);

/* Puts a packet as it is stored; answers how many bytes that are. */
size_t stream_store(const struct stream *s, size_t packet, uint8_t *to);

/* Where in the payload the first packet begins, or its length if none does. */
size_t stream_offset(const struct stream *s, size_t which);

/* The outer packet of a payload, with this sequence number; what the reader does not look at is random. Answers its length. */
size_t stream_outer(struct rng *r, const struct stream *s, size_t which, unsigned sequence, uint8_t *to);

/* A length that no inner packet has: 0 to 27, or 1,501 to 65,535. */
unsigned length_outside(struct rng *r);

/* Makes an inner packet of n bytes one that may not be carried. Answers how many bytes it has: n, or one more or less, within the limits. */
size_t inner_spoil(struct rng *r, uint8_t *packet, size_t n);

/* One damage of an outer packet in OUTER_ROOM bytes, which must have its header: 0 version, 1 padding, 2 extension, 3 CSRC count, 4 payload type,
   5 marker, 6 sequence number, 7 offset, 8 what is not looked at, 9 the first half byte or 10 the length of an inner packet that begins in it,
   11 any byte, 12 cut short, 13 made longer. */
void outer_damage(struct rng *r, uint8_t *outer, size_t *n, unsigned which);

/* A state that calls need not make, and an outer packet that fits it or nearly does: lengths, offset and what is held are about each other. */
struct corner {
    uint32_t begun;
    uint16_t last, held;
    uint8_t part[INNER_LONGEST];
    size_t n;
    uint8_t outer[OUTER_ROOM];
};

void make_corner(struct rng *r, struct corner *to);

/* How many bytes of a part a state holds, whose field says so many. */
size_t part_held(const uint8_t *part, size_t held);

/* The packets' own bytes in a store that has nothing but whole ones, and how many they are; else STORE_BROKEN. */
#define STORE_BROKEN ((size_t)-1)
size_t store_own(const uint8_t *store, size_t n, size_t *packets);

/* Bytes, the high one first. */
unsigned outer_get(const uint8_t *at);
void outer_put(uint8_t *at, unsigned value);

#endif
