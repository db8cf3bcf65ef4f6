/* The reader and the writer of the tunnel of ATSC A/324 (6.3, STLTP), and the reader of stored packets, in plain C11. */
#ifndef TUNNEL_H
#define TUNNEL_H

#include <stddef.h>
#include <stdint.h>

enum {
    PLAIN_HEADER_RTP = 12,  /* an outer packet's header */
    PLAIN_OUTER = 1500,     /* the longest outer packet */
    PLAIN_SHORTEST = 28,    /* the shortest inner packet */
    PLAIN_PACKET = 1500,    /* the longest */
    PLAIN_UNWRAPPED = 4096, /* the least room for what one call stores */
    PLAIN_SIZE_LEAST = 64,  /* a payload of the writer, but for the last before a close */
    PLAIN_SIZE_MOST = 1400
};

/* All zeros is a fresh reader. Any content is taken: the part counts only if it
   begins with half byte 4 and, from four bytes on, has a length within the
   limits and above held; last counts modulo 65,536. */
struct plain_tunnel {
    int begun;     /* not 0: last is the last accepted sequence number */
    unsigned last;
    size_t held;   /* bytes of the part */
    uint8_t part[PLAIN_PACKET];
};

struct plain_unwrapped {
    int number; /* 0, 1, 16, 17; with 1 and 16, and with a repeat, the rest is 0 */
    int repeat;
    size_t stored; /* bytes at the start of the output */
    unsigned gap;  /* outer packets left out */
    size_t lost;   /* bytes thrown away, of the part and of the payload */
};

/* Reads an outer packet. Finished packets go to the start of out as stored
   packets: IP, the length in two bytes, the bytes. Memory as in plain.h. */
struct plain_unwrapped plain_unwrap(struct plain_tunnel *t, const uint8_t *outer, size_t n, uint8_t *out, size_t room);

/* The next packet of a store at a place: 0 and *length (0 at the end), or 15
   with *length 0. The packet is at store + at + 4. */
int plain_next_packet(const uint8_t *store, size_t n, size_t at, size_t *length);

/* Any content is taken: a left that is not below size is nothing; a begin at or
   past what is left is no packet's; next counts modulo 65,536. */
struct plain_wrapper {
    size_t size;        /* of a payload */
    unsigned next;      /* sequence number */
    size_t left;        /* bytes that wait */
    size_t begin;       /* where in them a packet first begins */
    uint32_t timestamp; /* of the first of them */
    uint8_t bytes[PLAIN_SIZE_MOST];
};

struct plain_wrapped {
    int number;   /* 0, 1, 18, 19 */
    size_t wrote; /* bytes at the start of the output; 0 with a refusal, which changes nothing */
};

/* A fresh writer: nothing is left. */
void plain_wrapper(struct plain_wrapper *w, size_t size, unsigned first);

/* Takes a packet. The outer packets that it finishes go end to end to the start of out. */
struct plain_wrapped plain_wrap(struct plain_wrapper *w, const uint8_t *packet, size_t n, uint32_t timestamp, uint8_t *out, size_t room);

/* Sends what is left, if anything, as one shorter outer packet. */
struct plain_wrapped plain_close(struct plain_wrapper *w, uint8_t *out, size_t room);

#endif
