/* FIC chunks, segments and the desk of document 01, with 02's unknown ensembles, offsets and services that carry their ensemble, in plain C11. */
#ifndef PLAIN_H
#define PLAIN_H

#include <stddef.h>
#include <stdint.h>

enum {
    PLAIN_PAYLOAD = 35,   /* payload of a segment */
    PLAIN_SEGMENT = 37,   /* a segment: two bytes of header and the payload */
    PLAIN_PLACES = 16,    /* the most segments of a chunk */
    PLAIN_CHUNK = 560,    /* the longest chunk: 16 payloads */
    PLAIN_SV = 8,         /* a service's record in a listing */
    PLAIN_LISTING = 1475, /* the longest listing, and the least room for one */
    PLAIN_OUTPUT = 592    /* the least room for the writer: 16 segments */
};

/* Kinds, everywhere: 1 is "this", 0 is "next". As an argument, any kind other
   than 0 is taken for "this". Memory that is lent to be written must not
   overlap other memory of the same call. A pointer with length 0 may be null. */

/* A thing of a chunk is the header, an ensemble's fields or a single service,
   each with its extension bytes. */
enum plain_thing { PLAIN_HEADER, PLAIN_ENSEMBLE, PLAIN_SERVICE };

/* The first thing that does not fit whole, and its offset in the chunk. In the
   answers of a reader and of a desk, at is that offset with number 9; else 0. */
struct plain_ran_out {
    enum plain_thing thing;
    size_t at;
};

struct plain_read {
    int number; /* 0 where accepted; on refusal the rest but at is 0 */
    int kind;
    int minor;
    size_t length;
    size_t at;
};

struct plain_write {
    int number;
    size_t segments;
};

/* Empty: last, held and spoiled are 0. Spoiled: spoiled is 1, last and held
   are 0. Either way, and in every place not held, the bytes are zeros. */
struct plain_slot {
    unsigned last;
    unsigned held; /* set of 16 bits: bit i is place i */
    int spoiled;
    uint8_t bytes[PLAIN_CHUNK];
};

struct plain_desk {
    struct plain_slot slot[2]; /* index: 1 this, 0 next */
    size_t length[2];          /* same index; 0 is no listing */
    int swapped;               /* 1: the second buffer serves this frame */
};

struct plain_answer {
    int number; /* 0 where accepted; on refusal the rest but at is 0 */
    int listed; /* 1: kind and length say which listing; 0: missing counts */
    int kind;
    size_t missing;
    size_t length;
    size_t at;
};

/* Reads a chunk; the listing goes to the start of buffer. An ensemble of a
   version other than 0 is listed as EU, id, version, without its services; a
   service of any other has its ensemble's id behind its mark. */
struct plain_read plain_read(const uint8_t *chunk, size_t n, uint8_t *buffer, size_t room);

/* The number that it answers if there is room; with 9, and only then, *ran_out
   is what does not fit whole. */
int plain_check(const uint8_t *chunk, size_t n, struct plain_ran_out *ran_out);

/* Writes the segments of a listing without EU, and with each service under the
   EN whose id it has, to the start of out. */
struct plain_write plain_write(const uint8_t *listing, size_t n, int kind, uint8_t *out, size_t room);

void plain_fresh(struct plain_desk *desk);
void plain_gathering(struct plain_desk *desk);
void plain_frame(struct plain_desk *desk);
int plain_well_formed(const struct plain_desk *desk);

struct plain_answer plain_segment(struct plain_desk *desk, const uint8_t *seg, size_t n,
                                  uint8_t *first, size_t n1, uint8_t *second, size_t n2);

/* The part of first or second that holds the listing of that kind;
   null with *length 0 where that is empty. */
const uint8_t *plain_show(const struct plain_desk *desk, int kind,
                          const uint8_t *first, size_t n1,
                          const uint8_t *second, size_t n2, size_t *length);

/* The same calls without the check of the desk: only for a desk that is well
   formed, such as one that has come from plain_fresh by these calls alone. */
void plain_gathering_formed(struct plain_desk *desk);
void plain_frame_formed(struct plain_desk *desk);
struct plain_answer plain_segment_formed(struct plain_desk *desk, const uint8_t *seg, size_t n,
                                         uint8_t *first, size_t n1, uint8_t *second, size_t n2);
const uint8_t *plain_show_formed(const struct plain_desk *desk, int kind,
                                 const uint8_t *first, size_t n1,
                                 const uint8_t *second, size_t n2, size_t *length);

#endif
