/* Inputs for the reader, the writer and the log program, from a generator. */
#ifndef MAKE_H
#define MAKE_H

#include "random.h"

#include <stddef.h>
#include <stdint.h>

enum {
    MAKE_CHUNK = 560,   /* the longest chunk */
    MAKE_PAYLOAD = 35,
    MAKE_SEGMENT = 37,
    MAKE_PLACES = 16,
    MAKE_ENSEMBLES = 255,
    MAKE_SERVICES = 255 * 255,
    MAKE_SV = 8,        /* a service's record in a listing */
    MAKE_LISTING = 5 + 255 * (6 + MAKE_SV * 255), /* the longest that counts of 255 allow */
    MAKE_ROOM = MAKE_LISTING + 4096,              /* and what a damage may append */
    MAKE_CHUNK_DAMAGES = 10,
    MAKE_LISTING_DAMAGES = 15
};

struct make_ensemble {
    uint8_t id, version, flags, channel, services; /* of a version other than 0 it is unknown */
};

struct make_service {
    uint16_t id;
    uint8_t multi, status, sp;
};

struct make_list {
    uint16_t stream;
    unsigned ensembles;
    unsigned unknown;  /* of them */
    unsigned services; /* of all ensembles */
    struct make_ensemble ensemble[MAKE_ENSEMBLES];
    struct make_service service[MAKE_SERVICES]; /* in order */
};

/* How a chunk puts a list: minor edition, extension lengths, kind (1 this). */
struct make_shape {
    unsigned minor, header, ensemble, service, kind;
    int ones; /* 1: reserved bits ones and stuffing FF; 0: both random */
};

/* A chunk or a listing. Once damaged, shape and start tell what was. */
struct made {
    struct make_shape shape;
    unsigned ensembles;
    size_t start[MAKE_ENSEMBLES + 1]; /* of each ensemble; the end of the last */
    size_t n;
    uint8_t bytes[MAKE_ROOM];
};

/* Any shape, of either kind, reserved bits random. */
struct make_shape make_shape(struct rng *r);

/* A list whose chunk of this shape is at most so long (or has no ensembles); none is unknown. */
void make_list(struct rng *r, struct make_list *list, const struct make_shape *shape, size_t limit);

/* A list with these counts; the services are spread over the ensembles, of which none is unknown. */
void make_counts(struct rng *r, struct make_list *list, unsigned ensembles, unsigned services);

/* Makes ensembles of the list unknown: one, the last, all but one, all, or any; with their services. */
void make_unknown(struct rng *r, struct make_list *list);

/* The length of the list's chunk, without stuffing. */
size_t make_size(const struct make_list *list, const struct make_shape *shape);

/* The list's chunk, without stuffing; its length must be at most MAKE_ROOM. */
void make_chunk(struct rng *r, const struct make_list *list, const struct make_shape *shape, struct made *to);

/* A list and its chunk, of this shape and of at most so many bytes; some have unknown ensembles. */
void make_any_chunk(struct rng *r, struct make_list *list, const struct make_shape *shape, size_t limit, struct made *to);

/* Stuffing up to that length, if the chunk is shorter. */
void make_stuffing(struct rng *r, struct made *chunk, size_t length);

void make_listing(const struct make_list *list, struct made *to);

/* One damage. For both, which is
   0 a byte changed, 1 several bytes changed, 2 a byte cut out, 3 a cut at the end, 4 bytes appended,
   5 the number of ensembles and 6 a number of services raised or lowered;
   for a chunk 7 a version set, 8 the major set, 9 an extension length or the kind changed;
   for a listing 7 a mark broken, 8 a field over its limit, 9 a record cut out or doubled, 10 an ensemble made unknown,
   11 a service's ensemble id changed, 12 an ensemble's id changed, 13 that and its services' changed alike, so that a sound
   listing stays so, 14 ensemble ids cut out of services, as these had none before. */
void make_damage_chunk(struct rng *r, struct made *chunk, unsigned which);
void make_damage_listing(struct rng *r, struct made *listing, unsigned which);

/* Cuts a chunk of at most 560 bytes into segments, headers sound; answers how many, at least 1. */
unsigned make_segments(struct rng *r, const uint8_t *chunk, size_t n, unsigned kind, int ones,
                       uint8_t to[MAKE_PLACES][MAKE_SEGMENT]);

#endif
