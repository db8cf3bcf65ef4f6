/* A small deterministic generator (splitmix64), seeded by a number. */
#ifndef RANDOM_H
#define RANDOM_H

#include <stddef.h>
#include <stdint.h>

struct rng {
    uint64_t state; /* the seed, to begin with */
};

static inline uint64_t rng_next(struct rng *r)
{
    uint64_t z = r->state += 0x9E3779B97F4A7C15u;

    z = (z ^ z >> 30) * 0xBF58476D1CE4E5B9u;
    z = (z ^ z >> 27) * 0x94D049BB133111EBu;
    return z ^ z >> 31;
}

/* 0 to n - 1; n is at least 1. */
static inline unsigned rng_below(struct rng *r, unsigned n)
{
    return (unsigned)((rng_next(r) >> 32) * n >> 32);
}

/* 1 once in n times. */
static inline int rng_once_in(struct rng *r, unsigned n)
{
    return rng_below(r, n) == 0;
}

/* 0 to most; the two ends come more often than the rest. */
static inline unsigned rng_edge(struct rng *r, unsigned most)
{
    const uint64_t x = rng_next(r);

    if ((x & 3) == 0)
        return (x & 4) != 0 ? most : 0;
    return (unsigned)((x >> 32) * ((uint64_t)most + 1) >> 32);
}

static inline void rng_fill(struct rng *r, uint8_t *to, size_t n)
{
    uint64_t x = 0;
    size_t i;

    for (i = 0; i < n; i++) {
        if (i % 8 == 0)
            x = rng_next(r);
        to[i] = (uint8_t)x;
        x >>= 8;
    }
}

#endif
