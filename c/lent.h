/* What the harnesses share: memories lent to two sides, with watched bytes around them, and how a difference is told, kept and run again. */
#ifndef LENT_H
#define LENT_H

#include "random.h"

#include <signal.h>
#include <stddef.h>
#include <stdint.h>
#include <stdio.h>

enum { OURS, PLAIN, SIDES };
enum { MIDDLE, AT_START, AT_END, PLACES }; /* the latter two: right after, right before memory that can't be touched */
enum {
    GUARD = 64,      /* bytes watched on each side of a memory */
    LONG = 65536,    /* lengths that 16 bits don't hold */
    BUFFER_ROOM = LONG + 4096,
    PATTERNS = LONG, /* places in the pattern at which a buffer's may begin */
    PLANT_EVERY = 100000,
    NOWHERE = -GUARD - 1
};

/* ---- Memories ---- */

/* Where in its region a memory is. */
struct spot {
    uint8_t place, shift;
};

/* A memory as lent to one side: its region, its start, and the watched bytes around it. */
struct lent {
    uint8_t *region, *at;
    size_t size, before, after;
};

extern uint8_t pattern[PATTERNS + BUFFER_ROOM + 2 * GUARD];

/* A region for memories of at most so many bytes, with memory that can't be touched before and after it. */
void lent_new(struct lent *lent, size_t most);

struct spot any_spot(unsigned random);
const char *place_name(struct spot spot);

/* Lays n bytes at a spot, with the pattern around them. */
void lent_lay(struct lent *lent, struct spot spot, const uint8_t *bytes, size_t n);

/* Lays n bytes of the pattern, from there on, at a spot. */
void lent_fill(struct lent *lent, struct spot spot, size_t from, size_t n);

/* Whether the bytes around a memory, or that memory too, are as they were laid. */
int lent_watched(const struct lent *lent, size_t n);
int lent_same(const struct lent *lent, const uint8_t *bytes, size_t n);

/* Where the two begin to differ, or n. */
size_t same(const uint8_t *a, const uint8_t *b, size_t n);

/* Where two that were filled alike differ, or one no longer is the pattern but for its first bytes: from its start, or NOWHERE. */
long lent_differ(const struct lent *a, const struct lent *b, size_t n);
long lent_changed(const struct lent *lent, size_t from, size_t n, size_t written);

/* ---- The run ---- */

extern uint64_t calls, limit, seed;
extern int plant;                      /* 0, or 1 + the side */
extern volatile sig_atomic_t at_work;  /* which side, or -1 */

/* The length of a buffer: most often exactly enough; sometimes longer, a byte too short, 0, or shorter still. */
size_t any_room(struct rng *r, size_t enough);

/* Counts a call, and tells at times how far the run has come; 0 where there are enough. */
int next_call(void);

/* Whether a fault is due. */
int plant_due(void);
void plant_done(void);

/* Of the harness: how the call at work is printed and put into a file. */
void print_call(void);
void put_call(FILE *f);
extern const char kept_mark[5], kept_word[]; /* with which such a file begins, and what its name has */

void print_hex(const uint8_t *from, size_t n);
void put_number(FILE *f, uint64_t x);
uint64_t get_number(FILE *f);
void put_spots(FILE *f, const struct spot *spot, size_t n);
int get_spots(FILE *f, struct spot *spot, size_t n); /* 0 where it has others */

/* Prints what is wrong, and the call; planted is 0, or 1 + the side whose result was made wrong. */
void print_difference(const char *wrong, int planted);

/* Keeps the call at work in a file. */
void keep_call(void);

/* The file of a kept call, behind its mark, or null; and what is said where it is none: the exit status. */
FILE *open_kept(const char *name);
int not_kept(const char *name, FILE *f);

/* Reads the words of main, with so many calls by default, and runs all or replays a file. */
int harness(int argc, char **argv, uint64_t by_default, int (*all)(void), int (*replay)(const char *name));

#endif
