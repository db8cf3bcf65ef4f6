/* Sections of the guide access table, from a generator: whole ones, the order in which those of a table come, and damages. */
#ifndef SECTIONS_H
#define SECTIONS_H

#include "random.h"

#include <stddef.h>
#include <stdint.h>

enum {
    SECTION_TABLE = 0xDC,   /* the table_id */
    SECTION_LOOPS = 8,      /* where the number of providers is */
    SECTION_SHORTEST = 9,   /* that is refused for nothing in its header */
    SECTION_LONGEST = 4096,
    SECTION_MOST = 255,     /* providers of a section, descriptors of one loop, bytes of a name or of a descriptor */
    SECTION_NUMBERS = 256,  /* sections of a table */
    SECTION_DAMAGES = 12,
    SECTION_ROOM = 65535    /* what a record may have, and a damage may make of a section */
};

/* Once damaged, all but n and bytes tells what was. */
struct section {
    size_t n;
    size_t things;                     /* in its loops: counts, names with their lengths, descriptors */
    size_t start[SECTION_LONGEST + 1]; /* of each; the end of the last */
    uint8_t tagged[SECTION_LONGEST];   /* 1: it is a descriptor, and its length is behind its tag */
    unsigned names;
    size_t name[SECTION_MOST];         /* which of the things it is */
    uint8_t bytes[SECTION_ROOM];
};

/* A section of any shape: few providers or none, as many as can be, long and short names and descriptors, up to the longest. Reserved bits are random, and
   most names are text. It is the only one of version 0, until it gets its numbers. */
void section_any(struct rng *r, struct section *s);

/* One of the sections that are measured, by its name: small, 1 to 4 providers with names of up to 20 bytes; mixed, any; large, 4,096 bytes with many names.
   Answers 0 for another name. */
int section_named(struct rng *r, struct section *s, const char *name);

/* Of this version, with this number, and in force. */
void section_number(struct section *s, unsigned version, unsigned number, unsigned last);

/* section_length, as far as it can say so many bytes. */
void section_mend(struct section *s);

/* Random bytes behind it, up to so many. Its length stays. */
void section_pad(struct rng *r, struct section *s, size_t to);

/* Where the n-th name is in a section that is whole, and above 16 bits its length. */
uint64_t section_place(const struct section *s, size_t n);

/* If it were cut to so many bytes, or had so many: where the first thing begins that does not fit, or the first byte left over. */
size_t section_runs_over(const struct section *s, size_t n);

/* One damage, of a section that is whole or was: 0 another table_id, 1 another protocol version, 2 not yet in force, 3 a number above the last, 4 a bit of the
   header turned over, 5 another section_length, 6 a count or a length in the loops raised or lowered, 7 a byte of the loops changed, 8 one cut out, 9 a cut at
   the end, 10 bytes behind it, 11 small numbers in place of the loops. From 8 on section_length is mended, but for once in a few times. */
void section_damage(struct rng *r, struct section *s, unsigned which);

/* The tables that come one behind the other; zeros, to begin with. */
struct tables {
    unsigned version, last, left;
    uint8_t number[2 * SECTION_NUMBERS]; /* that are left, from the last on */
};

/* Gives a section the next numbers: those of a table in any order, some of them again or not at all; then those of another version or last number, or of the
   same table once more. */
void tables_next(struct rng *r, struct tables *t, struct section *s);

#endif
