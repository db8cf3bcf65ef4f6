/* The reader of the guide access table of ATSC A/153 Part 3 (7.4, GAT-MH), in plain C11. */
#ifndef GUIDE_H
#define GUIDE_H

#include <stddef.h>
#include <stdint.h>

enum {
    PLAIN_SECTION = 4096, /* the longest section */
    PLAIN_NAMES = 255     /* the most names of one */
};

/* All zeros is an empty gathering. Any content is taken: a version above 31 is
   no section's; bits of numbers above last mean nothing, are not counted, and
   stay as they are while the gathering is not emptied. */
struct plain_guide {
    uint8_t version, last;
    uint64_t noted[4]; /* section n is noted if bit n % 64 of noted[n / 64] is set */
};

enum plain_guide_sort { PLAIN_NOTED, PLAIN_REPEAT, PLAIN_NOT_OURS, PLAIN_NOT_YET, PLAIN_REFUSED };

struct plain_guide_answer {
    enum plain_guide_sort sort;
    unsigned number;  /* 20 to 23 where refused, else 0 */
    unsigned missing; /* sections, where noted or a repeat, else 0 */
    unsigned at;      /* with 23 the offset of the first thing that does not fit, or of the first byte left over; else 0 */
};

/* Reads a section. The gathering changes only where the answer is noted or a repeat. Memory as in plain.h. */
struct plain_guide_answer plain_guide(struct plain_guide *gathering, const uint8_t *section, size_t length);

/* A part of the caller's own section. */
struct plain_name {
    const uint8_t *text;
    size_t length;
};

/* The n-th name, n from 0. The start of the section with length 0 where there
   is none, and for every section that is not answered noted or a repeat. */
struct plain_name plain_guide_name(const uint8_t *section, size_t length, size_t n);

/* All names in one pass, only of a section that was answered noted or a repeat. */
struct plain_names {
    const uint8_t *at, *end;
    unsigned left; /* providers from here on */
};

struct plain_names plain_guide_names(const uint8_t *section, size_t length);

/* 1 and the next name; 0 if there is none. */
int plain_guide_next(struct plain_names *names, struct plain_name *name);

#endif
