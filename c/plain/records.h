/* Records with a length of two bytes behind their mark, for the programs. */
#ifndef RECORDS_H
#define RECORDS_H

#include <stddef.h>
#include <stdint.h>

enum { HEAD = 4 }; /* the mark and the length */

#define UNKNOWN ((size_t)-1)

/* The bytes of the record at the start of n bytes: 0 if not all of it is there, UNKNOWN if another mark is. */
static inline size_t record_at(const uint8_t *in, size_t n, const char *mark)
{
    size_t length;

    if (n < 2)
        return 0;
    if (in[0] != (uint8_t)mark[0] || in[1] != (uint8_t)mark[1])
        return UNKNOWN;
    if (n < HEAD)
        return 0;
    length = (size_t)in[2] << 8 | in[3];
    return n - HEAD < length ? 0 : HEAD + length;
}

#endif
