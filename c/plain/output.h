/* Output gathered to blocks, for the programs. */
#ifndef OUTPUT_H
#define OUTPUT_H

#include <errno.h>
#include <stddef.h>
#include <stdint.h>
#include <string.h>
#include <unistd.h>

enum { BLOCK = 65536 };

struct output {
    int to;     /* the descriptor */
    int failed; /* 0, or why it can't be written to (errno); nothing more is then */
    size_t used;
    uint8_t bytes[2 * BLOCK];
};

static inline void flush(struct output *out)
{
    size_t done = 0;

    while (!out->failed && done < out->used) {
        ssize_t wrote = write(out->to, out->bytes + done, out->used - done);

        if (wrote > 0)
            done += (size_t)wrote;
        else if (wrote == 0 || errno != EINTR)
            out->failed = wrote == 0 ? EIO : errno;
    }
    out->used = 0;
}

/* Room for so many bytes, and no more than the limit gathered. The two below need such room. */
static inline void make_room(struct output *out, size_t limit, size_t most)
{
    if (limit - out->used < most)
        flush(out);
}

static inline void put_text(struct output *out, const char *text)
{
    size_t n = strlen(text);

    memcpy(out->bytes + out->used, text, n);
    out->used += n;
}

/* The number, and what is behind it. */
static inline void put_number(struct output *out, uint64_t number, char behind)
{
    uint8_t digits[24];
    size_t at = sizeof digits;

    digits[--at] = (uint8_t)behind;
    do {
        digits[--at] = (uint8_t)('0' + number % 10);
        number /= 10;
    } while (number > 0);
    memcpy(out->bytes + out->used, digits + at, sizeof digits - at);
    out->used += sizeof digits - at;
}

#endif
