/* For the tests of the programs log and explain: what the log's records are to print. */
#ifndef CHECK_LOG_H
#define CHECK_LOG_H

#include "check.h"
#include "plain.h"

static char want[4000000];
static size_t want_n;

#define EXPECT(...) (want_n += (size_t)sprintf(want + want_n, __VA_ARGS__))

static inline void expect(const char *text)
{
    EXPECT("%s", text);
}

static inline void expect_hex(const uint8_t *p, size_t n)
{
    for (; n > 0; n--)
        EXPECT("%02x", *p++);
    expect("\n");
}

/* A new frame, with its listing, if there is one. */
static inline void expect_frame(const uint8_t *listing, size_t n)
{
    if (n == 0) {
        expect("FR none\n");
        return;
    }
    EXPECT("FR %zu\n", n);
    expect_hex(listing, n);
}

/* A segment, with its listing, where it is listed. */
static inline void expect_answer(const struct plain_answer *a, const uint8_t *listing)
{
    if (a->number == 9)
        EXPECT("SG 9 at %zu\n", a->at);
    else if (a->number != 0)
        EXPECT("SG %d\n", a->number);
    else if (!a->listed)
        EXPECT("SG 0 missing %zu\n", a->missing);
    else {
        EXPECT("SG 0 list %s %zu\n", a->kind ? "this" : "next", a->length);
        expect_hex(listing, a->length);
    }
}

/* Runs the program on its input, given in pieces of that many bytes (0: a file); whether it prints what is wanted. */
static inline int prints(size_t piece)
{
    return run_program(">test.out", piece) == 0 && has("test.out", want, want_n);
}

#endif
