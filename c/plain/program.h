/* Programs that read records on standard input and print lines on standard output. */
#ifndef PROGRAM_H
#define PROGRAM_H

#include "output.h"
#include "records.h"

#include <signal.h>
#include <stdio.h>

enum { RECORD = HEAD + 65535 }; /* the longest, with a length of two bytes */

struct program {
    const char *name;
    size_t lines; /* more bytes than one record ever prints */

    /* Takes the record at the start of n bytes and prints its lines, for which there is room. Answers as record_at: where there is none, nothing happens. */
    size_t (*take)(struct output *out, const uint8_t *in, size_t n);
};

/* Takes whole records from the start of what is there; no more lines than the limit are gathered. Answers how many bytes they are; *unknown is 1 if an unknown
   mark follows them. (Within main, gcc makes slower code of it.) */
static __attribute__((noinline)) size_t take_records(const struct program *p, struct output *out, size_t limit, const uint8_t *in, size_t n, int *unknown)
{
    size_t at = 0, size = 1;

    while (size != 0 && !out->failed) {
        make_room(out, limit, p->lines);
        size = p->take(out, in + at, n - at);
        if (size == UNKNOWN) {
            *unknown = 1;
            break;
        }
        at += size;
    }
    return at;
}

/* A refusal's line: the mark, the number, and behind the one that tells an offset, that. */
static inline void put_refused(struct output *out, const char *mark, unsigned number, unsigned telling, size_t at)
{
    put_text(out, mark);
    put_number(out, number, number == telling ? ' ' : '\n');
    if (number == telling) {
        put_text(out, "at ");
        put_number(out, at, '\n');
    }
}

static inline void put_end(const struct program *p, struct output *out, size_t limit, int number)
{
    make_room(out, limit, p->lines);
    put_text(out, number == 0 ? "END 0\n" : "END 15\n");
}

/* Tells why it stops before the end of the input, but not that whoever read its lines has gone. */
static inline void tell(const struct program *p, const char *what, int why)
{
    if (why != EPIPE)
        fprintf(stderr, "%s: standard %s: %s\n", p->name, what, strerror(why));
}

/* Hands over what there is; whether that went well. */
static inline int hand_over(const struct program *p, struct output *out)
{
    flush(out);
    if (out->failed)
        tell(p, "output could not be written", out->failed);
    return !out->failed;
}

static inline void run(const struct program *p, struct output *out)
{
    static uint8_t in[RECORD - 1 + BLOCK]; /* the start of a cut record, then a block */
    size_t kept = 0;                       /* bytes of that start */
    int unknown = 0;

    for (;;) {
        ssize_t got = read(STDIN_FILENO, in + kept, BLOCK);
        size_t n, taken;

        if (got < 0 && errno == EINTR)
            continue;
        if (got < 0) {
            tell(p, "input could not be read", errno);
            return;
        }
        n = kept + (size_t)got;
        taken = take_records(p, out, sizeof out->bytes, in, n, &unknown);
        kept = n - taken;
        if (got == 0 || unknown)
            put_end(p, out, sizeof out->bytes, kept > 0 ? 15 : 0);
        /* what there is goes out before more is waited for */
        if (!hand_over(p, out) || got == 0 || unknown)
            return;
        memmove(in, in + taken, kept);
    }
}

/* Of main; the exit status. */
static inline int run_program(const struct program *p, int argc)
{
    static struct output out;

    if (argc > 1) {
        fprintf(stderr, "%s: takes no words; put < before a file's name\n", p->name);
        return 2;
    }
    signal(SIGPIPE, SIG_IGN); /* a reader of our output that has gone is a write that fails, no more */
    out.to = STDOUT_FILENO;
    run(p, &out);
    return 0;
}

#endif
