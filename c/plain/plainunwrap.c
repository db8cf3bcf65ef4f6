/* The program unwrap: outer packets on standard input, stored packets on standard output, the report on standard error. */
#define _POSIX_C_SOURCE 200809L

#include "output.h"
#include "records.h"
#include "tunnel.h"

#include <signal.h>
#include <stdio.h>

enum {
    RECORD = HEAD + 65535, /* the longest */
    LINE = 256             /* more than a line of the report ever has */
};

struct work {
    struct plain_tunnel tunnel;
    uint64_t records; /* taken */
    struct output packets, report;
    uint8_t in[RECORD - 1 + BLOCK]; /* the start of a cut record, then a block */
};

static int failed(const struct work *w)
{
    return w->packets.failed || w->report.failed;
}

static void put_line(struct output *to, uint64_t record, const struct plain_unwrapped *a)
{
    make_room(to, sizeof to->bytes, LINE);
    put_text(to, "OP ");
    put_number(to, record, ' ');
    if (a->number != 0)
        put_number(to, (uint64_t)a->number, ' ');
    if (a->repeat)
        put_text(to, "repeat ");
    if (a->gap > 0) {
        put_text(to, "gap ");
        put_number(to, a->gap, ' ');
    }
    if (a->lost > 0) {
        put_text(to, "lost ");
        put_number(to, a->lost, ' ');
    }
    to->bytes[to->used - 1] = '\n';
}

static void do_outer(struct work *w, const uint8_t *outer, size_t n)
{
    struct output *to = &w->packets;
    struct plain_unwrapped a;

    make_room(to, sizeof to->bytes, PLAIN_UNWRAPPED);
    a = plain_unwrap(&w->tunnel, outer, n, to->bytes + to->used, sizeof to->bytes - to->used);
    to->used += a.stored;
    w->records++;
    if (a.number != 0 || a.repeat || a.gap > 0 || a.lost > 0)
        put_line(&w->report, w->records, &a);
}

/* Takes whole records from the start of what is there. Answers how many bytes they are; *unknown is 1 if an unknown mark follows them. */
static size_t take_records(struct work *w, size_t n, int *unknown)
{
    size_t at = 0, size;

    while (!failed(w) && (size = record_at(w->in + at, n - at, "OP")) != 0) {
        if (size == UNKNOWN) {
            *unknown = 1;
            break;
        }
        do_outer(w, w->in + at + HEAD, size - HEAD);
        at += size;
    }
    return at;
}

/* Tells why it stops before the end of the input; answers the exit status. */
static int stop(const char *what, int why)
{
    if (why == EPIPE) /* whoever read it has gone */
        return 0;
    fprintf(stderr, "plainunwrap: standard %s: %s\n", what, strerror(why));
    return 1;
}

static int end(struct work *w, int number)
{
    struct output *to = &w->report;

    make_room(to, sizeof to->bytes, LINE);
    if (w->tunnel.held > 0) {
        put_text(to, "held ");
        put_number(to, w->tunnel.held, '\n');
    }
    put_text(to, "END ");
    put_number(to, (uint64_t)number, '\n');
    flush(to);
    return to->failed ? stop("error could not be written", to->failed) : 0;
}

static int run(struct work *w)
{
    size_t kept = 0; /* of a cut record */
    int unknown = 0;

    for (;;) {
        ssize_t got = read(STDIN_FILENO, w->in + kept, BLOCK);
        size_t n, taken;

        if (got < 0 && errno == EINTR)
            continue;
        if (got < 0)
            return stop("input could not be read", errno);
        if (got == 0)
            return end(w, kept > 0 ? 15 : 0);
        n = kept + (size_t)got;
        taken = take_records(w, n, &unknown);
        /* what there is goes out before more is waited for */
        flush(&w->packets);
        flush(&w->report);
        if (w->packets.failed)
            return stop("output could not be written", w->packets.failed);
        if (w->report.failed)
            return stop("error could not be written", w->report.failed);
        if (unknown)
            return end(w, 15);
        kept = n - taken;
        memmove(w->in, w->in + taken, kept);
    }
}

int main(int argc, char **argv)
{
    static struct work work;

    (void)argv;
    if (argc > 1) {
        fprintf(stderr, "plainunwrap: takes no words; put < before a file's name\n");
        return 2;
    }
    signal(SIGPIPE, SIG_IGN);
    work.packets.to = STDOUT_FILENO;
    work.report.to = STDERR_FILENO;
    return run(&work);
}
