/* The program wrap: timestamps and stored packets on standard input, outer packets on standard output, the report on standard error. */
#define _POSIX_C_SOURCE 200809L

#include "output.h"
#include "tunnel.h"

#include <signal.h>
#include <stdio.h>

enum {
    HEAD = 4,                     /* of a record: IP or OP, and a length */
    TIME = 6,                     /* TI and a timestamp */
    RECORD = HEAD + PLAIN_PACKET, /* the longest */
    WRAPPED = 4096,               /* more than one call ever writes, heads and all */
    LINE = 64                     /* more than a line of the report ever has */
};

struct work {
    struct plain_wrapper wrapper;
    uint32_t timestamp;
    uint64_t records; /* taken */
    struct output packets, report;
    uint8_t in[RECORD - 1 + BLOCK]; /* the start of a cut record, then a block */
};

static int failed(const struct work *w)
{
    return w->packets.failed || w->report.failed;
}

/* Where the outer packets of the next call go: the first one's head comes before them. */
static uint8_t *room_for_outers(struct output *to)
{
    make_room(to, sizeof to->bytes, WRAPPED);
    return to->bytes + to->used + HEAD;
}

/* Makes records of the outer packets that stand there, all of one length. They are moved apart, from the last to the first, which stays. */
static void put_outers(struct output *to, size_t wrote, size_t each)
{
    uint8_t *start = to->bytes + to->used;
    const size_t packets = wrote / each;
    size_t i;

    for (i = packets; i-- > 0;) {
        uint8_t *head = start + i * (HEAD + each);

        if (i > 0)
            memmove(head + HEAD, start + HEAD + i * each, each);
        head[0] = 'O';
        head[1] = 'P';
        head[2] = (uint8_t)(each >> 8);
        head[3] = (uint8_t)each;
    }
    to->used += packets * HEAD + wrote;
}

static void do_packet(struct work *w, const uint8_t *packet, size_t n)
{
    struct output *to = &w->report;
    uint8_t *out = room_for_outers(&w->packets);
    const struct plain_wrapped a = plain_wrap(&w->wrapper, packet, n, w->timestamp, out, WRAPPED - HEAD);

    put_outers(&w->packets, a.wrote, PLAIN_HEADER_RTP + w->wrapper.size);
    if (a.number == 0)
        return;
    make_room(to, sizeof to->bytes, LINE);
    put_text(to, "IP ");
    put_number(to, w->records, ' ');
    put_number(to, (uint64_t)a.number, '\n');
}

static void do_time(struct work *w, const uint8_t *at)
{
    w->timestamp = (uint32_t)at[0] << 24 | (uint32_t)at[1] << 16 | (uint32_t)at[2] << 8 | at[3];
}

enum sort { PACKET, TIMESTAMP, CUT, REFUSED };

/* What record the bytes begin with, and its length; one is refused as soon as its mark or its length tells. */
static enum sort sort_of(const uint8_t *at, size_t n, size_t *length)
{
    if (n < 2)
        return CUT;
    if (at[0] == 'T' && at[1] == 'I') {
        *length = TIME;
        return n < TIME ? CUT : TIMESTAMP;
    }
    if (at[0] != 'I' || at[1] != 'P')
        return REFUSED;
    if (n < HEAD)
        return CUT;
    *length = HEAD + ((size_t)at[2] << 8 | at[3]);
    if (*length < HEAD + PLAIN_SHORTEST || *length > RECORD)
        return REFUSED;
    return n < *length ? CUT : PACKET;
}

/* Takes whole records from the start of what is there. Answers how many bytes they are; *refused is 1 if one that is refused follows them. */
static size_t take_records(struct work *w, size_t n, int *refused)
{
    size_t at = 0, length = 0;

    while (!failed(w)) {
        const uint8_t *record = w->in + at;
        const enum sort sort = sort_of(record, n - at, &length);

        *refused = sort == REFUSED;
        if (sort == CUT || sort == REFUSED)
            break;
        w->records++;
        if (sort == PACKET)
            do_packet(w, record + HEAD, length - HEAD);
        else
            do_time(w, record + 2);
        at += length;
    }
    return at;
}

/* Tells why it stops before the end of the input; answers the exit status. */
static int stop(const char *what, int why)
{
    if (why == EPIPE) /* whoever read it has gone */
        return 0;
    fprintf(stderr, "plainwrap: standard %s: %s\n", what, strerror(why));
    return 1;
}

/* Hands over what there is. Whether that went well; else *status is the exit status. */
static int hand_over(struct work *w, int *status)
{
    flush(&w->packets);
    flush(&w->report);
    if (w->packets.failed)
        *status = stop("output could not be written", w->packets.failed);
    else if (w->report.failed)
        *status = stop("error could not be written", w->report.failed);
    return !failed(w);
}

static int end(struct work *w, int number)
{
    struct output *to = &w->report;
    uint8_t *out = room_for_outers(&w->packets);
    const struct plain_wrapped a = plain_close(&w->wrapper, out, WRAPPED - HEAD);
    int status = 0;

    if (a.wrote > 0)
        put_outers(&w->packets, a.wrote, a.wrote);
    flush(&w->packets);
    if (!w->packets.failed) {
        make_room(to, sizeof to->bytes, LINE);
        put_text(to, "END ");
        put_number(to, (uint64_t)number, '\n');
    }
    hand_over(w, &status);
    return status;
}

static int run(struct work *w)
{
    size_t kept = 0; /* of a cut record */
    int refused = 0, status = 0;

    for (;;) {
        ssize_t got = read(STDIN_FILENO, w->in + kept, BLOCK);
        size_t n, taken;

        if (got < 0 && errno == EINTR)
            continue;
        if (got < 0)
            return stop("input could not be read", errno);
        if (got == 0)
            return end(w, kept > 0 ? 15 : 0);
        n = kept + (size_t)got;
        taken = take_records(w, n, &refused);
        /* what there is goes out before more is waited for */
        if (!hand_over(w, &status))
            return status;
        if (refused)
            return end(w, 15);
        kept = n - taken;
        memmove(w->in, w->in + taken, kept);
    }
}

/* The number that a word says, of any digits; 0 if it is none, and one that is too large stays so. */
static size_t size_of(const char *word)
{
    size_t size = 0;

    for (; *word >= '0' && *word <= '9'; word++)
        if (size <= PLAIN_SIZE_MOST)
            size = 10 * size + (size_t)(*word - '0');
    return *word == '\0' ? size : 0;
}

int main(int argc, char **argv)
{
    static struct work work;
    const size_t size = argc > 1 ? size_of(argv[1]) : PLAIN_SIZE_MOST;

    if (argc > 2) {
        fprintf(stderr, "plainwrap: takes one word at most, a payload size; put < before a file's name\n");
        return 2;
    }
    if (size < PLAIN_SIZE_LEAST || size > PLAIN_SIZE_MOST) {
        fprintf(stderr, "wrap: refused with 18\n");
        return 18;
    }
    signal(SIGPIPE, SIG_IGN);
    plain_wrapper(&work.wrapper, size, 0);
    work.packets.to = STDOUT_FILENO;
    work.report.to = STDERR_FILENO;
    return run(&work);
}
