/* The log's records on a desk, and their lines: for the programs log and explain. */
#ifndef LOGLINES_H
#define LOGLINES_H

#include "plain.h"
#include "program.h"

enum {
    LOG_RECORD = 2 + PLAIN_SEGMENT,    /* the longest record: SG and a segment */
    LOG_LINES = 64 + 2 * PLAIN_LISTING /* more than one record ever prints */
};

/* The desk with the two buffers it is lent. Zeros are a fresh one. */
struct table {
    struct plain_desk desk;
    uint8_t first[PLAIN_LISTING];
    uint8_t second[PLAIN_LISTING];
};

static inline uint8_t hex_digit(uint8_t value)
{
    return (uint8_t)(value + (value < 10 ? '0' : 'a' - 10));
}

static inline void put_hex(struct output *out, const uint8_t *from, size_t n)
{
    uint8_t *to = out->bytes + out->used;
    size_t i;

    for (i = 0; i < n; i++) {
        const uint8_t byte = from[i];

        to[2 * i] = hex_digit(byte >> 4);
        to[2 * i + 1] = hex_digit(byte & 15);
    }
    to[2 * n] = '\n';
    out->used += 2 * n + 1;
}

static inline void put_listing(struct output *out, const struct table *table, int kind)
{
    size_t length;
    const uint8_t *listing = plain_show_formed(&table->desk, kind, table->first, PLAIN_LISTING,
                                               table->second, PLAIN_LISTING, &length);

    put_hex(out, listing, length);
}

static inline void do_frame(struct output *out, struct table *table)
{
    plain_frame_formed(&table->desk);
    if (table->desk.length[1] == 0) {
        put_text(out, "FR none\n");
        return;
    }
    put_text(out, "FR ");
    put_number(out, table->desk.length[1], '\n');
    put_listing(out, table, 1);
}

/* Gives a segment to the desk, and prints its lines; the answer's number. */
static inline int do_segment(struct output *out, struct table *table, const uint8_t *segment)
{
    const struct plain_answer answer = plain_segment_formed(&table->desk, segment, PLAIN_SEGMENT,
                                                            table->first, PLAIN_LISTING,
                                                            table->second, PLAIN_LISTING);

    if (answer.number != 0) {
        put_refused(out, "SG ", (unsigned)answer.number, 9, answer.at);
    } else if (answer.listed) {
        put_text(out, answer.kind == 1 ? "SG 0 list this " : "SG 0 list next ");
        put_number(out, answer.length, '\n');
        put_listing(out, table, answer.kind);
    } else {
        put_text(out, "SG 0 missing ");
        put_number(out, answer.missing, '\n');
    }
    return answer.number;
}

/* Takes the log's record at the start of n bytes, a segment by the function given. Answers as record_at. */
static inline size_t take_log_record(struct output *out, struct table *table, const uint8_t *in, size_t n,
                                     int (*segment)(struct output *out, struct table *table, const uint8_t *segment))
{
    if (n < 2)
        return 0;
    if (in[0] == 'S' && in[1] == 'G') {
        if (n < LOG_RECORD)
            return 0;
        segment(out, table, in + 2);
        return LOG_RECORD;
    }
    if (in[0] == 'G' && in[1] == 'A') {
        plain_gathering_formed(&table->desk);
        put_text(out, "GA\n");
        return 2;
    }
    if (in[0] == 'F' && in[1] == 'R') {
        do_frame(out, table);
        return 2;
    }
    return UNKNOWN;
}

#endif
