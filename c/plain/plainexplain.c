/* The program explain: a log and chunks on standard input; on standard output the log's lines, and under each refusal the field at fault. */
#define _POSIX_C_SOURCE 200809L

#include "explain.h"
#include "loglines.h"

enum { LINES = LOG_LINES + 128 }; /* more than one record ever prints */

static struct table table;

static void put_explanation(struct output *out, const struct plain_explanation *e)
{
    if (e->number == 0)
        return;
    put_text(out, "  ");
    put_text(out, plain_field_name(e->table, e->row));
    if (e->table != PLAIN_NO_TABLE || e->row != PLAIN_SPOILED_FIELD) {
        put_text(out, " at bit ");
        put_number(out, e->bit, ' ');
        put_text(out, "is ");
        put_number(out, e->value, '\n');
    } else
        put_text(out, "\n");
}

/* A clash empties its slot, so it is explained before the desk has the segment; what a completed chunk is refused for, behind it. */
static int explain_segment(struct output *out, struct table *on, const uint8_t *segment)
{
    const struct plain_slot *slot = &on->desk.slot[segment[0] >> 1 & 1];
    const struct plain_gathered gathered = {(uint16_t)slot->held, (uint8_t)slot->last, slot->spoiled, slot->bytes, sizeof slot->bytes};
    struct plain_explanation e = plain_explain_gathered(segment, PLAIN_SEGMENT, &gathered);
    const int number = do_segment(out, on, segment);

    if (number != 0 && e.number == 0)
        e = plain_explain_chunk(slot->bytes, PLAIN_PAYLOAD * (slot->last + 1u));
    put_explanation(out, &e);
    return number;
}

static void explain_chunk(struct output *out, const uint8_t *chunk, size_t n)
{
    struct plain_ran_out ran_out = {PLAIN_HEADER, 0};
    const int number = plain_check(chunk, n, &ran_out);
    struct plain_explanation e;

    if (number == 0) {
        put_text(out, "CH 0\n");
        return;
    }
    put_refused(out, "CH ", (unsigned)number, 9, ran_out.at);
    e = plain_explain_chunk(chunk, n);
    put_explanation(out, &e);
}

static size_t take(struct output *out, const uint8_t *in, size_t n)
{
    size_t size = take_log_record(out, &table, in, n, explain_segment);

    if (size != UNKNOWN)
        return size;
    size = record_at(in, n, "CH");
    if (size != 0 && size != UNKNOWN)
        explain_chunk(out, in + HEAD, size - HEAD);
    return size;
}

int main(int argc, char **argv)
{
    static const struct program explain = {"plainexplain", LINES, take};

    (void)argv;
    return run_program(&explain, argc);
}
