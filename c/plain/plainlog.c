/* The log program: a log on standard input, its lines on standard output. */
#define _POSIX_C_SOURCE 200809L

#include "loglines.h"

static struct table table;

static size_t take(struct output *out, const uint8_t *in, size_t n)
{
    return take_log_record(out, &table, in, n, do_segment);
}

int main(void)
{
    static const struct program log_program = {"plainlog", LOG_LINES, take};
    static struct output out;
    static uint8_t log[LOG_RECORD - 1 + BLOCK]; /* the start of a cut record, then a block */
    size_t kept = 0;                            /* bytes of that start */
    int unknown = 0;

    /* A reader of our output that has gone is a write that fails, no more. */
    signal(SIGPIPE, SIG_IGN);
    out.to = STDOUT_FILENO;

    while (!unknown && !out.failed) {
        ssize_t got = read(STDIN_FILENO, log + kept, BLOCK);
        size_t n, taken;

        if (got < 0 && errno == EINTR)
            continue;
        if (got <= 0)
            break;
        n = kept + (size_t)got;
        taken = take_records(&log_program, &out, BLOCK, log, n, &unknown);
        if (unknown || out.failed)
            break;
        kept = n - taken;
        memmove(log, log + taken, kept);
    }
    put_end(&log_program, &out, BLOCK, unknown || kept > 0 ? 15 : 0);
    flush(&out);
    return 0;
}
