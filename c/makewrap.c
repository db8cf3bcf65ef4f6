/* Writes timestamps and stored packets, as the program wrap takes them, to standard output.
   makewrap [--carried FILE] [--seed N] [--packets M] [--what any|faults|small|mixed|large] [--cut] [--unknown]
   Those of the packets that may be carried go to the file too. */
#include "outer.h"
#include "words.h"

enum { RECORD_ROOM = 4 + 65535 };

static struct rng rng;
static struct stream stream;
static uint8_t record[RECORD_ROOM];
static unsigned long left; /* stored packets still to write */
static FILE *carried;      /* or null */

/* A timestamp: any, one near the last, or an edge. Answers the record's length. */
static size_t make_time(void)
{
    static uint32_t timestamp;

    if (rng_once_in(&rng, 4))
        timestamp = rng_once_in(&rng, 2) ? 0 : 0xFFFFFFFF;
    else
        timestamp = rng_once_in(&rng, 3) ? (uint32_t)rng_next(&rng) : timestamp + rng_below(&rng, 2000);
    record[0] = 'T';
    record[1] = 'I';
    outer_put(record + 2, timestamp >> 16);
    outer_put(record + 4, timestamp & 0xFFFF);
    return 6;
}

static void put_record(size_t n)
{
    fwrite(record, 1, n, stdout);
}

static void put_packet(size_t which, int faults)
{
    size_t n = stream_store(&stream, which, record) - 4;

    left--;
    if (faults && rng_once_in(&rng, 6)) {
        n = inner_spoil(&rng, record + 4, n);
        outer_put(record + 2, (unsigned)n);
    } else if (carried != NULL)
        fwrite(record, 1, 4 + n, carried);
    put_record(4 + n);
}

/* The stream at hand, with timestamps between the packets. */
static void put_stream(int faults)
{
    const unsigned often = 1 + rng_below(&rng, 20);
    size_t i;

    for (i = 0; i < stream.packets && left > 0; i++) {
        if (rng_once_in(&rng, often))
            put_record(make_time());
        put_packet(i, faults);
    }
}

/* A record that is cut short; or one with a mark that is not known or a length outside the limits, and one behind it. */
static void put_end(int unknown)
{
    static const char *const marks[] = {"OP", "ip", "II", "PI", "IT", "I\n", "  ", "IJ", "TP", "ti"};
    size_t n;

    do
        stream_any(&rng, &stream, 2000);
    while (stream.packets == 0);
    n = stream_store(&stream, 0, record);
    if (!unknown) {
        if (rng_once_in(&rng, 4))
            n = make_time();
        put_record(1 + rng_below(&rng, rng_once_in(&rng, 2) ? 4 : (unsigned)n - 1));
        return;
    }
    if (rng_once_in(&rng, 3)) {
        n = 4 + length_outside(&rng);
        outer_put(record + 2, (unsigned)n - 4);
    } else
        memcpy(record, marks[rng_below(&rng, sizeof marks / sizeof *marks)], 2);
    put_record(n);
    put_record(stream_store(&stream, 0, record));
}

int main(int argc, char **argv)
{
    const int own = argc > 2 && strcmp(argv[1], "--carried") == 0 ? 2 : 0;
    struct words words = {1, 100000, "any", 0, 0};

    if (!read_words(argc - own, argv + own, "makewrap [--carried FILE]", "--packets", "any|faults|small|mixed|large", &words))
        return 2;
    if (own > 0 && (carried = fopen(argv[2], "wb")) == NULL)
        return all_written("makewrap", carried);
    rng.state = words.seed;
    left = words.count;
    do {
        if (!stream_named(&rng, &stream, words.what, STREAM_BYTES))
            stream_any(&rng, &stream, 2000 + rng_below(&rng, 60000));
        put_stream(strcmp(words.what, "faults") == 0);
    } while (left > 0);
    if (words.cut || words.unknown)
        put_end(words.unknown);
    if (carried != NULL && all_written("makewrap", carried) != 0)
        return 2;
    return all_written("makewrap", stdout);
}
