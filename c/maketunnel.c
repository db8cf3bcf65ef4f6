/* Writes outer packets, as the program unwrap takes them, to standard output.
   maketunnel [--seed N] [--packets M] [--what any|faults|small|mixed|large|split] [--cut] [--unknown] */
#include "outer.h"
#include "words.h"

static struct rng rng;
static struct stream stream;
static uint8_t outer[OUTER_ROOM];
static unsigned long left; /* outer packets still to write */
static unsigned sequence;

static void put_outer(size_t n)
{
    uint8_t head[4] = {'O', 'P'};

    if (left == 0)
        return;
    left--;
    outer_put(head + 2, (unsigned)n);
    fwrite(head, 1, sizeof head, stdout);
    fwrite(outer, 1, n, stdout);
}

/* The stream at hand in order. */
static void in_order(void)
{
    size_t i;

    for (i = 0; i < stream.payloads; i++)
        put_outer(stream_outer(&rng, &stream, i, sequence++, outer));
}

/* A damage, a length that no outer packet has, a repeat, a gap, or an exchange with the next; i is the payload. */
static void fault(size_t *i)
{
    size_t n = stream_outer(&rng, &stream, *i, sequence, outer);

    switch (rng_below(&rng, 6)) {
    case 0:
        rng_fill(&rng, outer, OUTER_ROOM);
        put_outer(rng_once_in(&rng, 50) ? OUTER_ROOM : rng_below(&rng, rng_once_in(&rng, 4) ? 3000 : OUTER_HEADER));
        return;
    case 1:
        put_outer(n);
        put_outer(n);
        break;
    case 2:
        sequence += rng_edge(&rng, rng_once_in(&rng, 4) ? 65535 : 5);
        return;
    case 3:
        if (*i + 1 < stream.payloads) {
            put_outer(stream_outer(&rng, &stream, *i + 1, sequence + 1, outer));
            put_outer(stream_outer(&rng, &stream, *i, sequence, outer));
            ++*i;
            sequence++;
        }
        break;
    default:
        outer_damage(&rng, outer, &n, rng_below(&rng, OUTER_DAMAGES));
        put_outer(n);
        break;
    }
    ++*i;
    sequence++;
}

static void with_faults(void)
{
    const unsigned often = 2 + rng_below(&rng, 60);
    size_t i = 0;

    while (i < stream.payloads)
        if (rng_once_in(&rng, often))
            fault(&i);
        else
            put_outer(stream_outer(&rng, &stream, i++, sequence++, outer));
}

/* A record that is cut short, or a mark that is not known and a record behind it. */
static void put_end(int unknown)
{
    static const char *const marks[] = {"IP", "op", "OO", "PO", "TI", "O\n", "  ", "OQ"};
    const char *mark = unknown ? marks[rng_below(&rng, sizeof marks / sizeof *marks)] : "OP";
    const size_t n = stream_outer(&rng, &stream, 0, sequence, outer);
    uint8_t record[4 + OUTER_LONGEST];

    memcpy(record, mark, 2);
    outer_put(record + 2, (unsigned)n);
    memcpy(record + 4, outer, n);
    fwrite(record, 1, unknown ? 4 + n : 1 + rng_below(&rng, 3 + (unsigned)n), stdout);
}

int main(int argc, char **argv)
{
    struct words words = {1, 100000, "any", 0, 0};

    if (!read_words(argc, argv, "maketunnel", "--packets", "any|faults|small|mixed|large|split", &words))
        return 2;
    rng.state = words.seed;
    left = words.count;
    sequence = rng_edge(&rng, 65535);
    do {
        if (!stream_named(&rng, &stream, words.what, STREAM_BYTES))
            stream_any(&rng, &stream, 2000 + rng_below(&rng, 60000));
        if (strcmp(words.what, "faults") == 0)
            with_faults();
        else
            in_order();
    } while (left > 0);
    if (words.cut || words.unknown)
        put_end(words.unknown);
    return all_written("maketunnel", stdout);
}
