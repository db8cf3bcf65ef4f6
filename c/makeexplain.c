/* Writes a log with chunks between its records, as the program explain takes it, to standard output.
   makeexplain [--seed N] [--records M] [--what log|chunks|mixed|faults] [--cut] [--unknown]
   What is counted is segments and chunks. */
#include "logs.h"
#include "make.h"
#include "words.h"

enum { CHUNK_ROOM = 65535 }; /* what a record may have */

static struct rng rng;
static struct make_list list;
static struct made made;

static void put_chunk(const char *mark, size_t most)
{
    put_marked(mark, made.bytes, made.n, most);
}

/* A chunk of any shape, with stuffing or without. */
static void make_next(void)
{
    const struct make_shape shape = make_shape(&rng);

    make_any_chunk(&rng, &list, &shape, rng_once_in(&rng, 4) ? MAKE_CHUNK : 12 + rng_below(&rng, 60), &made);
    if (rng_once_in(&rng, 4))
        make_stuffing(&rng, &made, (made.n + MAKE_PAYLOAD - 1) / MAKE_PAYLOAD * MAKE_PAYLOAD);
}

/* Cut to any length, damaged once or a few times, or made too long. */
static void spoil(void)
{
    unsigned times;

    if (rng_once_in(&rng, 24))
        make_stuffing(&rng, &made, rng_once_in(&rng, 50) ? CHUNK_ROOM : MAKE_CHUNK - 8 + rng_below(&rng, 40));
    else if (rng_once_in(&rng, 3))
        for (times = 1 + rng_below(&rng, 3); times > 0; times--)
            make_damage_chunk(&rng, &made, rng_below(&rng, MAKE_CHUNK_DAMAGES));
    else
        made.n = rng_edge(&rng, (unsigned)made.n);
    if (made.n > CHUNK_ROOM)
        made.n = CHUNK_ROOM;
}

/* A few chunks, of which so many in four are spoiled. */
static void chunks(unsigned spoiled)
{
    unsigned n;

    for (n = 1 + rng_below(&rng, 12); n > 0 && logs_left > 0; n--, logs_left--) {
        make_next();
        if (rng_below(&rng, 4) < spoiled)
            spoil();
        put_chunk("CH", SIZE_MAX);
    }
}

int main(int argc, char **argv)
{
    static const char *const marks[] = {"ch", "HC", "CC", "HH", "CG", "SE", "C\n", "  "};
    struct words words = {1, 100000, "mixed", 0, 0};
    unsigned faults;

    if (!read_words(argc, argv, "makeexplain", "--records", "log|chunks|mixed|faults", &words))
        return 2;
    rng.state = words.seed;
    logs_left = words.count;
    faults = words.what[0] == 'f';
    while (logs_left > 0) {
        if (words.what[0] != 'c')
            logs_gathering(&rng, faults ? 4 : 1);
        if (words.what[0] != 'l')
            chunks(faults ? 4 : 2);
    }
    make_next();
    if (words.cut && rng_once_in(&rng, 2))
        logs_cut(&rng);
    else if (words.cut)
        put_chunk("CH", 1 + rng_below(&rng, 3 + (unsigned)made.n));
    if (words.unknown) {
        put_chunk(marks[rng_below(&rng, sizeof marks / sizeof *marks)], SIZE_MAX);
        put_chunk("CH", SIZE_MAX);
    }
    return all_written("makeexplain", stdout);
}
