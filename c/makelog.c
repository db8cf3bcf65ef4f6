/* Writes a log to standard output.
   makelog [--seed N] [--segments M] [--what mixed|short|longest|repeats] [--cut] [--unknown] */
#include "logs.h"
#include "words.h"

/* And after the unknown mark, records that are not to be read. */
static void put_unknown(struct rng *r)
{
    static const char *const marks[] = {"SV", "Ga", "GR", "AG", "FA", "TS", "\n\n", "FG"};

    printf("%sFRGA", marks[rng_below(r, sizeof marks / sizeof *marks)]);
}

int main(int argc, char **argv)
{
    struct words words = {1, 100000, "mixed", 0, 0};
    struct rng rng;

    if (!read_words(argc, argv, "makelog", "--segments", "mixed|short|longest|repeats", &words))
        return 2;
    rng.state = words.seed;
    logs_left = words.count;
    while (logs_left > 0)
        switch (words.what[0]) {
        case 'm': logs_gathering(&rng, 1); break;
        case 'r': logs_repeats(&rng); break;
        default: logs_pair(&rng, words.what[0] == 'l'); break;
        }
    if (words.cut)
        logs_cut(&rng);
    if (words.unknown)
        put_unknown(&rng);
    return all_written("makelog", stdout);
}
