/* Writes sections, as the program guide takes them, to standard output.
   makeguide [--seed N] [--sections M] [--what small|mixed|large|damaged] [--cut] [--unknown] */
#include "sections.h"
#include "words.h"

static struct rng rng;
static struct section section;
static struct tables tables;

/* The section as a record with this mark, at most so many bytes of it. */
static void put_section(const char *mark, size_t most)
{
    put_marked(mark, section.bytes, section.n, most);
}

static void make_next(const char *what)
{
    section_named(&rng, &section, what);
    tables_next(&rng, &tables, &section);
}

/* One damage or a few, or a length that no section has. */
static void damage(void)
{
    unsigned times;

    for (times = rng_once_in(&rng, 4) ? 1 + rng_below(&rng, 3) : 1; times > 0; times--)
        section_damage(&rng, &section, rng_below(&rng, SECTION_DAMAGES));
    if (rng_once_in(&rng, 200)) {
        section_pad(&rng, &section, SECTION_ROOM);
        section.n = rng_edge(&rng, SECTION_ROOM);
    }
}

int main(int argc, char **argv)
{
    static const char *const marks[] = {"se", "ES", "SS", "SG", "S\n", "EE", "  ", "OP"};
    struct words words = {1, 100000, "mixed", 0, 0};
    int damaged;

    if (!read_words(argc, argv, "makeguide", "--sections", "small|mixed|large|damaged", &words))
        return 2;
    rng.state = words.seed;
    damaged = strcmp(words.what, "damaged") == 0;
    for (; words.count > 0; words.count--) {
        make_next(damaged ? "mixed" : words.what);
        if (damaged && rng_once_in(&rng, 2))
            damage();
        put_section("SE", SIZE_MAX);
    }
    make_next("small");
    if (words.cut)
        put_section("SE", 1 + rng_below(&rng, 3 + (unsigned)section.n));
    if (words.unknown) {
        put_section(marks[rng_below(&rng, sizeof marks / sizeof *marks)], SIZE_MAX);
        put_section("SE", SIZE_MAX);
    }
    return all_written("makeguide", stdout);
}
