/* Checks guide.c against each rule of the request by hand and against a model that goes byte by byte; and the program guide named by the
   first argument. Prints "ok", or what differs. */
#define _POSIX_C_SOURCE 200809L

#include "check.h"
#include "guide.h"

static uint64_t seed = 1;

static unsigned below(unsigned n)
{
    seed = seed * 6364136223846793005u + 1442695040888963407u;
    return (unsigned)((seed >> 32) * n >> 32);
}

/* ---- The model: one byte after the other, one section number after the other ---- */

static struct {
    const uint8_t *bytes;
    size_t n, at, thing; /* thing: where the last one began */
    int cut;             /* in that thing, or before it */
    unsigned names;
    size_t name[255], length[255];
} model;

static unsigned take(int begins)
{
    if (begins && !model.cut)
        model.thing = model.at;
    model.cut |= model.at == model.n;
    return model.cut ? 0 : model.bytes[model.at++];
}

static void take_loop(void)
{
    unsigned count, more;

    for (count = take(1); count > 0; count--) {
        take(1);
        for (more = take(0); more > 0; more--)
            take(0);
    }
}

/* Whether the loops end where the section does; if not, thing is where not. */
static int model_loops(void)
{
    size_t i;

    for (model.at = 9; model.names < model.bytes[8]; model.names++) {
        model.length[model.names] = take(1);
        model.name[model.names] = model.at;
        for (i = 0; i < model.length[model.names]; i++)
            take(0);
        take_loop();
    }
    take_loop();
    if (!model.cut)
        model.thing = model.at;
    return !model.cut && model.at == model.n;
}

static int is_noted(const struct plain_guide *g, unsigned number)
{
    return g->noted[number / 64] >> number % 64 & 1;
}

static struct plain_guide_answer model_guide(struct plain_guide *g, const uint8_t *s, size_t n)
{
    struct plain_guide_answer a = {PLAIN_REFUSED, 0, 0, 0};
    unsigned i;

    memset(&model, 0, sizeof model);
    model.bytes = s;
    model.n = n;
    if (n > 0 && s[0] != 220)
        a.sort = PLAIN_NOT_OURS;
    else if (n < 9 || n > 4096 || s[1] % 16 * 256u + s[2] + 3 != n)
        a.number = 20;
    else if (s[3] != 0)
        a.number = 21;
    else if (s[5] % 2 == 0)
        a.sort = PLAIN_NOT_YET;
    else if (s[6] > s[7])
        a.number = 22;
    else if (!model_loops()) {
        a.number = 23;
        a.at = (unsigned)model.thing;
        model.names = 0;
    } else {
        if (g->version != s[5] / 2 % 32 || g->last != s[7])
            memset(g, 0, sizeof *g);
        g->version = s[5] / 2 % 32;
        g->last = s[7];
        a.sort = is_noted(g, s[6]) ? PLAIN_REPEAT : PLAIN_NOTED;
        g->noted[s[6] / 64] |= (uint64_t)1 << s[6] % 64;
        for (i = 0; i <= s[7]; i++)
            a.missing += !is_noted(g, i);
    }
    return a;
}

/* ---- What holds for every call ---- */

static struct plain_guide gathering;
static unsigned long seen[5], seen_number[24];

static int same_gathering(const struct plain_guide *a, const struct plain_guide *b)
{
    return a->version == b->version && a->last == b->last && memcmp(a->noted, b->noted, sizeof a->noted) == 0;
}

static int is_name(struct plain_name name, size_t n)
{
    const int there = n < model.names;

    return name.text == (there ? model.bytes + model.name[n] : model.bytes) && name.length == (there ? model.length[n] : 0);
}

/* A call on memory of exactly its length, and the model on the same; the names by number and, of an accepted section, by the pass. */
static struct plain_guide_answer give(const uint8_t *section, size_t n)
{
    struct plain_guide wanted = gathering;
    uint8_t *s = n > 0 ? malloc(n) : NULL;
    struct plain_guide_answer a, w;
    size_t i;

    if (n > 0)
        memcpy(s, section, n);
    w = model_guide(&wanted, s, n);
    a = plain_guide(&gathering, s, n);
    CHECK(a.sort == w.sort && a.number == w.number && a.missing == w.missing && a.at == w.at && same_gathering(&gathering, &wanted));
    for (i = 0; i != (size_t)-1; i = i <= model.names ? i + 1 : i * 256 + 255)
        CHECK(is_name(plain_guide_name(s, n, i), i));
    if (a.sort == PLAIN_NOTED || a.sort == PLAIN_REPEAT) {
        struct plain_names names = plain_guide_names(s, n);
        struct plain_name name;

        for (i = 0; plain_guide_next(&names, &name); i++)
            CHECK(is_name(name, i));
        CHECK(i == model.names && !plain_guide_next(&names, &name));
    }
    CHECK(n == 0 || memcmp(s, section, n) == 0);
    free(s);
    seen[a.sort]++;
    seen_number[a.number]++;
    return a;
}

/* ---- By hand ---- */

static uint8_t made[70000]; /* a section */
static size_t made_n;

/* So many bytes, and a section_length that says so as far as it can. */
static void resize(size_t n)
{
    made_n = n;
    made[1] = (uint8_t)(0x70 | ((n - 3) >> 8 & 15));
    made[2] = (uint8_t)(n - 3);
}

/* The header, then these bytes from the number of providers on, then zeros. */
static void make(unsigned version, unsigned number, unsigned last, const char *bytes, size_t n)
{
    const uint8_t head[8] = {0xDC, 0, 0, 0, 0xFF, (uint8_t)(0xC1 | version << 1), (uint8_t)number, (uint8_t)last};

    memset(made, 0, 5000);
    memcpy(made, head, 8);
    memcpy(made + 8, bytes, n);
    resize(8 + n);
}

#define MAKE(version, number, last, bytes) make(version, number, last, bytes, sizeof bytes - 1)
#define BARE "\0\0" /* no provider, no descriptor */

/* 15 names of 255 bytes: 3,865 bytes with their counts. */
static void make_longest(void)
{
    unsigned i;

    MAKE(below(32), 0, 255, "\17");
    for (i = 0; i < 15; i++)
        made[9 + 257 * i] = 255;
    resize(3865);
}

/* Gives what was made; whether the answer is this, with the number where refused, else with how many are missing. */
static int gives(enum plain_guide_sort sort, unsigned what, size_t at)
{
    const struct plain_guide_answer a = give(made, made_n);

    return a.sort == sort && (sort == PLAIN_REFUSED ? a.number : a.missing) == what && a.at == at && (a.number == 0 || a.missing == 0);
}

static char lines[4000000]; /* that the program's input gives */
static size_t lines_n;

/* An empty gathering, and no input of the program. */
static void empty(void)
{
    memset(&gathering, 0, sizeof gathering);
    input_n = lines_n = 0;
}

/* Every set of faults: the first one in order is answered. */
static void order_by_hand(void)
{
    static const struct { uint8_t where, what, sort, number, at; } faults[] = {
        {0, 0xDD, PLAIN_NOT_OURS, 0, 0}, {2, 8, PLAIN_REFUSED, 20, 0}, {3, 1, PLAIN_REFUSED, 21, 0},
        {5, 0xC6, PLAIN_NOT_YET, 0, 0}, {6, 3, PLAIN_REFUSED, 22, 0}, {9, 1, PLAIN_REFUSED, 23, 10}};
    unsigned set, first, i;

    for (set = 1; set < 64; set++) {
        MAKE(3, 1, 2, BARE);
        for (first = 0, i = LEN(faults); i-- > 0;)
            if (set >> i & 1)
                made[faults[first = i].where] = faults[i].what;
        CHECK(gives(faults[first].sort, faults[first].number, faults[first].at));
    }
}

static void edges_by_hand(void)
{
    static const size_t lengths[] = {0, 1, 2, 3, 8, 9, 11, 4096, 4097, 65535, 70000};
    unsigned i, j;

    for (i = 0; i < 256; i++)
        for (j = 0; j < LEN(lengths); j++) {
            MAKE(0, 0, 0, BARE);
            made[0] = (uint8_t)i;
            made_n = lengths[j];
            CHECK(i == 0xDC || made_n == 0 ? gives(PLAIN_REFUSED, 20, 0) : gives(PLAIN_NOT_OURS, 0, 0));
        }
    for (i = 0; i < 4096; i++) { /* every section_length on 10 bytes; under 9 bytes, as it says */
        MAKE(0, 0, 0, BARE);
        resize(3 + i);
        made_n = i < 6 ? 3 + i : 10;
        CHECK(i == 7 || gives(PLAIN_REFUSED, 20, 0));
    }
    for (i = 4090; i <= 4100; i++) { /* the longest: 15 names of 255 bytes, and one descriptor */
        empty();
        make_longest();
        made[3864] = 1;
        made[3866] = (uint8_t)(i - 3867);
        resize(i);
        CHECK(i <= 4096 ? gives(PLAIN_NOTED, 255, 0) : gives(PLAIN_REFUSED, 20, 0));
    }
    for (i = 0; i < 256; i++) {
        empty();
        MAKE(0, 0, 0, BARE);
        made[1] = (uint8_t)(i & 0xF0); /* disregarded, as is the byte at 4 */
        made[4] = made[5] = (uint8_t)i;
        CHECK(i % 2 ? gives(PLAIN_NOTED, 0, 0) && gathering.version == (i >> 1 & 31) : gives(PLAIN_NOT_YET, 0, 0));
        made[3] = (uint8_t)i;
        CHECK(i == 0 || gives(PLAIN_REFUSED, 21, 0));
        for (j = 0; j < 256; j++) {
            empty();
            MAKE(9, i, j, BARE);
            CHECK(i > j ? gives(PLAIN_REFUSED, 22, 0) : gives(PLAIN_NOTED, j, 0));
        }
    }
}

static void offsets_by_hand(void)
{
    static const uint8_t ats[] = {9, 9, 9, 12, 13, 13, 15, 15, 15, 15, 15, 20, 21, 22, 23, 23, 23}; /* cut to 9 bytes and more */
    unsigned i;

    for (i = 0; i < 300; i++) {
        MAKE(1, 0, 200, "\2\2ab\2x\0x\3abc\0\0\1x\1a");
        resize(9 + i);
        CHECK(i == LEN(ats) ? gives(PLAIN_NOTED, 200, 0) : gives(PLAIN_REFUSED, 23, i < LEN(ats) ? ats[i] : 26));
    }
    for (i = 0; i < 256; i++) { /* what just fits, and one byte less */
        MAKE(i % 32, 0, 0, "");
        made[8] = (uint8_t)i; /* empty names, and the last count */
        resize(10 + 2 * i);
        CHECK(gives(PLAIN_NOTED, 0, 0));
        resize(9 + 2 * i);
        CHECK(gives(PLAIN_REFUSED, 23, 9 + 2 * i));
        MAKE(i % 32, 0, 1, "\1");
        made[9] = (uint8_t)i;
        resize(12 + i);
        CHECK(gives(PLAIN_NOTED, 1, 0));
        resize(10 + i);
        CHECK(gives(PLAIN_REFUSED, 23, 10 + i));
        resize(9 + i);
        CHECK(gives(PLAIN_REFUSED, 23, 9));
        MAKE(i % 32, 0, 2, "\0\1");
        made[11] = (uint8_t)i;
        resize(12 + i);
        CHECK(gives(PLAIN_NOTED, 2, 0));
        resize(11 + i);
        CHECK(gives(PLAIN_REFUSED, 23, 10));
    }
}

static void gatherings_by_hand(void)
{
    static const struct plain_guide full = {7, 70, {~(uint64_t)0, ~(uint64_t)0, 5, 6}};
    unsigned i, last;

    for (last = 0; last < 256; last++) /* another last number each time; not in order; each again, with other bytes */
        for (i = 0; i <= last; i++) {
            MAKE(31, (i + 100) % (last + 1), last, BARE);
            CHECK(gives(PLAIN_NOTED, last - i, 0));
            MAKE(31, (i + 100) % (last + 1), last, "\1\1a\0\0");
            CHECK(gives(PLAIN_REPEAT, last - i, 0));
        }
    for (i = 0; i < 256; i++) { /* another version, also one that is no section's */
        gathering = full;
        gathering.version = (uint8_t)i;
        MAKE(i < 32 ? i ^ 1 : i & 31, 70, 70, BARE);
        CHECK(gives(PLAIN_NOTED, 70, 0) && gathering.noted[0] == 0 && gathering.noted[1] == 64 && gathering.noted[2] == 0 && gathering.noted[3] == 0);
    }
    gathering = full; /* bits above the last number are not counted and stay */
    gathering.noted[1] &= ~(uint64_t)0x42;
    MAKE(7, 65, 70, BARE);
    CHECK(gives(PLAIN_NOTED, 1, 0) && gives(PLAIN_REPEAT, 1, 0));
    MAKE(7, 70, 70, BARE);
    CHECK(gives(PLAIN_NOTED, 0, 0) && same_gathering(&gathering, &full));
}

/* ---- At random ---- */

/* A section, mostly good: small numbers at random, cut where they end by themselves. */
static void some_section(void)
{
    const unsigned most = below(4) ? 5 : below(60), last = below(8) ? below(4) : below(256);
    unsigned i;

    MAKE(below(8) ? 5 : below(32), below(last + 1), last, "");
    for (i = 8; i < 1000; i++)
        made[i] = (uint8_t)below(below(200) ? most + 1 : 256);
    resize(4096);
    model_guide(&(struct plain_guide){0, 0, {0, 0, 0, 0}}, made, made_n);
    resize(below(6) ? model.thing : 9 + below((unsigned)model.thing));
    made[below(9)] ^= (uint8_t)(below(6) ? 0 : 1u << below(1 + below(8)));
    made_n = below(40) ? made_n : below(12);
}

static void at_random(void)
{
    unsigned round, i;

    for (round = 0; round < 40000; round++) {
        some_section();
        if (below(10) == 0) {
            gathering.version = (uint8_t)(below(2) ? 5 : below(256));
            gathering.last = made[7];
            for (i = 0; i < 4; i++)
                gathering.noted[i] = (uint64_t)below(~0u) << 32 | below(~0u);
        }
        give(made, made_n);
    }
    for (i = 0; i < LEN(seen); i++)
        CHECK(seen[i] > 300 && (i == 0 || seen_number[19 + i] > 300));
}

/* ---- The program ---- */

#define EXPECT(...) (lines_n += (size_t)sprintf(lines + lines_n, __VA_ARGS__))

static void expect_name(size_t n)
{
    const uint8_t *text = made + model.name[n], *end = text + model.length[n];

    EXPECT("name %zu%s", n, text < end ? " " : "");
    for (; text < end; text++)
        if (*text < 32 || *text > 126)
            EXPECT("\\x%02x", *text);
        else
            EXPECT("%s%c", *text == '\\' ? "\\" : "", *text);
    EXPECT("\n");
}

/* What was made as a record, and the lines that it gives. */
static void add_made(void)
{
    static const char *const words[] = {"0 missing", "0 repeat missing", "not ours", "not yet", "23 at"}; /* by sort */
    const uint8_t head[4] = {'S', 'E', (uint8_t)(made_n >> 8), (uint8_t)made_n};
    const struct plain_guide_answer a = give(made, made_n);
    size_t i;

    add(head, 4);
    add(made, made_n);
    if (a.number != 0 && a.number != 23)
        EXPECT("SE %u\n", a.number);
    else if (a.sort == PLAIN_NOT_OURS || a.sort == PLAIN_NOT_YET)
        EXPECT("SE %s\n", words[a.sort]);
    else
        EXPECT("SE %s %u\n", words[a.sort], a.missing + a.at);
    for (i = 0; i < model.names && a.sort == PLAIN_NOTED; i++)
        expect_name(i);
}

/* Whether it prints the lines and this end. */
static int prints(const char *end, size_t piece)
{
    strcpy(lines + lines_n, end);
    return run_program(">test.out", piece) == 0 && has("test.out", lines, lines_n + strlen(end));
}

/* Each line of the page, and every end. */
static void program_by_hand(void)
{
    static const char sample[] = "SE not ours\nSE 20\nSE 21\nSE not yet\nSE 22\nSE 23 at 10\nSE 0 missing 2\nname 0 Tide Tables Ltd\nname 1\nname 2  \\\\ \n"
                                 "SE 0 repeat missing 2\nSE 0 missing 1\nname 0 \\x1b[2J ~\\x7f\\xff\\x00\nSE 20\n";
    static const char *const cuts[] = {"se", "ES", "SS", "S", "EE", "\n", "SGSE", "SE", "SE\1", "SE\1\2\3"};
    static const uint8_t where[] = {0, 2, 3, 5, 6, 9};
    size_t i, whole;

    empty();
    CHECK(prints("END 0\n", 0));
    for (i = 0; i < LEN(where); i++) {
        MAKE(1, 1, 2, BARE);
        made[where[i]] ^= 0x81;
        add_made();
    }
    MAKE(1, 1, 2, "\3\17Tide Tables Ltd\0\0\1x\1y\3 \\ \0\0");
    add_made();
    add_made();
    MAKE(1, 0, 2, "\1\11\33[2J ~\177\377\0\0\0");
    add_made();
    made_n = 0;
    add_made();
    CHECK(lines_n == sizeof sample - 1 && memcmp(lines, sample, lines_n) == 0);
    CHECK(prints("END 0\n", 0) && prints("END 0\n", 1));
    for (i = 0, whole = input_n; i < LEN(cuts); i++, input_n = whole) {
        add(cuts[i], strlen(cuts[i]));
        CHECK(prints("END 15\n", i % 3));
    }
}

/* Ends with the longest lines. */
static void program_streams(void)
{
    unsigned round;

    for (round = 0; round < 12; round++) {
        for (empty(); input_n < (round % 3 ? 300000 : 3000); add_made()) {
            some_section();
            made_n = below(40) ? made_n : below(65536);
        }
        CHECK(prints("END 0\n", 0) && prints("END 0\n", 1 + below(70000)));
    }
    for (round = 65515; round < 65540; round++) { /* a mark, a length and a section on the end of a block */
        empty();
        made_n = round - 4;
        add_made();
        MAKE(2, 0, 9, "\1\2ab\0\0");
        add_made();
        CHECK(prints("END 0\n", 0));
    }
    for (empty(); input_n < 600000; add_made())
        make_longest();
    CHECK(prints("END 0\n", 0));
}

/* Its input comes slowly. */
static void program_waits(void)
{
    CHECK(does("(printf 'SE\\0'; sleep 0.2; printf '\\0'; sleep 0.5; cp test.out test.err) | %s >test.out", 0, "SE 20\nEND 0\n", "SE 20\n"));
}

int main(int argc, char **argv)
{
    order_by_hand();
    edges_by_hand();
    offsets_by_hand();
    gatherings_by_hand();
    at_random();
    if (argc > 1) {
        program = argv[1];
        program_by_hand();
        program_streams();
        program_waits();
        check_failures("plainguide");
    } else
        printf("no program given: not tested\n");
    return verdict();
}
