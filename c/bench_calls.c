/* Nanoseconds for one call of the reader, the writer, the tunnel's reader, its writer, the guide's reader or an explanation, or for all names of a section of the guide.
   bench_calls ours|plain CASE ROUNDS
   Compiled with -DOURS for the one, without for the other; all else is the same. */
#define _POSIX_C_SOURCE 199309L

#include "make.h"
#include "outer.h"
#include "sections.h"

#include <stdbool.h>
#include <stdio.h>
#include <stdlib.h>
#include <string.h>
#include <time.h>

enum {
    OUTPUT = 592,
    UNWRAPPED = 4096,
    LISTS = 1000,
    STREAM = 200000, /* bytes of inner packets, or of sections */
    ITEMS = STREAM / (SECTION_LOOPS + 2)
};

/* Beside which segments are explained: all places are held. */
static uint8_t gathered[MAKE_CHUNK];
enum { HELD = 0xFFFF, LAST = MAKE_PLACES - 1 };

/* The length of the listing, the number of segments, or one more than the bytes stored or written, the sections missing or the offset of a field; 0 where refused. And
   where in its section a name ends; 0 where there is none. */
#ifdef OURS
#include "lukasembo.h"
#define WHO "ours"

enum { LISTING = LUKASEMBO_LISTING };

static inline uint64_t read_one(const uint8_t *chunk, size_t n, uint8_t *buffer)
{
    const uint64_t a = lukasembo_read(chunk, n, buffer, LISTING);

    return lukasembo_number(a) == LUKASEMBO_ACCEPTED ? lukasembo_length(a) : 0;
}

static inline uint64_t write_one(const uint8_t *listing, size_t n, bool kind, uint8_t *output)
{
    const uint64_t a = lukasembo_write(listing, n, kind, output, OUTPUT);

    return lukasembo_number(a) == LUKASEMBO_ACCEPTED ? lukasembo_segments(a) : 0;
}

static inline uint64_t unwrap_one(const uint8_t *outer, size_t n, uint8_t *output)
{
    static struct lukasembo_tunnel tunnel;
    const uint64_t a = lukasembo_unwrap(&tunnel, outer, n, output, UNWRAPPED);

    return lukasembo_number(a) == LUKASEMBO_ACCEPTED ? 1 + lukasembo_stored(a) : 0;
}

static struct lukasembo_wrapper wrapper;

static void begin_wrap(size_t size)
{
    wrapper = lukasembo_wrapper(size, 0);
}

static inline uint64_t wrap_one(const uint8_t *packet, size_t n, uint8_t *output)
{
    const uint64_t a = lukasembo_wrap(&wrapper, packet, n, (uint32_t)n, output, UNWRAPPED);

    return lukasembo_number(a) == LUKASEMBO_ACCEPTED ? 1 + lukasembo_wrote(a) : 0;
}

static inline uint64_t guide_one(const uint8_t *section, size_t n, uint8_t *output)
{
    static struct lukasembo_guide guide;
    const uint64_t a = lukasembo_guide(&guide, section, n);

    (void)output;
    return lukasembo_new(a) || lukasembo_repeat(a) ? 1 + lukasembo_missing(a) : 0;
}

static inline size_t name_end(const uint8_t *section, size_t n, size_t which)
{
    const struct lukasembo_name name = lukasembo_guide_name(section, n, which);

    return name.text != NULL ? (size_t)(name.text - section) + name.length : 0;
}

static inline uint64_t explain_chunk_one(const uint8_t *chunk, size_t n, uint8_t *output)
{
    (void)output;
    return 1 + lukasembo_bit(lukasembo_explain_chunk(chunk, n).answer);
}

static inline uint64_t explain_segment_one(const uint8_t *segment, size_t n, uint8_t *output)
{
    (void)output;
    return 1 + lukasembo_bit(lukasembo_explain_segment(segment, n).answer);
}

static inline uint64_t explain_gathered_one(const uint8_t *segment, size_t n, uint8_t *output)
{
    (void)output;
    return 1 + lukasembo_bit(lukasembo_explain_gathered(segment, n, HELD | LAST << 16, gathered, sizeof gathered).answer);
}
#else
#include "explain.h"
#include "guide.h"
#include "plain.h"
#include "tunnel.h"
#define WHO "plain"

enum { LISTING = PLAIN_LISTING };

static inline uint64_t read_one(const uint8_t *chunk, size_t n, uint8_t *buffer)
{
    const struct plain_read a = plain_read(chunk, n, buffer, LISTING);

    return a.number == 0 ? a.length : 0;
}

static inline uint64_t write_one(const uint8_t *listing, size_t n, bool kind, uint8_t *output)
{
    const struct plain_write a = plain_write(listing, n, kind, output, OUTPUT);

    return a.number == 0 ? a.segments : 0;
}

static inline uint64_t unwrap_one(const uint8_t *outer, size_t n, uint8_t *output)
{
    static struct plain_tunnel tunnel;
    const struct plain_unwrapped a = plain_unwrap(&tunnel, outer, n, output, UNWRAPPED);

    return a.number == 0 ? 1 + a.stored : 0;
}

static struct plain_wrapper wrapper;

static void begin_wrap(size_t size)
{
    plain_wrapper(&wrapper, size, 0);
}

static inline uint64_t wrap_one(const uint8_t *packet, size_t n, uint8_t *output)
{
    const struct plain_wrapped a = plain_wrap(&wrapper, packet, n, (uint32_t)n, output, UNWRAPPED);

    return a.number == 0 ? 1 + a.wrote : 0;
}

static inline uint64_t guide_one(const uint8_t *section, size_t n, uint8_t *output)
{
    static struct plain_guide guide;
    const struct plain_guide_answer a = plain_guide(&guide, section, n);

    (void)output;
    return a.sort == PLAIN_NOTED || a.sort == PLAIN_REPEAT ? 1 + a.missing : 0;
}

static inline size_t name_end(const uint8_t *section, size_t n, size_t which)
{
    const struct plain_name name = plain_guide_name(section, n, which);

    return (size_t)(name.text - section) + name.length;
}

static inline uint64_t explain_chunk_one(const uint8_t *chunk, size_t n, uint8_t *output)
{
    (void)output;
    return 1 + plain_explain_chunk(chunk, n).bit;
}

static inline uint64_t explain_segment_one(const uint8_t *segment, size_t n, uint8_t *output)
{
    (void)output;
    return 1 + plain_explain_segment(segment, n).bit;
}

static inline uint64_t explain_gathered_one(const uint8_t *segment, size_t n, uint8_t *output)
{
    const struct plain_gathered slot = {HELD, LAST, 0, gathered, sizeof gathered};

    (void)output;
    return 1 + plain_explain_gathered(segment, n, &slot).bit;
}
#endif

/* Each name by its number, until there is none. */
static inline uint64_t names_one(const uint8_t *section, size_t n, uint8_t *output)
{
    uint64_t count = 0;
    size_t end;

    for (; (end = name_end(section, n, count)) > 0; count++)
        output[count] = (uint8_t)end;
    return 1 + count;
}

struct item {
    const uint8_t *bytes;
    size_t n;
    bool kind;
};

static struct item items[ITEMS];
static size_t count;
static uint8_t store[LISTS * LISTING], buffer[UNWRAPPED];
static struct stream stream;
static volatile uint64_t sink;

static void add(const uint8_t *bytes, size_t n, bool kind)
{
    uint8_t *to = store + count * LISTING;

    memcpy(to, bytes, n);
    items[count].bytes = to;
    items[count].n = n;
    items[count++].kind = kind;
}

/* The outer packets of a stream that ends with a packet, one behind the other. When it begins again there is a gap, and no part. */
static int make_outers(const char *name)
{
    struct rng rng = {1};
    uint8_t *to = store;

    if (!stream_named(&rng, &stream, name, STREAM))
        return 0;
    for (count = 0; count < stream.payloads; count++) {
        items[count].bytes = to;
        items[count].n = stream_outer(&rng, &stream, count, (unsigned)count, to);
        to += items[count].n;
    }
    return 1;
}

/* The packets of a stream, for payloads as it is cut. When it begins again, bytes of its end are left. */
static int make_inners(const char *name)
{
    struct rng rng = {1};

    if (!stream_named(&rng, &stream, name, STREAM))
        return 0;
    for (count = 0; count < stream.packets; count++) {
        items[count].bytes = stream.bytes + stream.start[count];
        items[count].n = stream.start[count + 1] - stream.start[count];
    }
    begin_wrap(stream.cut[1]);
    return 1;
}

/* Sections of tables, one behind the other. */
static int make_sections(const char *name)
{
    static struct section section;
    struct tables tables = {0, 0, 0, {0}};
    struct rng rng = {1};
    uint8_t *to = store;

    for (count = 0; to < store + STREAM; count++) {
        if (!section_named(&rng, &section, name))
            return 0;
        tables_next(&rng, &tables, &section);
        items[count].bytes = to;
        items[count].n = section.n;
        memcpy(to, section.bytes, section.n);
        to += section.n;
    }
    return 1;
}

/* The inputs of a case of the reader or the writer; answers 0 for an unknown one. */
static int make_items(const char *name)
{
    static const uint8_t sample[] = {0x00, 0x03, 0x01, 0x23, 0x01, 0x05, 0xE0, 0x83, 0x01, 0x0A, 0x01, 0xE6};
    static const uint8_t sample_listing[] = {0x54, 0x53, 0x01, 0x23, 0x01, 0x45, 0x4E, 0x05, 0x04, 0x03,
                                             0x01, 0x53, 0x56, 0x05, 0x0A, 0x01, 0x00, 0x03, 0x00};
    static struct make_list list;
    static struct made made;
    struct make_shape shape = {0, 0, 0, 0, 1, 1};
    struct rng rng = {1};
    const int writer = strncmp(name, "write-", 6) == 0;
    const char *size = strchr(name, '-') + 1;
    unsigned i;

    if (strcmp(size, "short") == 0) {
        if (writer)
            add(sample_listing, sizeof sample_listing, 1);
        else
            add(sample, sizeof sample, 1);
        return 1;
    }
    if (strcmp(size, "longest") == 0) {
        make_counts(&rng, &list, 1, 183);
        if (writer)
            make_listing(&list, &made);
        else
            make_chunk(&rng, &list, &shape, &made);
        add(made.bytes, made.n, 1);
        return 1;
    }
    if (strcmp(size, "mixed") != 0)
        return 0;
    for (i = 0; i < LISTS; i++) {
        if (writer)
            shape.kind = i % 2;
        else {
            shape = make_shape(&rng);
            shape.minor = i % 8;
        }
        make_list(&rng, &list, &shape, MAKE_CHUNK);
        if (!writer && i % 4 == 0)
            make_unknown(&rng, &list);
        if (writer)
            make_listing(&list, &made);
        else {
            make_chunk(&rng, &list, &shape, &made);
            make_stuffing(&rng, &made, (made.n + MAKE_PAYLOAD - 1) / MAKE_PAYLOAD * MAKE_PAYLOAD);
        }
        add(made.bytes, made.n, shape.kind);
    }
    return 1;
}

/* The reader's chunks, every other one cut. */
static int make_cut(void)
{
    struct rng rng = {2};
    size_t i;

    make_items("read-mixed");
    for (i = 0; i < count; i += 2)
        items[i].n = rng_below(&rng, (unsigned)items[i].n);
    return 1;
}

/* The pieces of a long chunk, which are gathered, again and again: one in four with a byte changed, one in four with another header. */
static int make_pieces(void)
{
    const struct make_shape shape = {0, 0, 0, 0, 1, 1};
    static struct make_list list;
    static struct made made;
    static uint8_t segment[MAKE_PLACES][MAKE_SEGMENT];
    struct rng rng = {1};
    unsigned i;

    make_counts(&rng, &list, 1, 183);
    make_chunk(&rng, &list, &shape, &made);
    make_segments(&rng, made.bytes, made.n, 1, 1, segment);
    for (i = 0; i < MAKE_PLACES; i++)
        memcpy(gathered + i * MAKE_PAYLOAD, segment[i] + MAKE_SEGMENT - MAKE_PAYLOAD, MAKE_PAYLOAD);
    for (i = 0; i < LISTS; i++) {
        add(segment[i % MAKE_PLACES], MAKE_SEGMENT, 1);
        if (rng_once_in(&rng, 4))
            store[i * LISTING + 2 + rng_below(&rng, MAKE_PAYLOAD)] ^= 1;
        else if (rng_once_in(&rng, 3))
            rng_fill(&rng, store + i * LISTING, 2);
    }
    return 1;
}

static uint64_t run_reader(unsigned long rounds)
{
    uint64_t sum = 0;
    size_t at = 0;

    for (; rounds > 0; rounds--) {
        const struct item *item = &items[at];
        const uint64_t length = read_one(item->bytes, item->n, buffer);

        sink = length;
        sum += length + buffer[length - 1];
        if (++at == count)
            at = 0;
    }
    return sum;
}

static uint64_t run_writer(unsigned long rounds)
{
    uint64_t sum = 0;
    size_t at = 0;

    for (; rounds > 0; rounds--) {
        const struct item *item = &items[at];
        const uint64_t segments = write_one(item->bytes, item->n, item->kind, buffer);

        sink = segments;
        sum += segments + buffer[MAKE_SEGMENT * segments - MAKE_PAYLOAD];
        if (++at == count)
            at = 0;
    }
    return sum;
}

/* Of the tunnel, the guide and the explanations; each of their calls is put in. */
static inline __attribute__((always_inline)) uint64_t run_each(unsigned long rounds, uint64_t (*one)(const uint8_t *input, size_t n, uint8_t *output))
{
    uint64_t sum = 0;
    size_t at = 0;

    for (; rounds > 0; rounds--) {
        const struct item *item = &items[at];
        const uint64_t wrote = one(item->bytes, item->n, buffer);

        sink = wrote;
        sum += wrote + buffer[wrote / 2];
        if (++at == count)
            at = 0;
    }
    return sum;
}

enum sort { READ, WRITE, UNWRAP, WRAP, NAMES, GUIDE, CHUNK, SEGMENT, GATHERED, SORTS };
static const char *const sort_name[SORTS] = {"read-", "write-", "unwrap-", "wrap-", "guide-names", "guide-", "explain-chunk", "explain-segment", "explain-gathered"};

/* Which call a case is of, or SORTS. */
static enum sort sort_of(const char *name)
{
    enum sort sort;

    for (sort = READ; sort < SORTS && strncmp(name, sort_name[sort], strlen(sort_name[sort])) != 0; sort++)
        ;
    return sort;
}

static int make_case(enum sort sort, const char *name)
{
    const char *what = sort < SORTS ? name + strlen(sort_name[sort]) : name;

    switch (sort) {
    case READ: case WRITE: return make_items(name);
    case UNWRAP: return make_outers(what);
    case WRAP: return make_inners(what);
    case NAMES: return *what == '\0' && make_sections("mixed");
    case GUIDE: return make_sections(what);
    case CHUNK: return *what == '\0' && make_cut();
    case SEGMENT: case GATHERED: return *what == '\0' && make_pieces();
    default: return 0;
    }
}

/* Whether each input is taken; what is explained always is. */
static int all_taken(enum sort sort)
{
    size_t i;

    for (i = 0; i < count && sort < CHUNK; i++) {
        const struct item *item = &items[i];

        if ((sort == READ ? read_one(item->bytes, item->n, buffer) : sort == WRITE ? write_one(item->bytes, item->n, item->kind, buffer)
             : sort == UNWRAP ? unwrap_one(item->bytes, item->n, buffer) : sort == WRAP ? wrap_one(item->bytes, item->n, buffer)
             : guide_one(item->bytes, item->n, buffer)) == 0)
            return 0;
    }
    return 1;
}

static uint64_t run(enum sort sort, unsigned long rounds)
{
    switch (sort) {
    case READ: return run_reader(rounds);
    case WRITE: return run_writer(rounds);
    case UNWRAP: return run_each(rounds, unwrap_one);
    case WRAP: return run_each(rounds, wrap_one);
    case NAMES: return run_each(rounds, names_one);
    case GUIDE: return run_each(rounds, guide_one);
    case CHUNK: return run_each(rounds, explain_chunk_one);
    case SEGMENT: return run_each(rounds, explain_segment_one);
    default: return run_each(rounds, explain_gathered_one);
    }
}

int main(int argc, char **argv)
{
    struct timespec from, to;
    unsigned long rounds = argc == 4 ? strtoul(argv[3], NULL, 10) : 0;
    const enum sort sort = rounds != 0 ? sort_of(argv[2]) : SORTS;
    uint64_t sum;
    double ns;

    if (rounds == 0 || strcmp(argv[1], WHO) != 0 || !make_case(sort, argv[2])) {
        fprintf(stderr, "usage: bench_calls " WHO " read-short|read-longest|read-mixed|write-short|write-longest|write-mixed"
                        "|unwrap-small|unwrap-mixed|unwrap-large|unwrap-split|wrap-small|wrap-mixed|wrap-large|wrap-split"
                        "|guide-small|guide-mixed|guide-large|guide-names|explain-chunk|explain-segment|explain-gathered ROUNDS\n");
        return 2;
    }
    if (!all_taken(sort)) {
        fprintf(stderr, "bench_calls: an input is refused\n");
        return 1;
    }
    clock_gettime(CLOCK_MONOTONIC, &from);
    sum = run(sort, rounds);
    clock_gettime(CLOCK_MONOTONIC, &to);
    ns = (double)(to.tv_sec - from.tv_sec) * 1e9 + (double)(to.tv_nsec - from.tv_nsec);
    printf("%s %s %lu calls %.2f ns each (sum %llu)\n", WHO, argv[2], rounds, ns / (double)rounds, (unsigned long long)sum);
    return 0;
}
