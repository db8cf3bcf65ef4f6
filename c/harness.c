/* Gives the same inputs to both implementations and compares every answer and every byte.
   harness [--seed N] [--calls M] [--plant ours|plain] [--keep FOLDER], or harness --replay FILE
   The input of a difference is written to the folder. How far it has come goes to standard error. */
#include "lent.h"
#include "lukasembo.h"
#include "make.h"
#include "plain.h"

#include <stdio.h>
#include <stdlib.h>
#include <string.h>

enum { INPUT, BUFFER, MEMORIES };

/* The phases, the reader's first, and how many of 1,000 calls each has. */
enum phase {
    LENGTHS, HEADS, SOUND, RAN_OUT, DAMAGED, DAMAGED_MORE, TOO_LONG,
    LISTINGS, LIMITS, BAD_LISTINGS, BAD_IDS, CUTS, KINDS, LONG_LISTINGS, BAD_LISTINGS_MORE, SAMPLES, PHASES
};
static const char *const phase_name[PHASES] = {
    "lengths", "heads", "sound", "ran out", "damaged", "damaged more", "too long",
    "listings", "limits", "bad listings", "bad ids", "cuts", "kinds", "long listings", "bad listings more", "samples"
};
static const unsigned phase_share[PHASES] = {30, 160, 120, 80, 120, 80, 10, 90, 60, 100, 30, 40, 15, 0, 65, 0};

struct call {
    int phase;
    int writer;      /* 0: the reader */
    uint8_t kind;    /* for the writer */
    uint8_t planted; /* 0, or 1 + the side whose result was made wrong */
    struct spot spot[MEMORIES];
    size_t pattern; /* where in the pattern the buffer's bytes begin */
    size_t n, room;
    const uint8_t *input;
    const uint64_t *want;      /* the answer, if it is known */
    const uint8_t *want_bytes; /* and what it writes */
};

static struct rng rng;
static struct make_list list;
static struct made made;
static struct lent lent[SIDES][MEMORIES];
static uint64_t seen[2][256], seen_unknown;

/* The call at work, for the report. */
static struct call now;
static uint64_t answer[SIDES];

/* ---- The report ---- */

static void print_answer(const char *who, uint64_t a)
{
    printf("%-6s %016llx  number %u", who, (unsigned long long)a, (unsigned)lukasembo_number(a));
    if (now.writer)
        printf(", segments %zu\n", lukasembo_segments(a));
    else
        printf(", kind %u, minor %u, length %zu, offset %zu\n", (unsigned)lukasembo_kind(a), lukasembo_minor(a), lukasembo_length(a),
               lukasembo_offset(a));
}

const char kept_mark[5] = "LKH1", kept_word[] = "call";

/* Eight bytes, three numbers of 8 bytes (big-endian), the input. */
void put_call(FILE *f)
{
    putc(now.phase, f);
    putc(now.writer, f);
    putc(now.kind, f);
    putc(now.planted, f);
    put_spots(f, now.spot, MEMORIES);
    put_number(f, now.pattern);
    put_number(f, now.room);
    put_number(f, now.n);
    fwrite(now.input, 1, now.n, f);
}

void print_call(void)
{
    printf("phase %s, %s", phase_name[now.phase], now.writer ? "writer" : "reader");
    if (now.writer)
        printf(", kind %u", now.kind);
    printf("; input %zu bytes, %s; buffer %zu bytes, %s\n", now.n, place_name(now.spot[INPUT]), now.room,
           place_name(now.spot[BUFFER]));
    printf("input  ");
    print_hex(now.input, now.n);
}

/* ---- One call ---- */

static uint64_t call_ours(const uint8_t *input, uint8_t *buffer)
{
    if (now.writer)
        return lukasembo_write(input, now.n, now.kind, buffer, now.room);
    return lukasembo_read(input, now.n, buffer, now.room);
}

/* In the form of our answer. Any kind but 0 is "this" for both: for ours the compiler makes 1 of it. */
static uint64_t call_plain(const uint8_t *input, uint8_t *buffer)
{
    if (now.writer) {
        const struct plain_write a = plain_write(input, now.n, now.kind, buffer, now.room);

        return (uint64_t)a.number | (uint64_t)a.segments << 16;
    } else {
        const struct plain_read a = plain_read(input, now.n, buffer, now.room);

        return (uint64_t)a.number | (uint64_t)a.kind << 8 | (uint64_t)a.minor << 9 | (uint64_t)a.length << 16 | (uint64_t)a.at << 32;
    }
}

/* How many bytes an answer says are written. */
static size_t written_by(uint64_t a)
{
    if (lukasembo_number(a) != 0)
        return 0;
    return now.writer ? LUKASEMBO_SEGMENT * lukasembo_segments(a) : lukasembo_length(a);
}

/* The length of a record of a listing, other than the first. */
static size_t record_length(const uint8_t *at)
{
    return at[0] == 'S' ? LUKASEMBO_SV : at[1] == 'U' ? LUKASEMBO_EU : LUKASEMBO_EN;
}

/* Whether a listing has an unknown ensemble. */
static int has_unknown(const uint8_t *listing, size_t n)
{
    size_t at;

    for (at = LUKASEMBO_TS; at + LUKASEMBO_EU <= n; at += record_length(listing + at))
        if (listing[at] == 'E' && listing[at + 1] == 'U')
            return 1;
    return 0;
}

/* Makes one side's result wrong, where it can be: for ours a service's multi and status exchanged,
   for plain the byte past what was written. */
static int make_wrong(int side, uint8_t *to)
{
    const size_t n = written_by(answer[side]);
    size_t at;

    if (n == 0 || n > now.room)
        return 0;
    if (side == PLAIN) {
        if (n < now.room)
            to[n] ^= 1;
        return n < now.room;
    }
    if (now.writer) { /* the first service's bits are the 12th byte of the chunk */
        const unsigned bits = to[13], multi = bits >> 3 & 3, status = bits >> 1 & 3;

        if (to[6] == 0 || to[10] == 0 || multi == status)
            return 0;
        to[13] = (uint8_t)((bits & 0xE1) | status << 3 | multi << 1);
        return 1;
    }
    for (at = LUKASEMBO_TS; at + LUKASEMBO_SV <= n; at += record_length(to + at))
        if (to[at] == 'S' && to[at + 5] != to[at + 6]) {
            const uint8_t multi = to[at + 5];

            to[at + 5] = to[at + 6];
            to[at + 6] = multi;
            return 1;
        }
    return 0;
}

/* What is wrong, or null; *at is the byte, from the start of the buffer, or NOWHERE. */
static const char *compare(long *at)
{
    const struct lent *o = &lent[OURS][BUFFER];
    const uint64_t a = answer[OURS];
    const size_t written = written_by(a);
    size_t i;
    int side;

    *at = NOWHERE;
    if (a != answer[PLAIN])
        return "the answers differ";
    *at = lent_differ(o, &lent[PLAIN][BUFFER], now.room);
    if (*at != NOWHERE)
        return *at < 0 || *at >= (long)now.room ? "the bytes around the buffers differ" : "the buffers differ";
    if (written > now.room)
        return "both answer more than the buffer holds";
    *at = lent_changed(o, now.pattern, now.room, written);
    if (*at != NOWHERE)
        return "both changed a byte that should stay";
    for (side = 0; side < SIDES; side++)
        if (!lent_same(&lent[side][INPUT], now.input, now.n))
            return side == OURS ? "ours changed its input" : "plain changed its input";
    if (now.want != NULL && *now.want != a)
        return "both answer other than wanted";
    i = now.want_bytes == NULL ? written : same(o->at, now.want_bytes, written);
    if (i < written) {
        *at = (long)i;
        return "both write other than wanted";
    }
    return NULL;
}

static const char *run(long *at)
{
    int side;

    for (side = 0; side < SIDES; side++) {
        lent_lay(&lent[side][INPUT], now.spot[INPUT], now.input, now.n);
        lent_fill(&lent[side][BUFFER], now.spot[BUFFER], now.pattern, now.room);
    }
    at_work = OURS;
    answer[OURS] = call_ours(lent[OURS][INPUT].at, lent[OURS][BUFFER].at);
    at_work = PLAIN;
    answer[PLAIN] = call_plain(lent[PLAIN][INPUT].at, lent[PLAIN][BUFFER].at);
    at_work = -1;
    if (now.planted != 0)
        make_wrong(now.planted - 1, lent[now.planted - 1][BUFFER].at);
    else if (plant_due() && make_wrong(plant - 1, lent[plant - 1][BUFFER].at)) {
        now.planted = (uint8_t)plant;
        plant_done();
    }
    return compare(at);
}

static void report(const char *wrong, long at)
{
    print_difference(wrong, now.planted);
    if (now.want != NULL)
        print_answer("wanted", *now.want);
    print_answer("ours", answer[OURS]);
    print_answer("plain", answer[PLAIN]);
    if (at != NOWHERE)
        printf("byte %ld from the start of the buffer: ours %02x, plain %02x\n", at, lent[OURS][BUFFER].at[at],
               lent[PLAIN][BUFFER].at[at]);
}

/* Both sides, once; now has the phase, the call, its kind, input and room. */
static void hold(void)
{
    const uint64_t x = rng_next(&rng);
    const char *wrong;
    long at;
    int m;

    if (!next_call())
        return;
    for (m = 0; m < MEMORIES; m++)
        now.spot[m] = any_spot((unsigned)(x >> 16 * m));
    now.pattern = (size_t)(x >> 48) % PATTERNS;
    now.planted = 0;
    wrong = run(&at);
    if (wrong != NULL) {
        report(wrong, at);
        keep_call();
        exit(1);
    }
    seen[now.writer][answer[OURS] & 0xFF]++;
    if (!now.writer)
        seen_unknown += has_unknown(lent[OURS][BUFFER].at, written_by(answer[OURS]));
    now.want = NULL;
    now.want_bytes = NULL;
}

static void hold_read(const uint8_t *chunk, size_t n)
{
    now.writer = 0;
    now.kind = 0;
    now.input = chunk;
    now.n = n;
    now.room = any_room(&rng, LUKASEMBO_LISTING);
    hold();
}

static void hold_write(const uint8_t *listing, size_t n, unsigned kind)
{
    now.writer = 1;
    now.kind = (uint8_t)kind;
    now.input = listing;
    now.n = n;
    now.room = any_room(&rng, LUKASEMBO_OUTPUT);
    hold();
}

/* ---- The reader's phases ---- */

/* A stuffed length: none, to a whole number of payloads, the longest, any. */
static size_t any_length(size_t n)
{
    switch (rng_below(&rng, 5)) {
    case 0: return n;
    case 1: return (n + MAKE_PAYLOAD - 1) / MAKE_PAYLOAD * MAKE_PAYLOAD;
    case 2: return MAKE_CHUNK;
    case 3: return n + rng_below(&rng, 4);
    default: return n < MAKE_CHUNK ? n + rng_below(&rng, MAKE_CHUNK - (unsigned)n + 1) : n;
    }
}

/* A chunk of this shape whose records take at most so many bytes. */
static void any_chunk(const struct make_shape *shape, size_t most)
{
    make_any_chunk(&rng, &list, shape, most, &made);
}

/* Every length from 0 to 561. */
static void lengths(uint64_t i)
{
    const size_t n = (size_t)(i % (MAKE_CHUNK + 2));
    const struct make_shape shape = make_shape(&rng);

    switch (i / (MAKE_CHUNK + 2) % 4) {
    case 0: /* any bytes */
        rng_fill(&rng, made.bytes, n);
        break;
    case 1: /* sound, if there is room for the header */
        any_chunk(&shape, n);
        make_stuffing(&rng, &made, n);
        break;
    case 2: /* a longer one, cut */
        any_chunk(&shape, n + 1 + rng_below(&rng, 80));
        make_stuffing(&rng, &made, n);
        break;
    default: /* any bytes after a header with few ensembles */
        rng_fill(&rng, made.bytes, MAKE_CHUNK + 2);
        made.bytes[0] &= 0x3F;
        made.bytes[4 + (made.bytes[0] & 7)] = (uint8_t)rng_below(&rng, 4);
        break;
    }
    hold_read(made.bytes, n);
}

/* Every pair of first two bytes, with short bodies. */
static void heads(uint64_t i)
{
    static const uint8_t body[] = {2, 3, 4, 5, 6, 7, 8, 9, 10, 12, 13, 14, 16, 20, 25, 35, 40, 50, 70};
    const unsigned head = (unsigned)(i % 65536);
    const size_t n = body[(i + i / 65536) % sizeof body];
    const struct make_shape shape = {0, head >> 8 & 7, head >> 5 & 7, head >> 2 & 7, head & 1, 0};

    if (rng_once_in(&rng, 4))
        rng_fill(&rng, made.bytes, n);
    else {
        any_chunk(&shape, n);
        make_stuffing(&rng, &made, n);
    }
    made.bytes[0] = (uint8_t)(head >> 8);
    made.bytes[1] = (uint8_t)head;
    hold_read(made.bytes, n);
}

/* Reads made; the answer, if there is room, and what it writes are known. */
static void hold_known(uint64_t want, const uint8_t *bytes)
{
    now.writer = 0;
    now.kind = 0;
    now.input = made.bytes;
    now.n = made.n;
    now.room = any_room(&rng, LUKASEMBO_LISTING);
    if (now.room < LUKASEMBO_LISTING)
        want = 1;
    now.want = &want;
    now.want_bytes = bytes;
    hold();
}

/* Every edition, extension length and kind in turn. */
static void sound(uint64_t i)
{
    static struct made listing;
    const unsigned k = (unsigned)(i % 8192);
    const struct make_shape shape = {k & 7, k >> 3 & 7, k >> 6 & 7, k >> 9 & 7, k >> 12, 0};

    any_chunk(&shape, rng_once_in(&rng, 2) ? MAKE_CHUNK : 12 + rng_below(&rng, MAKE_CHUNK - 12));
    make_stuffing(&rng, &made, any_length(made.n));
    make_listing(&list, &listing);
    hold_known(made.n > MAKE_CHUNK ? LUKASEMBO_TOO_LONG : (uint64_t)shape.kind << 8 | (uint64_t)shape.minor << 9 | (uint64_t)listing.n << 16,
               listing.bytes);
}

/* Where the thing begins, by the list and the shape, that byte n of the list's chunk is in. */
static size_t thing_with(const struct make_shape *shape, size_t n)
{
    size_t at = 0, next = 5 + shape->header;
    unsigned i = 0, services = 0;

    while (next <= n) {
        at = next;
        if (services > 0) {
            services--;
            next += 3 + shape->service;
        } else {
            services = list.ensemble[i++].services;
            next += 4 + shape->ensemble;
        }
    }
    return at;
}

/* A sound chunk, cut before each of its bytes in turn. */
static void ran_out(uint64_t i)
{
    const struct make_shape shape = make_shape(&rng);

    any_chunk(&shape, rng_once_in(&rng, 2) ? MAKE_CHUNK : 12 + rng_below(&rng, 100));
    made.n = (size_t)(i % made.n);
    hold_known(LUKASEMBO_ENDS_EARLY | (uint64_t)thing_with(&shape, made.n) << 32, NULL);
}

/* times 0: two to five. */
static void damaged(uint64_t i, unsigned times)
{
    const struct make_shape shape = make_shape(&rng);

    any_chunk(&shape, rng_once_in(&rng, 2) ? MAKE_CHUNK : 12 + rng_below(&rng, 100));
    make_stuffing(&rng, &made, any_length(made.n));
    if (times == 1)
        make_damage_chunk(&rng, &made, (unsigned)(i % MAKE_CHUNK_DAMAGES));
    else
        for (times = 2 + rng_below(&rng, 4); times > 0; times--)
            make_damage_chunk(&rng, &made, rng_below(&rng, MAKE_CHUNK_DAMAGES));
    hold_read(made.bytes, made.n);
}

/* Records just over 560 bytes, whole or cut there; sound chunks stuffed to more; lengths that 16 bits don't hold. */
static void too_long(uint64_t i)
{
    const struct make_shape shape = make_shape(&rng);

    if (i % 4 < 2) {
        any_chunk(&shape, MAKE_CHUNK + 1 + rng_below(&rng, 12));
        if (i % 4 == 0 && made.n > MAKE_CHUNK)
            made.n = MAKE_CHUNK;
    } else {
        any_chunk(&shape, MAKE_CHUNK);
        make_stuffing(&rng, &made, i % 64 == 2 ? LONG + (size_t)rng_below(&rng, 600) : MAKE_CHUNK + 1 + (size_t)rng_below(&rng, 80));
    }
    hold_read(made.bytes, made.n);
}

/* ---- The writer's phases ---- */

static const struct make_shape written = {0, 0, 0, 0, 0, 1}; /* what the writer makes, for the next frame */

/* A list whose chunk is at most so long. */
static void any_list(size_t most)
{
    make_list(&rng, &list, &written, most);
    if (rng_once_in(&rng, 8))
        make_unknown(&rng, &list);
}

/* Writes made; the answer, if there is room, and the segments are known. */
static void hold_known_written(uint64_t want, const uint8_t *segments, unsigned kind)
{
    now.writer = 1;
    now.kind = (uint8_t)kind;
    now.input = made.bytes;
    now.n = made.n;
    now.room = any_room(&rng, LUKASEMBO_OUTPUT);
    if (now.room < LUKASEMBO_OUTPUT)
        want = 1;
    now.want = &want;
    now.want_bytes = segments;
    hold();
}

/* Writes the listing of list, with its answer and its segments known: any kind but 0 is for this frame. */
static void hold_written(unsigned kind)
{
    static struct made chunk;
    static uint8_t segments[MAKE_PLACES][MAKE_SEGMENT];
    struct make_shape shape = written;
    uint64_t want = list.unknown > 0 ? 13 : 14;

    shape.kind = kind != 0;
    make_listing(&list, &made);
    if (list.unknown == 0 && make_size(&list, &shape) <= MAKE_CHUNK) {
        make_chunk(&rng, &list, &shape, &chunk);
        want = (uint64_t)make_segments(&rng, chunk.bytes, chunk.n, shape.kind, 1, segments) << 16;
    }
    hold_known_written(want, segments[0], kind);
}

static void listings(uint64_t i)
{
    any_list(rng_once_in(&rng, 2) ? MAKE_CHUNK : 12 + rng_below(&rng, 100));
    hold_written((unsigned)(i % 2));
}

/* The counts about the limit of 560 bytes, for every number of ensembles, at times unknown ones. */
static void limits(uint64_t i)
{
    static const uint8_t named[][2] = {{1, 183}, {1, 184}, {3, 181}, {3, 182}};
    const unsigned k = (unsigned)(i / 2 % 1024);
    unsigned ensembles, services;

    if (k % 8 == 0) {
        ensembles = named[k / 8 % 4][0];
        services = named[k / 8 % 4][1];
    } else if (k % 8 == 1) { /* far above it: sums that 8 bits don't hold */
        ensembles = 2 + rng_below(&rng, 7);
        services = 184 + rng_below(&rng, 255 * ensembles - 183);
    } else {
        ensembles = rng_below(&rng, 142);
        services = (ensembles > 138 ? 0 : (MAKE_CHUNK - 5 - 4 * ensembles) / 3) + rng_below(&rng, 4);
        services = services > 0 ? services - 1 : 0;
    }
    make_counts(&rng, &list, ensembles, services);
    if (rng_once_in(&rng, 16))
        make_unknown(&rng, &list);
    hold_written((unsigned)(i % 2));
}

/* times 0: two to five. */
static void bad_listings(uint64_t i, unsigned times)
{
    any_list(rng_once_in(&rng, 2) ? MAKE_CHUNK + 20 : 12 + rng_below(&rng, 100));
    make_listing(&list, &made);
    if (times == 1)
        make_damage_listing(&rng, &made, (unsigned)(i % MAKE_LISTING_DAMAGES));
    else
        for (times = 2 + rng_below(&rng, 4); times > 0; times--)
            make_damage_listing(&rng, &made, rng_below(&rng, MAKE_LISTING_DAMAGES));
    hold_write(made.bytes, made.n, rng_below(&rng, 2));
}

/* A sound listing but for one id: a service's ensemble's, or that of the ensemble above it. */
static void bad_ids(uint64_t i)
{
    size_t at, above = 0, wrong = 0;
    unsigned services = 0;

    do
        make_list(&rng, &list, &written, rng_once_in(&rng, 2) ? MAKE_CHUNK + 20 : 12 + rng_below(&rng, 100));
    while (list.services == 0);
    make_listing(&list, &made);
    for (at = LUKASEMBO_TS; at < made.n; at += record_length(made.bytes + at))
        if (made.bytes[at] == 'E')
            above = at;
        else if (rng_once_in(&rng, ++services))
            wrong = i % 4 == 0 ? above : at;
    made.bytes[wrong + 2] ^= (uint8_t)(1 + i % 255);
    hold_known_written(LUKASEMBO_BAD_LISTING, NULL, rng_below(&rng, 2));
}

/* Every cut of one listing after another; in between, any bytes of that length. */
static void cuts(uint64_t i)
{
    static struct made whole;
    static size_t n;
    static uint8_t any[LUKASEMBO_LISTING];

    if (i == 0 || n > whole.n) {
        any_list(12 + rng_below(&rng, 548));
        make_listing(&list, &whole);
        n = 0;
    }
    if (i % 4 != 3) {
        hold_write(whole.bytes, n++, rng_below(&rng, 2));
        return;
    }
    rng_fill(&rng, any, n);
    if (rng_once_in(&rng, 2))
        memcpy(any, whole.bytes, n < 5 ? n : 5);
    hold_write(any, n, rng_below(&rng, 2));
}

/* Every byte as kind. */
static void kinds(uint64_t i)
{
    any_list(12 + rng_below(&rng, 100));
    hold_written((unsigned)(i % 256));
}

/* Listings up to the longest that counts of 255 allow, sound, damaged, and damaged in the last record.
   A fourth has counts whose chunk's length would be short in 16 bits. */
static void long_listings(uint64_t i)
{
    unsigned ensembles = 1 + rng_below(&rng, 255), services;

    switch (i % 4) {
    case 0: ensembles = 255; services = 255 * 255; break;
    case 1: services = 255 * ensembles; break;
    case 2: services = rng_below(&rng, 255 * ensembles); break;
    default:
        ensembles = 180 + rng_below(&rng, 76);
        services = (LONG * (1 + rng_below(&rng, 2)) - 3 - 4 * ensembles) / 3 + rng_below(&rng, 180);
        break;
    }
    make_counts(&rng, &list, ensembles, services);
    if (rng_once_in(&rng, 8))
        make_unknown(&rng, &list);
    make_listing(&list, &made);
    if (i % 3 == 1)
        make_damage_listing(&rng, &made, rng_below(&rng, MAKE_LISTING_DAMAGES));
    else if (i % 3 == 2) {
        static const uint8_t behind[] = {1, 2, 3, LUKASEMBO_SV - 2}; /* SP, status, multi, the ensemble's id */

        made.bytes[made.n - behind[rng_below(&rng, sizeof behind)]] ^= 4;
    }
    hold_write(made.bytes, made.n, rng_below(&rng, 2));
}

/* ---- The paper's samples ---- */

static size_t from_hex(const char *hex, uint8_t *to)
{
    size_t n = 0;
    unsigned byte;
    int used;

    while (sscanf(hex, " %2x%n", &byte, &used) == 1) {
        to[n++] = (uint8_t)byte;
        hex += used;
    }
    return n;
}

static void samples(void)
{
    static const char listing[] = "5453 0123 01 454E 05 04 03 01 5356 05 0A01 00 03 00", unknown[] = "5453 0123 01 4555 05 01";
    static const struct {
        const char *chunk;
        uint64_t want; /* but for the listing's length */
        const char *listing;
    } read[] = {
        {"00 03 01 23 01 05 E0 83 01 0A 01 E6", 1 << 8, listing},
        {"09 43 01 23 AA 01 05 E0 83 BB CC 01 0A 01 E6", 1 << 9 | 1 << 8, listing},
        {"00 03 01 23 00", 1 << 8, "54 53 01 23 00"},
        {"00 03 01 23", 9, ""},
        {"", 9, ""},
        {"40", 9, ""},
        {"40 03", 5, ""},
        {"00 03 01 23 01", (uint64_t)5 << 32 | 9, ""},
        {"00 03 01 23 01 05 E1 83 01 0A 01 E6", 1 << 8, unknown},
        {"00 03 01 23 03 05 E0 83 00 06 E1 83 01 0A 01 E6 07 E0 83 01 05 06 E6", 1 << 8,
         "5453 0123 03 454E 05 04 03 00 4555 06 01 454E 07 04 03 01 5356 07 0506 00 03 00"},
        {"00 03 01 23 01 05 E1 83 01 0A 01", (uint64_t)9 << 32 | 9, ""},
        {"00 03 01 23 01 05 E0 83 01 0A 01", (uint64_t)9 << 32 | 9, ""},
        {"00 03", 9, ""},
        {"07 03 01 23 00 00 00 00 00 00", 9, ""},
        {"02 03 01 23 00 00 01 05 E0", (uint64_t)7 << 32 | 9, ""},
        {"02 07 01 23 00 00 01 05 E0 83 03 0A 01 E6 DD 0A 02 E6", (uint64_t)15 << 32 | 9, ""},
    };
    static const char *const bad[] = {
        unknown,
        "5453 0123 01 454E 05 04 03 01 5356 0A 0A01 00 03 00",
        "5453 0123 01 454E 0A 04 03 01 5356 05 0A01 00 03 00",
        "5453 0123 01 454E 05 04 03 01 5356 0A01 00 03 00", /* as it was before a service had its ensemble's id */
    };
    uint8_t input[64], want[64];
    uint64_t due;
    size_t i, n;

    now.writer = 0;
    now.kind = 0;
    now.input = input;
    for (i = 0; i < 2 * sizeof read / sizeof *read; i++) {
        now.n = from_hex(read[i / 2].chunk, input);
        due = read[i / 2].want | (uint64_t)from_hex(read[i / 2].listing, want) << 16;
        now.room = LUKASEMBO_LISTING;
        if (i % 2 == 1) {
            now.room--;
            due = 1;
        }
        now.want = &due;
        now.want_bytes = want;
        hold();
    }
    now.writer = 1;
    now.kind = LUKASEMBO_THIS;
    now.n = from_hex(listing, input);
    now.room = LUKASEMBO_OUTPUT;
    n = from_hex("32 00 00 03 01 23 01 05 E0 83 01 0A 01 E6", want);
    memset(want + n, 0xFF, 23);
    due = 1 << 16;
    now.want = &due;
    now.want_bytes = want;
    hold();
    for (i = 0; i < sizeof bad / sizeof *bad; i++) {
        now.n = from_hex(bad[i], input);
        due = 13;
        now.want = &due;
        hold();
    }
}

/* ---- All ---- */

static void run_phase(int phase, uint64_t n)
{
    uint64_t i;

    now.phase = phase;
    for (i = 0; i < n && calls < limit; i++)
        switch (phase) {
        case LENGTHS: lengths(i); break;
        case HEADS: heads(i); break;
        case SOUND: sound(i); break;
        case RAN_OUT: ran_out(i); break;
        case DAMAGED: damaged(i, 1); break;
        case DAMAGED_MORE: damaged(i, 0); break;
        case TOO_LONG: too_long(i); break;
        case LISTINGS: listings(i); break;
        case LIMITS: limits(i); break;
        case BAD_LISTINGS: bad_listings(i, 1); break;
        case BAD_IDS: bad_ids(i); break;
        case CUTS: cuts(i); break;
        case KINDS: kinds(i); break;
        case LONG_LISTINGS: long_listings(i); break;
        default: bad_listings(i, 0); break;
        }
    printf("%-18s %llu\n", phase_name[phase], (unsigned long long)i);
}

static int run_all(void)
{
    uint64_t both[2] = {0, 0};
    int phase;
    unsigned i;

    rng.state = seed;
    printf("seed %llu\n", (unsigned long long)seed);
    now.phase = SAMPLES;
    samples();
    printf("%-18s %llu\n", phase_name[SAMPLES], (unsigned long long)calls);
    for (phase = 0; phase < BAD_LISTINGS_MORE; phase++)
        run_phase(phase, phase == LONG_LISTINGS ? limit / 5000 : limit * phase_share[phase] / 1000);
    run_phase(BAD_LISTINGS_MORE, limit - calls);
    printf("number      reader      writer\n");
    for (i = 0; i < 256; i++) {
        if (i < 15 || seen[0][i] + seen[1][i] > 0)
            printf("%6u %11llu %11llu\n", i, (unsigned long long)seen[0][i], (unsigned long long)seen[1][i]);
        both[0] += seen[0][i];
        both[1] += seen[1][i];
    }
    printf("of the reader's listings, with unknown ensembles: %llu\n", (unsigned long long)seen_unknown);
    printf("reader %llu calls, writer %llu calls, %llu in all: no difference\n", (unsigned long long)both[0],
           (unsigned long long)both[1], (unsigned long long)(both[0] + both[1]));
    if (plant != 0)
        printf("the plant was not found, or no call came for it\n");
    return plant != 0 ? 2 : 0;
}

static int replay(const char *name)
{
    FILE *f = open_kept(name);
    uint8_t head[4];
    const char *wrong;
    long at;
    int side;

    if (f == NULL || fread(head, 1, sizeof head, f) != sizeof head || !get_spots(f, now.spot, MEMORIES))
        return not_kept(name, f);
    now.phase = head[0];
    now.writer = head[1];
    now.kind = head[2];
    now.planted = head[3];
    now.pattern = (size_t)get_number(f);
    now.room = (size_t)get_number(f);
    now.n = (size_t)get_number(f);
    now.input = made.bytes;
    if (now.phase >= PHASES || now.writer > 1 || now.planted > SIDES || now.pattern >= PATTERNS || now.room > BUFFER_ROOM || now.n > MAKE_ROOM
        || fread(made.bytes, 1, now.n, f) != now.n || getc(f) != EOF)
        return not_kept(name, f);
    fclose(f);
    wrong = run(&at);
    if (wrong != NULL)
        report(wrong, at);
    else {
        print_call();
        print_answer("ours", answer[OURS]);
        print_answer("plain", answer[PLAIN]);
    }
    for (side = 0; side < SIDES; side++) {
        const size_t n = written_by(answer[side]);

        printf("%s writes ", side == OURS ? "ours" : "plain");
        print_hex(lent[side][BUFFER].at, n < now.room ? n : now.room);
    }
    printf("%s\n", wrong != NULL ? "a difference" : "no difference");
    return wrong != NULL;
}

int main(int argc, char **argv)
{
    int side;

    for (side = 0; side < SIDES; side++) {
        lent_new(&lent[side][INPUT], MAKE_ROOM);
        lent_new(&lent[side][BUFFER], BUFFER_ROOM);
    }
    return harness(argc, argv, 6000000, run_all, replay);
}
