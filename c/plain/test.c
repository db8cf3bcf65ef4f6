/* Checks plain.c against the paper's samples and against slow models of its
   rules, and the log program named by the first argument. Prints "ok", or
   what differs. */
#define _POSIX_C_SOURCE 200809L

#include "check_log.h"

static uint32_t seed = 1;

static unsigned dice(unsigned sides)
{
    seed = seed * 1664525u + 1013904223u;
    return (seed >> 8) % sides;
}

/* ---- Samples ---- */

static const uint8_t chunk1[] = {0x00, 0x03, 0x01, 0x23, 0x01, 0x05, 0xE0, 0x83, 0x01, 0x0A, 0x01, 0xE6};
static const uint8_t chunk2[] = {0x09, 0x43, 0x01, 0x23, 0xAA, 0x01, 0x05, 0xE0, 0x83, 0xBB, 0xCC, 0x01, 0x0A, 0x01, 0xE6};
static const uint8_t chunk3[] = {0x00, 0x03, 0x01, 0x23, 0x00};
static const uint8_t chunk4[] = {0x40, 0x03};
static const uint8_t chunk5[] = {0x00, 0x03, 0x01, 0x23, 0x01};
static const uint8_t list1[] = {0x54, 0x53, 0x01, 0x23, 0x01, 0x45, 0x4E, 0x05, 0x04, 0x03, 0x01,
                                0x53, 0x56, 0x05, 0x0A, 0x01, 0x00, 0x03, 0x00};
static const uint8_t list3[] = {0x54, 0x53, 0x01, 0x23, 0x00};
static const uint8_t list_unknown[] = {0x54, 0x53, 0x01, 0x23, 0x01, 0x45, 0x55, 0x05, 0x01};
/* Where the header, the ensemble's fields and the service of the first two begin, and their end. */
static const size_t starts1[] = {0, 5, 9, 12}, starts2[] = {0, 6, 12, 15};

/* Reads from memory of exactly n bytes; the listing expected, or a number. */
static struct plain_read exact_read(const uint8_t *chunk, size_t n, uint8_t *buffer)
{
    uint8_t *copy = n > 0 ? malloc(n) : NULL;
    struct plain_read r;

    if (n > 0)
        memcpy(copy, chunk, n);
    memset(buffer, 0xA5, PLAIN_LISTING);
    r = plain_read(copy, n, buffer, PLAIN_LISTING);
    free(copy);
    CHECK(all(buffer + r.length, PLAIN_LISTING - r.length, 0xA5));
    if (r.number != 0)
        CHECK(r.kind == 0 && r.minor == 0 && r.length == 0);
    CHECK(r.number == 9 ? r.at <= n : r.at == 0);
    return r;
}

static int reads(const uint8_t *chunk, size_t n, int kind, int minor, const uint8_t *list, size_t length)
{
    uint8_t buffer[PLAIN_LISTING];
    struct plain_read r = exact_read(chunk, n, buffer);

    return r.number == 0 && r.kind == kind && r.minor == minor && r.length == length
        && memcmp(buffer, list, length) == 0;
}

static int refuses(const uint8_t *chunk, size_t n, int number)
{
    uint8_t buffer[PLAIN_LISTING];

    return exact_read(chunk, n, buffer).number == number;
}

static int runs_out(const uint8_t *chunk, size_t n, size_t at)
{
    uint8_t buffer[PLAIN_LISTING];
    struct plain_read r = exact_read(chunk, n, buffer);

    return r.number == 9 && r.at == at;
}

/* Where the thing begins that byte n is in; starts has them all in order, and
   the chunk's end. */
static size_t start_of(const size_t *starts, size_t n)
{
    while (starts[1] <= n)
        starts++;
    return starts[0];
}

/* Checks the chunk cut to each length: what does not fit whole is the thing
   that the first byte cut off is in. */
static void cuts(const uint8_t *chunk, size_t whole, const size_t *starts)
{
    size_t n;

    for (n = 0; n < whole; n++)
        CHECK(runs_out(chunk, n, start_of(starts, n)));
}

static void reader_samples(void)
{
    uint8_t c[PLAIN_CHUNK + 1], buffer[PLAIN_LISTING];
    size_t n;

    CHECK(reads(chunk1, LEN(chunk1), 1, 0, list1, LEN(list1)));
    CHECK(reads(chunk2, LEN(chunk2), 1, 1, list1, LEN(list1)));
    CHECK(reads(chunk3, LEN(chunk3), 1, 0, list3, LEN(list3)));
    CHECK(runs_out(chunk3, 4, 0));
    CHECK(runs_out(NULL, 0, 0));
    CHECK(runs_out(chunk4, 1, 0));
    CHECK(refuses(chunk4, 2, 5));
    CHECK(runs_out(chunk5, 5, 5));
    CHECK(runs_out(chunk1, 11, 9));
    cuts(chunk1, LEN(chunk1), starts1);
    cuts(chunk2, LEN(chunk2), starts2);

    /* A header of 12 bytes, and an ensemble that is not there: the flags alone,
       cut in the extension, the extension without the count, all of it. */
    memset(c, 1, sizeof c);
    c[0] = 0x07;
    for (n = 2; n < 12; n++)
        CHECK(runs_out(c, n, 0));
    CHECK(runs_out(c, 12, 12));

    /* Kind next; reserved bits as zeros; stuffing of any content. */
    memset(c, 0x5A, sizeof c);
    memcpy(c, chunk1, LEN(chunk1));
    c[1] = 0x00;
    c[6] = 0x00;
    c[11] = 0x06;
    CHECK(reads(c, LEN(chunk1), 0, 0, list1, LEN(list1)));
    CHECK(reads(c, PLAIN_CHUNK, 0, 0, list1, LEN(list1)));
    CHECK(refuses(c, PLAIN_CHUNK + 1, 8));
    c[0] = 0x40; /* 8 comes before 5 */
    CHECK(refuses(c, PLAIN_CHUNK + 1, 8));
    CHECK(refuses(c, PLAIN_CHUNK, 5));

    /* 1 comes before 8, and writes nothing. */
    memset(buffer, 0xA5, sizeof buffer);
    CHECK(plain_read(c, PLAIN_CHUNK + 1, buffer, PLAIN_LISTING - 1).number == 1);
    CHECK(plain_read(chunk1, LEN(chunk1), buffer, PLAIN_LISTING - 1).number == 1);
    CHECK(plain_read(chunk1, 11, buffer, PLAIN_LISTING - 1).number == 1);
    CHECK(plain_read(chunk1, 11, buffer, PLAIN_LISTING - 1).at == 0);
    CHECK(plain_read(NULL, 0, NULL, 0).number == 1);
    CHECK(all(buffer, sizeof buffer, 0xA5));
    CHECK(plain_read(chunk1, LEN(chunk1), buffer, PLAIN_LISTING).number == 0);
}

static void unknown_samples(void)
{
    /* e 2, s 1; the second ensemble has version 31 and two services. */
    static const uint8_t between[] = {0x00, 0x46, 0x01, 0x23, 0x03,
                                      0x05, 0xE0, 0x83, 0xA1, 0xA2, 0x01, 0x0A, 0x01, 0xE6, 0xA3,
                                      0x06, 0x3F, 0x83, 0xA1, 0xA2, 0x02, 0x0B, 0x01, 0xE6, 0xA3, 0x0C, 0x01, 0xE6, 0xA3,
                                      0x07, 0x00, 0x25, 0xA1, 0xA2, 0x00};
    static const uint8_t list[] = {0x54, 0x53, 0x01, 0x23, 0x03,
                                   0x45, 0x4E, 0x05, 0x04, 0x03, 0x01, 0x53, 0x56, 0x05, 0x0A, 0x01, 0x00, 0x03, 0x00,
                                   0x45, 0x55, 0x06, 0x1F,
                                   0x45, 0x4E, 0x07, 0x01, 0x05, 0x00};
    static const size_t starts[] = {0, 5, 11, 15, 21, 25, 29, 35};
    uint8_t c[PLAIN_CHUNK + 1], l[PLAIN_LISTING];
    unsigned i;

    CHECK(reads(between, LEN(between), 0, 0, list, LEN(list)));
    cuts(between, LEN(between), starts);

    /* The unknown one last; what follows it is stuffing. */
    memcpy(c, between, LEN(between));
    memcpy(l, list, LEN(list));
    c[4] = l[4] = 2;
    CHECK(reads(c, LEN(between), 0, 0, l, LEN(list) - 6));
    CHECK(reads(c, 29, 0, 0, l, LEN(list) - 6));
    cuts(c, 29, starts);

    /* Every version, with every value of the reserved bits. */
    memcpy(c, chunk1, LEN(chunk1));
    memcpy(l, list_unknown, LEN(list_unknown));
    for (i = 0; i < 256; i++) {
        c[6] = (uint8_t)i;
        l[8] = i % 32;
        if (i % 32 == 0)
            CHECK(reads(c, LEN(chunk1), 1, 0, list1, LEN(list1)));
        else
            CHECK(reads(c, LEN(chunk1), 1, 0, l, LEN(list_unknown)));
        cuts(c, LEN(chunk1), starts1);
    }

    /* As many as there is room for, none with services; one more. */
    memset(c, 0, sizeof c);
    c[4] = l[4] = 138;
    for (i = 0; i < 138; i++) {
        c[5 + 4 * i] = l[7 + 4 * i] = (uint8_t)i;
        c[6 + 4 * i] = l[8 + 4 * i] = (uint8_t)(1 + i % 31);
        memcpy(l + 5 + 4 * i, "EU", 2);
    }
    l[2] = l[3] = 0;
    CHECK(reads(c, 557, 0, 0, l, 557));
    CHECK(reads(c, PLAIN_CHUNK, 0, 0, l, 557));
    CHECK(runs_out(c, 556, 553));
    c[4] = 139;
    CHECK(runs_out(c, PLAIN_CHUNK, 557));

    /* One, with as many services as there is room for; one more; 255. */
    c[4] = l[4] = 1;
    c[8] = 183;
    CHECK(reads(c, 558, 0, 0, l, 9));
    CHECK(runs_out(c, 557, 555));
    c[8] = 184;
    CHECK(runs_out(c, PLAIN_CHUNK, 558));
    c[8] = 255;
    CHECK(runs_out(c, PLAIN_CHUNK, 558));
}

/* ---- The reader against a slow one that goes bit by bit, and thing by thing ---- */

struct bits {
    const uint8_t *p;
    size_t n, at; /* both in bits */
};

static unsigned get(struct bits *b, unsigned width)
{
    unsigned v = 0;

    for (; width > 0; width--, b->at++)
        v = v << 1 | ((unsigned)b->p[b->at / 8] >> (7 - b->at % 8) & 1u);
    return v;
}

static unsigned unknown; /* ensembles of this sort that the last slow_read came to */

static struct plain_read slow_read(const uint8_t *chunk, size_t n, uint8_t *list)
{
    struct plain_read no = {9, 0, 0, 0, 0}, yes = {0, 0, 0, 0, 0};
    struct bits b = {chunk, 8 * n, 0};
    unsigned h, e, s, ens, k, flags;
    size_t to = 0;

    unknown = 0;
    if (b.n < 16)
        return no;
    if (get(&b, 2) != 0) {
        no.number = 5;
        return no;
    }
    yes.minor = (int)get(&b, 3);
    h = get(&b, 3);
    e = get(&b, 3);
    s = get(&b, 3);
    get(&b, 1);
    yes.kind = (int)get(&b, 1);
    if (b.n < 8 * (5 + h))
        return no;
    list[to++] = 0x54;
    list[to++] = 0x53;
    list[to++] = (uint8_t)get(&b, 8);
    list[to++] = (uint8_t)get(&b, 8);
    b.at += 8 * h;
    list[to++] = (uint8_t)(ens = get(&b, 8));
    for (; ens > 0; ens--) {
        unsigned id, version, count;

        no.at = b.at / 8;
        if (b.n - b.at < 8 * (4 + e))
            return no;
        id = get(&b, 8);
        get(&b, 3);
        version = get(&b, 5);
        if (version != 0) {
            list[to++] = 0x45;
            list[to++] = 0x55;
            list[to++] = (uint8_t)id;
            list[to++] = (uint8_t)version;
            unknown++;
            get(&b, 1 + 1 + 1 + 5);
            b.at += 8 * e;
            count = get(&b, 8);
            for (; count > 0; count--) {
                no.at = b.at / 8;
                for (k = 0; k < 8 * (3 + s); k++, b.at++)
                    if (b.at == b.n)
                        return no;
            }
            continue;
        }
        list[to++] = 0x45;
        list[to++] = 0x4E;
        list[to++] = (uint8_t)id;
        flags = 4 * get(&b, 1);
        flags += 2 * get(&b, 1);
        flags += get(&b, 1);
        list[to++] = (uint8_t)flags;
        list[to++] = (uint8_t)get(&b, 5);
        b.at += 8 * e;
        list[to++] = (uint8_t)(count = get(&b, 8));
        for (k = 0; k < count; k++) {
            no.at = b.at / 8;
            if (b.n - b.at < 8 * (3 + s))
                return no;
            list[to++] = 0x53;
            list[to++] = 0x56;
            list[to++] = (uint8_t)id;
            list[to++] = (uint8_t)get(&b, 8);
            list[to++] = (uint8_t)get(&b, 8);
            get(&b, 3);
            list[to++] = (uint8_t)get(&b, 2);
            list[to++] = (uint8_t)get(&b, 2);
            list[to++] = (uint8_t)get(&b, 1);
            b.at += 8 * s;
        }
    }
    yes.length = to;
    return yes;
}

/* Where the things of the last random_chunk begin, and its end. */
static size_t starts[PLAIN_CHUNK];

/* A chunk of random content, mostly one that is accepted; answers its length
   without stuffing. What is past it is random too. */
static size_t random_chunk(uint8_t *c)
{
    unsigned h = dice(8), e = dice(2) ? dice(8) : 0, s = dice(2) ? dice(8) : 0, i;
    unsigned ens = dice(20) ? dice(6) : dice(256), share = dice(5); /* of four ensembles, so many unknown */
    size_t at, things = 0;

    for (i = 0; i < PLAIN_CHUNK; i++)
        c[i] = (uint8_t)dice(256);
    c[0] = (uint8_t)(dice(8) << 3 | h);
    c[1] = (uint8_t)(e << 5 | s << 2 | dice(4));
    c[4 + h] = (uint8_t)ens;
    starts[things++] = 0;
    at = 5 + h;
    for (; ens > 0; ens--) {
        unsigned count = dice(12);

        if (dice(4) >= share)
            c[at + 1] &= 0xE0;
        c[at + 3 + e] = (uint8_t)count;
        starts[things++] = at;
        at += 4 + e;
        if (at + count * (3 + s) + 11 > PLAIN_CHUNK) {
            c[at - 1] = 0;
            count = 0;
        }
        for (; count > 0; count--) {
            starts[things++] = at;
            at += 3 + s;
        }
        if (at + 11 > PLAIN_CHUNK) {
            c[4 + h] = (uint8_t)(c[4 + h] - (ens - 1));
            break;
        }
    }
    starts[things] = at;
    return at;
}

static void reader_model(void)
{
    uint8_t c[PLAIN_CHUNK], got[PLAIN_LISTING], want[PLAIN_LISTING];
    unsigned long seen[16] = {0}, some = 0, only = 0, cut = 0; /* those with unknown ensembles */
    unsigned round, i;

    for (round = 0; round < 60000; round++) {
        size_t n = random_chunk(c);
        struct plain_read g, w;

        if (dice(3) == 0)
            n = dice((unsigned)n + 1); /* cut */
        else if (dice(2))
            n += dice((unsigned)(PLAIN_CHUNK - n) + 1); /* stuffed */
        if (dice(4) == 0 && n > 0)
            for (i = dice(4); i > 0; i--)
                c[dice(n < 20 ? (unsigned)n : 20)] = (uint8_t)dice(256);
        w = slow_read(c, n, want);
        g = exact_read(c, n, got);
        seen[g.number]++;
        some += g.number == 0 && unknown > 0 && unknown < want[4];
        only += g.number == 0 && unknown > 0 && unknown == want[4];
        cut += g.number == 9 && unknown > 0;
        CHECK(g.number == w.number && g.kind == w.kind && g.minor == w.minor && g.length == w.length && g.at == w.at);
        CHECK(g.number != 0 || memcmp(got, want, g.length) == 0);
    }
    CHECK(seen[0] > 1000 && seen[5] > 100 && seen[9] > 1000);
    CHECK(some > 1000 && only > 1000 && cut > 1000);
    for (round = 0; round < 3000; round++)
        cuts(c, random_chunk(c), starts);
}

/* ---- The writer ---- */

/* A listing: so many services in the first ensemble, none in the others. */
static size_t make_listing(uint8_t *to, unsigned ensembles, unsigned services)
{
    uint8_t *p = to;
    unsigned i, k;
    uint8_t id;

    memcpy(p, "TS", 2);
    p[2] = (uint8_t)dice(256);
    p[3] = (uint8_t)dice(256);
    p[4] = (uint8_t)ensembles;
    p += 5;
    for (i = 0; i < ensembles; i++) {
        memcpy(p, "EN", 2);
        p[2] = id = (uint8_t)dice(256);
        p[3] = (uint8_t)dice(8);
        p[4] = (uint8_t)dice(32);
        p[5] = (uint8_t)(i == 0 ? services : 0);
        p += 6;
        for (k = 0; i == 0 && k < services; k++) {
            memcpy(p, "SV", 2);
            p[2] = id;
            p[3] = (uint8_t)dice(256);
            p[4] = (uint8_t)dice(256);
            p[5] = (uint8_t)dice(4);
            p[6] = (uint8_t)dice(4);
            p[7] = (uint8_t)dice(2);
            p += PLAIN_SV;
        }
    }
    return (size_t)(p - to);
}

static struct plain_write exact_write(const uint8_t *list, size_t n, int kind, uint8_t *out)
{
    uint8_t *copy = n > 0 ? malloc(n) : NULL;
    struct plain_write w;

    if (n > 0)
        memcpy(copy, list, n);
    memset(out, 0xA5, PLAIN_OUTPUT);
    w = plain_write(copy, n, kind, out, PLAIN_OUTPUT);
    free(copy);
    if (w.number != 0)
        CHECK(w.segments == 0);
    CHECK(all(out + 37 * w.segments, PLAIN_OUTPUT - 37 * w.segments, 0xA5));
    return w;
}

/* The chunk that lies in written segments; checks their headers. */
static size_t unwrap(const uint8_t *out, size_t segments, int kind, uint8_t *chunk)
{
    size_t i;

    for (i = 0; i < segments; i++) {
        CHECK(out[37 * i] == (kind ? 0x32 : 0x30));
        CHECK(out[37 * i + 1] == 16 * i + segments - 1);
        memcpy(chunk + 35 * i, out + 37 * i + 2, 35);
    }
    return 35 * segments;
}

static void unknown_writer_tests(void)
{
    uint8_t out[PLAIN_OUTPUT], big[2000], c[PLAIN_CHUNK], got[PLAIN_LISTING];
    unsigned long refused = 0, written = 0;
    unsigned round, i;
    size_t n;

    for (n = 0; n <= LEN(list_unknown); n++)
        CHECK(exact_write(list_unknown, n, 1, out).number == 13);

    /* Put in before the good ensemble and after it, counted and not. */
    for (i = 0; i < 4; i++) {
        n = i % 2 ? 5 : LEN(list1);
        memcpy(big, list1, n);
        memcpy(big + n, "EU\6\1", 4);
        memcpy(big + n + 4, list1 + n, LEN(list1) - n);
        big[4] = i < 2 ? 2 : 1;
        CHECK(exact_write(big, LEN(list1) + 4, 1, out).number == 13);
    }
    /* 13 comes before 14: the last of 255 is unknown. */
    n = make_listing(big, 255, 0);
    memcpy(big + n - 6, "EU\6\1", 4);
    CHECK(exact_write(big, n - 2, 1, out).number == 13);
    memcpy(big + n - 6, "EN\6\1\1\0", 6);
    CHECK(exact_write(big, n, 1, out).number == 14);

    /* What the reader lists is refused exactly if an ensemble is unknown. */
    for (round = 0; round < 5000; round++) {
        struct plain_read r;
        struct plain_write w;

        n = random_chunk(c);
        slow_read(c, n, got);
        r = exact_read(c, n, got);
        w = exact_write(got, r.length, (int)dice(2), out);
        CHECK(r.number == 0 && w.number == (unknown > 0 ? 13 : 0));
        refused += w.number == 13;
        written += w.number == 0;
    }
    CHECK(refused > 1000 && written > 1000);
}

/* Sets the id of an ensemble's record and of its services'. */
static void set_ids(uint8_t *at, uint8_t id)
{
    unsigned services = at[5];

    at[2] = id;
    for (at += 6; services > 0; services--, at += PLAIN_SV)
        at[2] = id;
}

/* Every id of a listing that is written, changed alone; and that of an ensemble
   with its services', which is written as it then stands. */
static void change_ids(const uint8_t *list, size_t n)
{
    uint8_t l[PLAIN_LISTING], out[PLAIN_OUTPUT], c[PLAIN_CHUNK], got[PLAIN_LISTING];
    struct plain_write w;
    size_t at, end, id;

    for (at = 5; at < n; at = end) {
        const uint8_t other = (uint8_t)(1 + dice(255));

        end = at + 6 + list[at + 5] * PLAIN_SV;
        for (id = at + 2; id < end; id += id == at + 2 ? 6 : PLAIN_SV) {
            memcpy(l, list, n);
            l[id] ^= other;
            CHECK(exact_write(l, n, 1, out).number == (list[at + 5] > 0 ? 13 : 0));
        }
        memcpy(l, list, n);
        set_ids(l + at, list[at + 2] ^ other);
        w = exact_write(l, n, 1, out);
        CHECK(w.number == 0 && exact_read(c, unwrap(out, w.segments, 1, c), got).length == n && memcmp(got, l, n) == 0);
    }
}

static void ensemble_id_tests(void)
{
    /* Two services; none; one; one under the first one's id again. Ids of services look like those of ensembles. */
    static const uint8_t chunk[] = {0x00, 0x03, 0x01, 0x23, 0x04,
                                    0x05, 0xE0, 0x83, 0x02, 0x0A, 0x01, 0xE6, 0x05, 0x06, 0xED,
                                    0x06, 0xE0, 0x00, 0x00,
                                    0x00, 0xE0, 0xFF, 0x01, 0xFF, 0xFF, 0xFF,
                                    0x05, 0xE0, 0x20, 0x01, 0x06, 0x05, 0xE0};
    static const uint8_t list[] = {0x54, 0x53, 0x01, 0x23, 0x04,
                                   0x45, 0x4E, 0x05, 0x04, 0x03, 0x02, 0x53, 0x56, 0x05, 0x0A, 0x01, 0x00, 0x03, 0x00,
                                   0x53, 0x56, 0x05, 0x05, 0x06, 0x01, 0x02, 0x01,
                                   0x45, 0x4E, 0x06, 0x00, 0x00, 0x00,
                                   0x45, 0x4E, 0x00, 0x07, 0x1F, 0x01, 0x53, 0x56, 0x00, 0xFF, 0xFF, 0x03, 0x03, 0x01,
                                   0x45, 0x4E, 0x05, 0x01, 0x00, 0x01, 0x53, 0x56, 0x05, 0x06, 0x05, 0x00, 0x00, 0x00};
    static const uint8_t services[] = {11, 19, 39, 53}; /* where each is */
    uint8_t l[PLAIN_LISTING + PLAIN_SV], out[PLAIN_OUTPUT], c[PLAIN_CHUNK], got[PLAIN_LISTING];
    unsigned round, i, k, tried = 0;
    size_t n, to;

    CHECK(reads(chunk, LEN(chunk), 1, 0, list, LEN(list)));
    CHECK(exact_write(list, LEN(list), 1, out).segments == 1 && memcmp(out + 2, chunk, LEN(chunk)) == 0);
    for (i = 0; i < LEN(services); i++) {
        for (k = 0; k < 256; k++) { /* every id */
            memcpy(l, list, LEN(list));
            l[services[i] + 2] = (uint8_t)k;
            CHECK(exact_write(l, LEN(list), 1, out).number == (k == list[services[i] + 2] ? 0 : 13));
        }
        for (k = 0; k < LEN(services); k++) { /* two services in each other's place */
            memcpy(l, list, LEN(list));
            memcpy(l + services[i], list + services[k], PLAIN_SV);
            memcpy(l + services[k], list + services[i], PLAIN_SV);
            CHECK(exact_write(l, LEN(list), 1, out).number == ((i == 2) == (k == 2) ? 0 : 13));
        }
        memcpy(l, list, LEN(list)); /* without its ensemble's id */
        memmove(l + services[i] + 2, list + services[i] + 3, LEN(list) - services[i] - 3);
        CHECK(exact_write(l, LEN(list) - 1, 1, out).number == 13);
        CHECK(exact_write(l, LEN(list), 1, out).number == 13);
    }
    /* None with its ensemble's id: the whole list, and the first sample. */
    for (n = to = 0; n < LEN(list); n++)
        if (n != 13 && n != 21 && n != 41 && n != 55)
            l[to++] = list[n];
    CHECK(to == LEN(list) - 4 && exact_write(l, to, 1, out).number == 13);
    memcpy(l, list1, LEN(list1));
    memmove(l + 13, list1 + 14, LEN(list1) - 14);
    CHECK(exact_write(l, LEN(list1) - 1, 1, out).number == 13);

    /* 13 comes before 14: the last of 184. */
    n = make_listing(l, 1, 184);
    CHECK(exact_write(l, n, 1, out).number == 14);
    l[n - PLAIN_SV + 2] ^= 0x80;
    CHECK(exact_write(l, n, 1, out).number == 13);
    l[n - PLAIN_SV + 2] ^= 0x80;
    l[7] ^= 0x01;
    CHECK(exact_write(l, n, 1, out).number == 13);
    set_ids(l + 5, l[7]);
    CHECK(exact_write(l, n, 1, out).number == 14);

    change_ids(list, LEN(list));
    for (round = 0; round < 4000; round++) {
        n = random_chunk(c);
        slow_read(c, n, got);
        if (unknown > 0)
            continue;
        tried++;
        n = exact_read(c, n, got).length;
        change_ids(got, n);
    }
    CHECK(tried > 500);
}

static void writer_tests(void)
{
    static uint8_t big[5 + 255 * (6 + 255 * PLAIN_SV)];
    uint8_t out[PLAIN_OUTPUT], c[PLAIN_CHUNK], got[PLAIN_LISTING], l[LEN(list1)];
    struct plain_write w;
    struct plain_read r;
    unsigned i, e, s;
    size_t n;

    w = exact_write(list1, LEN(list1), 1, out);
    CHECK(w.number == 0 && w.segments == 1);
    CHECK(out[0] == 0x32 && out[1] == 0x00 && memcmp(out + 2, chunk1, 12) == 0 && all(out + 14, 23, 0xFF));
    w = exact_write(list1, LEN(list1), 0, out);
    CHECK(w.segments == 1 && out[0] == 0x30 && out[3] == 0x02 && memcmp(out + 4, chunk1 + 2, 10) == 0);
    w = exact_write(list3, LEN(list3), 1, out);
    CHECK(w.segments == 1 && memcmp(out + 2, chunk3, 5) == 0 && all(out + 7, 30, 0xFF));

    n = make_listing(big, 1, 183);
    CHECK(n == PLAIN_LISTING);
    w = exact_write(big, n, 1, out);
    CHECK(w.number == 0 && w.segments == 16);
    CHECK(out[591] == 0xFF && out[590] == 0xFF && out[589] == (0xE0 | big[n - 3] << 3 | big[n - 2] << 1 | big[n - 1]));
    CHECK(exact_write(big, make_listing(big, 1, 184), 1, out).number == 14);
    CHECK(exact_write(big, make_listing(big, 3, 181), 1, out).number == 0);
    CHECK(exact_write(big, make_listing(big, 3, 182), 1, out).number == 14);
    CHECK(exact_write(big, make_listing(big, 138, 1), 0, out).number == 0);
    CHECK(exact_write(big, make_listing(big, 255, 0), 0, out).number == 14);
    n = make_listing(big, 255, 255);
    CHECK(exact_write(big, n, 0, out).number == 14);
    CHECK(exact_write(big, n - 1, 0, out).number == 13); /* 13 comes before 14 */
    n = 5; /* the longest of all */
    big[4] = 255;
    for (e = 0; e < 255; e++) {
        memcpy(big + n, "EN\0\0\0\377", 6);
        n += 6;
        for (s = 0; s < 255; s++, n += PLAIN_SV)
            memcpy(big + n, "SV\0\0\0\0\0\0", PLAIN_SV);
    }
    CHECK(n == sizeof big && exact_write(big, n, 0, out).number == 14);
    big[n - 1] = 2;
    CHECK(exact_write(big, n, 0, out).number == 13);

    for (n = 0; n < LEN(list1); n++)
        CHECK(exact_write(list1, n, 1, out).number == 13);
    memcpy(big, list1, LEN(list1));
    memcpy(big + LEN(list1), list1 + 11, PLAIN_SV);
    CHECK(exact_write(big, LEN(list1) + PLAIN_SV, 1, out).number == 13);
    CHECK(exact_write(big, LEN(list1) + 1, 1, out).number == 13);
    for (n = 0; n < LEN(list1); n++) /* every value of every byte, one changed */
        for (i = 0; i < 256; i++) {
            static const int most[LEN(list1)] = {-1, -1, 255, 255, -1, -1, -1, -1, 7, 31, -1,
                                                 -1, -1, -1, 255, 255, 3, 3, 1};
            int good = most[n] < 0 ? i == list1[n] : (int)i <= most[n];

            memcpy(l, list1, sizeof l);
            l[n] = (uint8_t)i;
            CHECK(exact_write(l, sizeof l, 1, out).number == (good ? 0 : 13));
        }

    memset(out, 0xA5, sizeof out);
    CHECK(plain_write(list1, LEN(list1), 1, out, PLAIN_OUTPUT - 1).number == 1);
    CHECK(plain_write(NULL, 0, 1, NULL, 0).number == 1);
    CHECK(all(out, sizeof out, 0xA5));
    CHECK(exact_write(NULL, 0, 1, out).number == 13);

    /* Written and read back, every length from 5 to 560. */
    for (e = 0; e < 139; e++)
        for (s = 0; 5 + 4 * e + 3 * s <= 560 && (e > 0 || s == 0); s++) {
            int kind = (int)dice(2);

            n = make_listing(big, e, s);
            w = exact_write(big, n, kind, out);
            CHECK(w.number == 0 && w.segments == (5 + 4 * e + 3 * s + 34) / 35);
            r = exact_read(c, unwrap(out, w.segments, kind, c), got);
            CHECK(r.number == 0 && r.kind == kind && r.minor == 0 && r.length == n && memcmp(got, big, n) == 0);
            CHECK(all(c + (5 + 4 * e + 3 * s), 35 * w.segments - (5 + 4 * e + 3 * s), 0xFF));
        }
}

/* ---- The desk ---- */

struct rig {
    struct plain_desk desk;
    uint8_t first[PLAIN_LISTING], second[PLAIN_LISTING];
};

static void rig_fresh(struct rig *g)
{
    plain_fresh(&g->desk);
    memset(g->first, 0xA5, sizeof g->first);
    memset(g->second, 0x5A, sizeof g->second);
}

static struct plain_answer give(struct rig *g, const uint8_t *seg)
{
    struct plain_answer a = plain_segment(&g->desk, seg, 37, g->first, PLAIN_LISTING, g->second, PLAIN_LISTING);

    CHECK(plain_well_formed(&g->desk));
    return a;
}

static const uint8_t *shown(const struct rig *g, int kind, size_t *length)
{
    return plain_show(&g->desk, kind, g->first, PLAIN_LISTING, g->second, PLAIN_LISTING, length);
}

static int is_refusal_at(struct plain_answer a, int number, size_t at)
{
    return a.number == number && a.listed == 0 && a.kind == 0 && a.missing == 0 && a.length == 0 && a.at == at;
}

static int is_refusal(struct plain_answer a, int number)
{
    return is_refusal_at(a, number, 0);
}

static int is_missing(struct plain_answer a, size_t n)
{
    return a.number == 0 && a.listed == 0 && a.kind == 0 && a.missing == n && a.length == 0 && a.at == 0;
}

static int is_list(struct plain_answer a, int kind, size_t n)
{
    return a.number == 0 && a.listed == 1 && a.kind == kind && a.missing == 0 && a.length == n && a.at == 0;
}

static int shows(const struct rig *g, int kind, const uint8_t *list, size_t n)
{
    size_t length = 77;
    const uint8_t *p = shown(g, kind, &length);

    if (n == 0)
        return p == NULL && length == 0;
    return length == n && memcmp(p, list, n) == 0;
}

/* The segment of the first sample, of that header. */
static void sample_segment(uint8_t *seg, uint8_t first, uint8_t second)
{
    memset(seg, 0xFF, 37);
    seg[0] = first;
    seg[1] = second;
    memcpy(seg + 2, chunk1, LEN(chunk1));
    seg[3] = (uint8_t)(0x02 | (first >> 1 & 1));
}

static int refused_unchanged(struct rig *g, const uint8_t *seg, int number)
{
    struct rig before = *g;

    return is_refusal(give(g, seg), number) && memcmp(&before, g, sizeof before) == 0;
}

static void desk_tests(void)
{
    struct rig g, before;
    uint8_t seg[37], out[PLAIN_OUTPUT], big[PLAIN_LISTING], other[37];
    size_t n, length, i;
    unsigned k;
    int kind;

    /* Samples of headers; number 1 and 2 and their order. */
    rig_fresh(&g);
    CHECK(plain_well_formed(&g.desk) && shows(&g, 1, NULL, 0) && shows(&g, 0, NULL, 0));
    sample_segment(seg, 0x72, 0x00);
    CHECK(refused_unchanged(&g, seg, 3));
    sample_segment(seg, 0x33, 0x00);
    CHECK(refused_unchanged(&g, seg, 4));
    sample_segment(seg, 0x36, 0x00);
    CHECK(refused_unchanged(&g, seg, 5));
    sample_segment(seg, 0x32, 0x10);
    CHECK(refused_unchanged(&g, seg, 6));
    sample_segment(seg, 0x7F, 0x10);
    CHECK(refused_unchanged(&g, seg, 3));
    sample_segment(seg, 0x3F, 0x10);
    CHECK(refused_unchanged(&g, seg, 4));
    sample_segment(seg, 0x3E, 0x10);
    CHECK(refused_unchanged(&g, seg, 5));
    sample_segment(seg, 0x32, 0x00);
    before = g;
    CHECK(is_refusal(plain_segment(&g.desk, seg, 36, g.first, PLAIN_LISTING, g.second, PLAIN_LISTING), 2));
    CHECK(is_refusal(plain_segment(&g.desk, NULL, 0, g.first, PLAIN_LISTING, g.second, PLAIN_LISTING), 2));
    CHECK(is_refusal(plain_segment(&g.desk, seg, 38, g.first, PLAIN_LISTING, g.second, PLAIN_LISTING), 2));
    CHECK(is_refusal(plain_segment(&g.desk, seg, 36, g.first, PLAIN_LISTING - 1, g.second, PLAIN_LISTING), 1));
    CHECK(is_refusal(plain_segment(&g.desk, seg, 37, g.first, PLAIN_LISTING - 1, g.second, PLAIN_LISTING), 1));
    CHECK(is_refusal(plain_segment(&g.desk, seg, 37, g.first, PLAIN_LISTING, g.second, PLAIN_LISTING - 1), 1));
    CHECK(is_refusal(plain_segment(&g.desk, NULL, 0, NULL, 0, NULL, 0), 1));
    CHECK(memcmp(&before, &g, sizeof g) == 0);

    /* A list of this frame: only its bytes, only its buffer; repeats. */
    CHECK(is_list(give(&g, seg), 1, LEN(list1)));
    CHECK(shown(&g, 1, &length) == g.first && length == LEN(list1));
    CHECK(shows(&g, 1, list1, LEN(list1)) && shows(&g, 0, NULL, 0));
    CHECK(all(g.first + LEN(list1), PLAIN_LISTING - LEN(list1), 0xA5) && all(g.second, PLAIN_LISTING, 0x5A));
    CHECK(plain_show(&g.desk, 1, g.first, PLAIN_LISTING - 1, g.second, PLAIN_LISTING, &length) == NULL && length == 0);
    CHECK(plain_show(&g.desk, 1, g.first, PLAIN_LISTING, g.second, PLAIN_LISTING - 1, &length) == NULL && length == 0);
    before = g;
    CHECK(is_missing(give(&g, seg), 0));
    seg[0] = 0x02; /* reserved bits are not compared */
    CHECK(is_missing(give(&g, seg), 0));
    CHECK(memcmp(&before, &g, sizeof g) == 0);
    /* Stuffing counts in a comparison of payloads: 7, spoiled, list stays. */
    seg[36] = 0;
    CHECK(is_refusal(give(&g, seg), 7));
    CHECK(g.desk.slot[1].spoiled == 1 && g.desk.slot[1].held == 0 && g.desk.slot[1].last == 0
          && all(g.desk.slot[1].bytes, 560, 0));
    CHECK(shows(&g, 1, list1, LEN(list1)));
    sample_segment(seg, 0x32, 0x00);
    CHECK(refused_unchanged(&g, seg, 7));
    sample_segment(other, 0x32, 0x10); /* 6 comes before 7 */
    CHECK(refused_unchanged(&g, other, 6));
    sample_segment(other, 0x30, 0x00); /* the other kind knows nothing of it */
    CHECK(is_list(give(&g, other), 0, LEN(list1)));
    CHECK(shown(&g, 0, &length) == g.second && length == LEN(list1));
    plain_gathering(&g.desk);
    CHECK(g.desk.slot[1].spoiled == 0 && g.desk.slot[0].held == 0 && all(g.desk.slot[0].bytes, 560, 0));
    CHECK(shows(&g, 1, list1, LEN(list1)) && shows(&g, 0, list1, LEN(list1)));
    CHECK(is_list(give(&g, seg), 1, LEN(list1)));

    /* A next list has its turn at the boundary, and for one frame only. */
    rig_fresh(&g);
    sample_segment(seg, 0x30, 0x00);
    CHECK(is_list(give(&g, seg), 0, LEN(list1)));
    CHECK(shown(&g, 0, &length) == g.second && length == LEN(list1) && shows(&g, 1, NULL, 0));
    plain_gathering(&g.desk);
    CHECK(shows(&g, 0, list1, LEN(list1)) && shows(&g, 1, NULL, 0));
    plain_frame(&g.desk);
    CHECK(shown(&g, 1, &length) == g.second && shows(&g, 1, list1, LEN(list1)) && shows(&g, 0, NULL, 0));
    CHECK(is_list(give(&g, seg), 0, LEN(list1))); /* a first segment in the frame */
    CHECK(shown(&g, 0, &length) == g.first && shown(&g, 1, &length) == g.second);
    plain_frame(&g.desk);
    CHECK(shown(&g, 1, &length) == g.first);
    before = g;
    plain_frame(&g.desk);
    CHECK(shows(&g, 1, NULL, 0) && shows(&g, 0, NULL, 0));
    CHECK(memcmp(before.first, g.first, PLAIN_LISTING) == 0 && memcmp(before.second, g.second, PLAIN_LISTING) == 0);
    /* Three frames: swapped; the roles change without a listing too. */
    CHECK(g.desk.swapped == 1);
    plain_frame(&g.desk);
    CHECK(g.desk.swapped == 0);
    plain_frame(&g.desk);
    CHECK(g.desk.swapped == 1);
    sample_segment(seg, 0x32, 0x00);
    CHECK(is_list(give(&g, seg), 1, LEN(list1)));
    CHECK(shown(&g, 1, &length) == g.second);

    /* Chunks refused on completion: held, complete, no listing changes. */
    for (k = 0; k < 5; k++) {
        static const int numbers[] = {5, 9, 9, 9, 10};
        static const size_t ats[] = {0, 33, 33, 29, 0};

        for (kind = 0; kind < 2; kind++) {
            rig_fresh(&g);
            sample_segment(seg, kind ? 0x32 : 0x30, 0x00);
            give(&g, seg);
            plain_gathering(&g.desk);
            before = g;
            if (k == 0)
                seg[2] = 0xC0;
            if (k == 1)
                seg[6] = 0x08; /* eight ensembles, room for seven */
            if (k == 1)
                for (i = 0; i < 7; i++)
                    memcpy(seg + 7 + 4 * i, "\1\0\0\0", 4);
            if (k == 2 || k == 3)
                seg[10] = 0xFF;
            if (k == 3) {
                seg[3] |= 0x1C; /* s 7 */
                seg[8] = 0xE1;  /* of an unknown ensemble too */
            }
            if (k == 4) {
                seg[3] ^= 1;
                seg[12] ^= 1; /* and another service, which must not show */
            }
            CHECK(is_refusal_at(give(&g, seg), numbers[k], ats[k]));
            CHECK(g.desk.slot[kind].held == 1 && g.desk.slot[kind].last == 0
                  && memcmp(g.desk.slot[kind].bytes, seg + 2, 35) == 0 && all(g.desk.slot[kind].bytes + 35, 525, 0));
            CHECK(memcmp(&before.desk.slot[!kind], &g.desk.slot[!kind], sizeof(struct plain_slot)) == 0);
            CHECK(shows(&g, kind, list1, LEN(list1)) && shows(&g, !kind, NULL, 0));
            CHECK(memcmp(before.first, g.first, PLAIN_LISTING) == 0
                  && memcmp(before.second, g.second, PLAIN_LISTING) == 0);
            before = g;
            CHECK(is_missing(give(&g, seg), 0));
            CHECK(memcmp(&before, &g, sizeof g) == 0);
            seg[20] ^= 1;
            CHECK(is_refusal(give(&g, seg), 7));
        }
    }
    /* The reader's checks come before 10. */
    rig_fresh(&g);
    sample_segment(seg, 0x30, 0x00);
    seg[3] = 0x03;
    seg[10] = 0xFF;
    CHECK(is_refusal_at(give(&g, seg), 9, 33));

    /* An unknown ensemble is listed, and that list carried on. */
    rig_fresh(&g);
    sample_segment(seg, 0x30, 0x00);
    seg[8] = 0xE1;
    CHECK(is_list(give(&g, seg), 0, 9));
    CHECK(shows(&g, 0, list_unknown, 9));
    CHECK(all(g.second + 9, PLAIN_LISTING - 9, 0x5A) && all(g.first, PLAIN_LISTING, 0xA5));
    plain_frame(&g.desk);
    CHECK(shows(&g, 1, list_unknown, 9) && shows(&g, 0, NULL, 0));
    seg[3] ^= 1;
    CHECK(is_refusal(give(&g, seg), 10));
    CHECK(shows(&g, 1, list_unknown, 9) && shows(&g, 0, NULL, 0));

    /* 16 segments, from the last to the first, each given twice. */
    rig_fresh(&g);
    n = make_listing(big, 1, 183);
    exact_write(big, n, 1, out);
    for (i = 16; i-- > 0;) {
        struct plain_answer a = give(&g, out + 37 * i);

        CHECK(i > 0 ? is_missing(a, i) : is_list(a, 1, PLAIN_LISTING));
        before = g;
        CHECK(is_missing(give(&g, out + 37 * i), i));
        CHECK(memcmp(&before, &g, sizeof g) == 0);
        CHECK(i == 0 || shows(&g, 1, NULL, 0));
    }
    CHECK(shows(&g, 1, big, n));
    memcpy(seg, out, 37);
    seg[1] = 0x0E; /* another last number */
    CHECK(is_refusal(give(&g, seg), 7));
    CHECK(shows(&g, 1, big, n));
    plain_frame(&g.desk);
    CHECK(shows(&g, 1, NULL, 0));

    /* A shorter list after a longer one: bytes past it stay. */
    rig_fresh(&g);
    for (i = 0; i < 16; i++)
        give(&g, out + 37 * i);
    plain_gathering(&g.desk);
    before = g;
    sample_segment(seg, 0x32, 0x00);
    CHECK(is_list(give(&g, seg), 1, LEN(list1)));
    CHECK(memcmp(g.first + LEN(list1), before.first + LEN(list1), PLAIN_LISTING - LEN(list1)) == 0);
    CHECK(shows(&g, 1, list1, LEN(list1)));
}

static void header_of(uint8_t *seg, unsigned kind, unsigned number, unsigned last)
{
    seg[0] = (uint8_t)(0x30 | kind << 1);
    seg[1] = (uint8_t)(number << 4 | last);
}

/* Gathers so many payloads from the start of c, from the last to the first: 9
   and where, on a desk with a listing, which stays, and with nothing gathered. */
static void gathers_to(struct rig *g, const uint8_t *c, unsigned payloads, unsigned kind, size_t at)
{
    struct plain_answer a;
    struct rig before = *g;
    uint8_t seg[37];
    unsigned i;

    for (i = payloads; i-- > 0;) {
        header_of(seg, kind, i, payloads - 1);
        memcpy(seg + 2, c + 35 * i, 35);
        a = give(g, seg);
        CHECK(i > 0 ? is_missing(a, i) : is_refusal_at(a, 9, at));
    }
    CHECK(is_missing(give(g, seg), 0));
    CHECK(shows(g, 1, list1, LEN(list1)) && shows(g, 0, list1, LEN(list1)));
    CHECK(memcmp(before.first, g->first, PLAIN_LISTING) == 0 && memcmp(before.second, g->second, PLAIN_LISTING) == 0);
    seg[36] ^= 1;
    CHECK(is_refusal(give(g, seg), 7));
    plain_gathering(&g->desk);
}

static void ran_out_tests(void)
{
    struct rig g;
    uint8_t c[PLAIN_CHUNK], seg[37];
    unsigned round, k, i;
    size_t n;

    rig_fresh(&g);
    for (k = 0; k < 2; k++) {
        sample_segment(seg, k ? 0x32 : 0x30, 0x00);
        CHECK(is_list(give(&g, seg), (int)k, LEN(list1)));
    }
    plain_gathering(&g.desk);
    for (round = 0; round < 2000; round++) {
        n = random_chunk(c);
        for (k = 1; 35 * k < n; k++)
            gathers_to(&g, c, k, dice(2), start_of(starts, 35 * k)); /* 9 comes before 10 */
    }
    /* 560 bytes: 139 ensembles, the last one's fields; 184 and 255 services. */
    for (k = 0; k < 4; k++) {
        memset(c, 0, sizeof c);
        c[4] = 139;
        for (i = 0; i < 138; i++)
            c[6 + 4 * i] = (uint8_t)(k % 2 * (1 + i % 31));
        gathers_to(&g, c, 16, k / 2, 557);
        c[4] = 1;
        c[8] = 184;
        gathers_to(&g, c, 16, k / 2, 558);
        c[1] = 0x08; /* s 2 */
        c[8] = 255;
        gathers_to(&g, c, 16, k / 2, 559);
        c[1] = 0x0C; /* s 3 */
        gathers_to(&g, c, 16, k / 2, 555);
    }
}

/* Well formed by the words of the paper, byte by byte. */
static int slow_well_formed(const struct plain_desk *d)
{
    unsigned k, i, j;

    if (d->swapped != 0 && d->swapped != 1)
        return 0;
    for (k = 0; k < 2; k++) {
        const struct plain_slot *s = &d->slot[k];
        int zero = 1;

        if (d->length[k] != 0 && (d->length[k] < 5 || d->length[k] > PLAIN_LISTING))
            return 0;
        for (i = 0; i < 16; i++)
            for (j = 0; j < 35; j++)
                if (s->bytes[35 * i + j] != 0) {
                    zero = 0;
                    if ((s->held & 1u << i) == 0)
                        return 0;
                }
        if (s->last == 0 && s->held == 0 && (s->spoiled == 0 || s->spoiled == 1) && zero)
            continue;
        if (s->spoiled != 0 || s->last > 15 || s->held == 0)
            return 0;
        for (i = s->last + 1; i < 32; i++)
            if (s->held & 1u << i)
                return 0;
    }
    return 1;
}

static void malformed_tests(void)
{
    static const size_t lengths[] = {0, 1, 4, 5, 6, PLAIN_LISTING - 1, PLAIN_LISTING, PLAIN_LISTING + 1, SIZE_MAX};
    struct rig g, before;
    struct plain_desk fresh;
    uint8_t seg[37];
    unsigned round, bad = 0, i;
    size_t length;

    plain_fresh(&fresh);
    for (round = 0; round < 40000; round++) {
        rig_fresh(&g);
        for (i = dice(4); i > 0; i--) { /* a well formed start */
            memset(seg, (int)dice(256), 37);
            seg[0] = (uint8_t)(0x30 | dice(2) << 1);
            seg[1] = (uint8_t)(dice(3) << 4 | (dice(2) ? 15 : dice(3)));
            give(&g, seg);
        }
        for (i = dice(3); i > 0; i--) {
            struct plain_slot *s = &g.desk.slot[dice(2)];

            switch (dice(8)) {
            case 0: g.desk.length[dice(2)] = lengths[dice(LEN(lengths))]; break;
            case 1: s->last = dice(18); break;
            case 2: s->held ^= 1u << dice(18); break;
            case 3: s->bytes[dice(560)] ^= (uint8_t)dice(2); break;
            case 4: s->spoiled = (int)dice(3) - (int)dice(2); break;
            case 5: g.desk.swapped = (int)dice(4) - 1; break;
            case 6: s->held = dice(2) ? 0xFFFFFFFFu : 0; break;
            default: s->last = 0xFFFFFFFFu - dice(2); break;
            }
        }
        CHECK(plain_well_formed(&g.desk) == slow_well_formed(&g.desk));
        if (plain_well_formed(&g.desk))
            continue;
        bad++;
        before = g;
        sample_segment(seg, 0x32, 0x00);
        CHECK(is_refusal(plain_segment(&g.desk, seg, 37, g.first, PLAIN_LISTING, g.second, PLAIN_LISTING), 12));
        CHECK(is_refusal(plain_segment(&g.desk, NULL, 0, NULL, 0, NULL, 0), 12));
        CHECK(shown(&g, (int)dice(2), &length) == NULL && length == 0);
        CHECK(memcmp(&before, &g, sizeof g) == 0);
        plain_gathering(&g.desk);
        CHECK(memcmp(&fresh, &g.desk, sizeof fresh) == 0);
        plain_frame(&before.desk);
        CHECK(memcmp(&fresh, &before.desk, sizeof fresh) == 0);
    }
    CHECK(bad > 10000);
}

/* ---- The desk against a slow one, which keeps the segments as they came ---- */

struct model {
    uint8_t came[2][16][35];
    int has[2][16], last[2], spoiled[2]; /* last -1: empty */
    size_t length[2];
    uint8_t list[2][PLAIN_LISTING]; /* by kind; moved at a frame */
};

static void model_empty(struct model *m)
{
    memset(m->has, 0, sizeof m->has);
    memset(m->spoiled, 0, sizeof m->spoiled);
    m->last[0] = m->last[1] = -1;
}

static struct plain_answer model_segment(struct model *m, const uint8_t *seg)
{
    struct plain_answer no = {0, 0, 0, 0, 0, 0}, yes = {0, 0, 0, 0, 0, 0};
    struct bits b = {seg, 16, 0};
    unsigned type = get(&b, 2), reserved = get(&b, 2), major = get(&b, 2), k = get(&b, 1), error = get(&b, 1);
    unsigned number = get(&b, 4), last = get(&b, 4), i;
    uint8_t chunk[PLAIN_CHUNK], list[PLAIN_LISTING];
    struct plain_read r;

    (void)reserved;
    no.number = type ? 3 : error ? 4 : major ? 5 : number > last ? 6 : 0;
    if (no.number)
        return no;
    no.number = 7;
    if (m->spoiled[k])
        return no;
    if ((m->last[k] >= 0 && m->last[k] != (int)last)
        || (m->has[k][number] && memcmp(m->came[k][number], seg + 2, 35) != 0)) {
        m->spoiled[k] = 1;
        return no;
    }
    for (i = 0; i <= last; i++)
        yes.missing += !m->has[k][i];
    if (m->has[k][number])
        return yes;
    m->has[k][number] = 1;
    m->last[k] = (int)last;
    memcpy(m->came[k][number], seg + 2, 35);
    if (--yes.missing > 0)
        return yes;
    for (i = 0; i <= last; i++)
        memcpy(chunk + 35 * i, m->came[k][i], 35);
    r = slow_read(chunk, 35 * (last + 1), list);
    no.number = r.number ? r.number : r.kind != (int)k ? 10 : 0;
    no.at = r.at;
    if (no.number)
        return no;
    memcpy(m->list[k], list, r.length);
    m->length[k] = r.length;
    yes.listed = 1;
    yes.kind = (int)k;
    yes.length = r.length;
    return yes;
}

static void model_tests(void)
{
    static uint8_t pool[8][16][37];
    unsigned long seen[16] = {0}, lists = 0, lists_unknown = 0;
    struct rig g;
    struct model m;
    uint8_t c[PLAIN_CHUNK], seg[37];
    unsigned round, p = 0, i, k, act, last[8];

    rig_fresh(&g);
    memset(&m, 0, sizeof m);
    model_empty(&m);
    for (round = 0; round < 300000; round++) {
        if (round % 200 == 0)
            for (p = 0; p < 8; p++) { /* new chunks to draw from */
                size_t n = random_chunk(c);

                last[p] = (unsigned)((n + 34) / 35) - 1;
                for (i = 0; i <= last[p]; i++) {
                    pool[p][i][0] = (uint8_t)(dice(4) << 4 | (c[1] & 1u) << 1);
                    if (dice(60) == 0)
                        pool[p][i][0] ^= 2;
                    pool[p][i][1] = (uint8_t)(i << 4 | last[p]);
                    memcpy(pool[p][i] + 2, c + 35 * i, 35);
                }
                if (dice(8) == 0)
                    pool[p][0][2 + dice(12)] = (uint8_t)dice(256);
            }
        act = dice(100);
        if (act < 5) {
            plain_gathering(&g.desk);
            model_empty(&m);
        } else if (act < 8) {
            plain_frame(&g.desk);
            model_empty(&m);
            m.length[1] = m.length[0];
            memcpy(m.list[1], m.list[0], PLAIN_LISTING);
            m.length[0] = 0;
        } else {
            struct plain_answer a, w;

            if (act < 12)
                p = dice(8);
            i = dice(last[p % 8] + 1);
            memcpy(seg, pool[p % 8][i], 37);
            seg[0] ^= (uint8_t)(dice(4) << 4);
            if (dice(50) == 0)
                seg[dice(2)] = (uint8_t)dice(256);
            if (dice(200) == 0)
                seg[2 + dice(35)] ^= 1;
            a = give(&g, seg);
            w = model_segment(&m, seg);
            CHECK(a.number == w.number && a.listed == w.listed && a.kind == w.kind
                  && a.missing == w.missing && a.length == w.length && a.at == w.at);
            seen[a.number]++;
            lists += a.listed != 0;
            lists_unknown += a.listed != 0 && unknown > 0;
        }
        for (k = 0; k < 2; k++) {
            const struct plain_slot *s = &g.desk.slot[k];

            CHECK(shows(&g, (int)k, m.list[k], m.length[k]));
            CHECK(s->spoiled == m.spoiled[k]);
            CHECK(s->last == (m.spoiled[k] || m.last[k] < 0 ? 0u : (unsigned)m.last[k]));
            for (i = 0; i < 16; i++) {
                int held = m.has[k][i] && !m.spoiled[k];

                CHECK((s->held >> i & 1u) == (unsigned)held);
                CHECK(held ? memcmp(s->bytes + 35 * i, m.came[k][i], 35) == 0 : all(s->bytes + 35 * i, 35, 0));
            }
        }
    }
    CHECK(lists > 1000 && lists_unknown > 1000 && seen[0] > 10000 && seen[3] > 100 && seen[4] > 100 && seen[5] > 100
          && seen[6] > 100 && seen[7] > 1000 && seen[9] > 20 && seen[10] > 20);
}

/* ---- The log program ---- */

/* What the log so far must print, from the calls with their checks. */
static void expect_log(void)
{
    static struct rig g;
    size_t at = 0, n;
    const uint8_t *p;

    rig_fresh(&g);
    want_n = 0;
    while (at < input_n) {
        if (input_n - at >= 2 && memcmp(input + at, "GA", 2) == 0) {
            plain_gathering(&g.desk);
            expect("GA\n");
            at += 2;
        } else if (input_n - at >= 2 && memcmp(input + at, "FR", 2) == 0) {
            plain_frame(&g.desk);
            p = shown(&g, 1, &n);
            expect_frame(p, n);
            at += 2;
        } else if (input_n - at >= 39 && memcmp(input + at, "SG", 2) == 0) {
            const struct plain_answer a = give(&g, input + at + 2);

            p = a.listed ? shown(&g, a.kind, &n) : NULL;
            expect_answer(&a, p);
            at += 39;
        } else {
            expect("END 15\n");
            return;
        }
    }
    expect("END 0\n");
}

/* The records of so many payloads from the start of c. */
static void add_segments(const uint8_t *c, unsigned payloads)
{
    uint8_t seg[37];
    unsigned i;

    for (i = 0; i < payloads; i++) {
        header_of(seg, c[1] & 1u, i, payloads - 1);
        memcpy(seg + 2, c + 35 * i, 35);
        add("SG", 2);
        add(seg, 37);
    }
}

static void log_tests(void)
{
    static const char sample[] = "SG 0 list next 19\n5453012301454e050403015356050a01000300\n"
                                 "FR 19\n5453012301454e050403015356050a01000300\nFR none\nEND 0\n";
    uint8_t seg[37], c[PLAIN_CHUNK], big[PLAIN_LISTING], out[PLAIN_OUTPUT];
    unsigned round, i, k;
    size_t n, whole;

    input_n = 0;
    sample_segment(seg, 0x30, 0x00);
    add("SG", 2);
    add(seg, 37);
    add("FRFR", 4);
    want_n = 0;
    expect(sample);
    CHECK(prints(0));
    CHECK(prints(1));
    expect_log();
    CHECK(want_n == sizeof sample - 1 && memcmp(want, sample, want_n) == 0);

    /* A list with an unknown ensemble. */
    whole = input_n;
    seg[8] = 0xE1;
    add("SG", 2);
    add(seg, 37);
    want_n = 0;
    expect(sample);
    want_n -= 6;
    expect("SG 0 list next 9\n545301230145550501\nEND 0\n");
    CHECK(prints(0));
    input_n = whole;

    /* Chunks that end too early, each given twice. h, e and s 7: the fifth of six services. */
    memset(c, 0, sizeof c);
    c[0] = 0x07;
    c[1] = 0xFD;
    c[11] = 1;
    c[22] = 6;
    add_segments(c, 2);
    add_segments(c, 2);
    add("GA", 2);
    /* Seven services, then the fields of an ensemble, of which no byte is there. */
    memset(c, 0, sizeof c);
    c[0] = 0x05;
    c[9] = 2;
    c[13] = 7;
    add_segments(c, 1);
    add_segments(c, 1);
    add("FR", 2);
    /* The last of 184 services, of an unknown ensemble. */
    memset(c, 0, sizeof c);
    c[1] = 0x01;
    c[4] = 1;
    c[6] = 9;
    c[8] = 184;
    add_segments(c, 16);
    want_n = 0;
    expect(sample);
    want_n -= 6;
    expect("SG 0 missing 1\nSG 9 at 63\nSG 0 missing 0\nSG 0 missing 0\nGA\n"
           "SG 9 at 35\nSG 0 missing 0\nFR none\n");
    for (i = 15; i > 0; i--)
        EXPECT("SG 0 missing %u\n", i);
    expect("SG 9 at 558\nEND 0\n");
    CHECK(prints(0));
    CHECK(prints(40));
    input_n = whole;

    /* Every cut of the sample, and an unknown mark at its end. */
    whole = input_n;
    for (input_n = 0; input_n <= whole; input_n++) {
        expect_log();
        CHECK(prints(input_n % 2 ? 0 : 7));
    }
    input_n = whole;
    for (i = 0; i < 8; i++) {
        static const char *const marks[] = {"SV", "Ga", "GR", "AG", "\n", "F", "FA", "S"};

        input_n = whole;
        add(marks[i], strlen(marks[i]));
        add("FRGA", 4);
        expect_log();
        CHECK(want_n > 8 && memcmp(want + want_n - 7, "END 15\n", 7) == 0);
        CHECK(prints(i % 2));
    }

    /* Long logs. Each of the first 39 begins with another number of two-byte
       records and goes on with segments alone, so that the first block's end
       falls on each byte of a record. */
    for (round = 0; round < 45; round++) {
        input_n = 0;
        for (i = 0; i < round; i++)
            add(round % 2 ? "GA" : "FR", 2);
        while (input_n < 65536u * (1 + round % 3) + 3000) {
            if (dice(3)) {
                n = random_chunk(c);
                n -= dice(8) == 0 && n > 70 ? 35 : 0; /* ends too early */
                add_segments(c, (unsigned)((n + 34) / 35));
            } else {
                n = make_listing(big, 1, 183);
                k = dice(2);
                exact_write(big, n, (int)k, out);
                for (i = 0; i < 16; i++) {
                    add("SG", 2);
                    add(out + 37 * i, 37);
                }
            }
            if (round >= 39 || input_n > 65536u)
                add(dice(2) ? "GA" : "FR", 2);
        }
        expect_log();
        CHECK(prints(0));
        if (round % 5 == 0)
            CHECK(prints(1 + dice(60000)));
        input_n -= 1 + dice(30);
        expect_log();
        CHECK(prints(0));
    }
    /* The mark itself on the end of a block, for both of its bytes. */
    for (i = 65530; i < 65542; i++) {
        input_n = 0;
        while (input_n + 41 < i)
            add("GA", 2);
        while (input_n < i && (i - input_n) % 2 == 1) {
            add("SG", 2);
            add(seg, 37);
        }
        while (input_n < i)
            add("FR", 2);
        for (k = 0; k < 3; k++) {
            whole = input_n;
            expect_log();
            CHECK(prints(0));
            add("X", 1);
            expect_log();
            CHECK(prints(0));
            input_n = whole;
            add("SG", 2);
            add(seg, 37);
        }
    }
    /* Only marks, an output far longer than the input. */
    for (input_n = 0; input_n < 300000;)
        add(input_n % 6 ? "FR" : "GA", 2);
    expect_log();
    CHECK(prints(0));
    /* Output that can't be written, a log without end: it stops, with status 0. */
    {
        char command[600], status[8] = "";
        FILE *f;

        snprintf(command, sizeof command, "yes GA | tr -d '\\n' | %s >/dev/full", program);
        CHECK(system(command) == 0);
        snprintf(command, sizeof command, "yes GA | tr -d '\\n' | %s >&-", program);
        CHECK(system(command) == 0);
        snprintf(command, sizeof command,
                 "yes GA | tr -d '\\n' | (%s; echo $? >test.out) | head -c 1 >/dev/null", program);
        CHECK(system(command) == 0);
        f = fopen("test.out", "r");
        CHECK(f != NULL && fgets(status, sizeof status, f) != NULL && strcmp(status, "0\n") == 0);
        if (f != NULL)
            fclose(f);
    }
    remove("test.in");
    remove("test.out");
}

int main(int argc, char **argv)
{
    reader_samples();
    unknown_samples();
    reader_model();
    unknown_writer_tests();
    ensemble_id_tests();
    writer_tests();
    desk_tests();
    ran_out_tests();
    malformed_tests();
    model_tests();
    if (argc > 1) {
        program = argv[1];
        log_tests();
    } else
        printf("no log program given: not tested\n");
    return verdict();
}
