/* Checks tunnel.c against each rule of the request by hand, against a model that goes byte by byte, and against the promises for whole streams;
   and the program unwrap named by the first argument. Prints "ok", or what differs. */
#define _POSIX_C_SOURCE 200809L

#include "check.h"
#include "outer.h"
#include "tunnel.h"

enum { MOST_STORED = 3203 };

static struct rng rng = {1};
static struct plain_tunnel reader;
static uint8_t stored[PLAIN_UNWRAPPED]; /* by the last call */

/* ---- What holds for every call ---- */

static size_t holds(const struct plain_tunnel *t)
{
    return part_held(t->part, t->held);
}

static int same_state(const struct plain_tunnel *a, const struct plain_tunnel *b)
{
    return a->begun == b->begun && a->last == b->last && a->held == b->held && memcmp(a->part, b->part, PLAIN_PACKET) == 0;
}

static void check_accepted(const struct plain_tunnel *before, const uint8_t *outer, size_t n, const struct plain_unwrapped *a)
{
    size_t packets;

    CHECK(a->number == 0 || (a->number == 17 && a->stored == 0 && reader.held == 0));
    CHECK(reader.begun == 1 && reader.last == 256u * outer[2] + outer[3]);
    CHECK(reader.held == holds(&reader));
    CHECK(memcmp(reader.part + reader.held, before->part + reader.held, PLAIN_PACKET - reader.held) == 0);
    CHECK(holds(before) + n - 12 == store_own(stored, a->stored, &packets) + reader.held + a->lost);
    CHECK(a->gap < 65535 && (before->begun || a->gap == 0));
}

/* A call on memories of exactly their lengths. */
static struct plain_unwrapped give(const uint8_t *outer, size_t n, size_t room)
{
    const struct plain_tunnel before = reader;
    uint8_t *in = n > 0 ? malloc(n) : NULL, *out = room > 0 ? malloc(room) : NULL;
    struct plain_unwrapped a;

    if (n > 0)
        memcpy(in, outer, n);
    if (room > 0)
        memset(out, 0xA5, room);
    a = plain_unwrap(&reader, in, n, out, room);
    CHECK(n == 0 || memcmp(in, outer, n) == 0);
    CHECK(a.stored <= room && a.stored <= MOST_STORED && (room == 0 || all(out + a.stored, room - a.stored, 0xA5)));
    if (a.stored > 0)
        memcpy(stored, out, a.stored);
    if (a.number == 1 || a.number == 16 || a.repeat) {
        CHECK(same_state(&reader, &before));
        CHECK(a.stored == 0 && a.gap == 0 && a.lost == 0 && a.repeat == (a.number == 0));
    } else
        check_accepted(&before, outer, n, &a);
    free(in);
    free(out);
    return a;
}

/* ---- By hand ---- */

static uint8_t made[70000]; /* an outer packet */
static size_t made_n;

static void fresh(void)
{
    memset(&reader, 0, sizeof reader);
}

/* The header; offset -1 is no marker, and then the field has a value that would be a fault. */
static void outer(unsigned sequence, int offset)
{
    static const uint8_t header[12] = {0x80, 97, 0, 0, 1, 2, 3, 4, 0x40, 0, 0xFF, 0xFF};

    memcpy(made, header, 12);
    outer_put(made + 2, sequence);
    if (offset >= 0) {
        made[1] |= 0x80;
        outer_put(made + 10, (unsigned)offset);
    }
    made_n = 12;
}

static uint8_t byte_of(unsigned length, unsigned i)
{
    return i == 0 ? 0x45 : i == 2 ? (uint8_t)(length >> 8) : i == 3 ? (uint8_t)length : (uint8_t)(i * 7 + length);
}

/* Bytes from..to - 1 of a packet of that length. */
static void piece(unsigned length, unsigned from, unsigned to)
{
    for (; from < to; from++)
        made[made_n++] = byte_of(length, from);
}

static void packet(unsigned length)
{
    piece(length, 0, length);
}

/* Whether the store has exactly the packets of these lengths. */
static int has_stored(const char *lengths, size_t n)
{
    size_t at = 0;
    unsigned length, i;
    int used;

    for (; sscanf(lengths, "%u%n", &length, &used) == 1; lengths += used) {
        if (n - at < 4 + length || memcmp(stored + at, "IP", 2) != 0 || outer_get(stored + at + 2) != length)
            return 0;
        for (i = 0; i < length; i++)
            if (stored[at + 4 + i] != byte_of(length, i))
                return 0;
        at += 4 + length;
    }
    return at == n;
}

/* Gives what was made. Whether the answer is this, with these packets stored and so much held. */
static int gives(int number, unsigned gap, size_t lost, size_t held, const char *lengths)
{
    const struct plain_unwrapped a = give(made, made_n, PLAIN_UNWRAPPED);

    return a.number == number && !a.repeat && a.gap == gap && a.lost == lost && reader.held == held && has_stored(lengths, a.stored);
}

static int is_repeat(void)
{
    return give(made, made_n, PLAIN_UNWRAPPED).repeat;
}

/* A reader that has accepted number 100 and holds the first bytes of a packet of that length. */
static void hold(unsigned length, unsigned held)
{
    fresh();
    outer(100, 0);
    piece(length, 0, held);
    CHECK(gives(0, 0, 0, held, ""));
}

static void refusals_by_hand(void)
{
    static const uint8_t heads[][2] = {{0x00, 97}, {0x40, 97}, {0xC0, 97}, {0xA0, 97}, {0x90, 97}, {0x81, 97}, {0x88, 97}, {0x8F, 97},
                                       {0x80, 96}, {0x80, 98}, {0x80, 81}, {0x80, 82}, {0x80, 0}, {0x80, 127}, {0x80, 225 ^ 64}};
    size_t i, n;

    hold(100, 50);
    outer(101, -1);
    piece(100, 50, 100);
    for (n = 0; n < PLAIN_UNWRAPPED; n += n < 8 || n > 4080 ? 1 : 97)
        CHECK(give(made, made_n, n).number == 1);
    CHECK(give(made, 5, 4095).number == 1); /* 1 comes before 16 */
    CHECK(give(NULL, 0, 0).number == 1);
    CHECK(give(NULL, 0, 4096).number == 16);
    for (n = 0; n < 12; n++)
        CHECK(give(made, n, PLAIN_UNWRAPPED).number == 16);
    for (n = 1501; n <= sizeof made; n += n < 1510 ? 1 : 1999)
        CHECK(give(made, n, PLAIN_UNWRAPPED).number == 16);
    for (i = 0; i < LEN(heads); i++) {
        memcpy(made, heads[i], 2);
        CHECK(give(made, made_n, PLAIN_UNWRAPPED).number == 16);
        made[1] ^= 0x80; /* with the marker, too */
        CHECK(give(made, made_n, PLAIN_UNWRAPPED).number == 16);
    }
    /* 16 comes before a repeat and a gap; it does not count as accepted. */
    outer(100, -1);
    made[0] = 0x90;
    CHECK(give(made, made_n, PLAIN_UNWRAPPED).number == 16);
    outer(200, -1);
    made[0] = 0xA0;
    CHECK(give(made, made_n, PLAIN_UNWRAPPED).number == 16);
    outer(101, -1);
    piece(100, 50, 100);
    CHECK(gives(0, 0, 0, 0, "100"));
    /* The longest outer packet is taken, and the shortest. */
    outer(102, 0);
    packet(1488);
    CHECK(made_n == 1500 && gives(0, 0, 0, 0, "1488"));
    outer(103, -1);
    CHECK(made_n == 12 && gives(0, 0, 0, 0, ""));
    /* A larger output changes nothing. */
    outer(104, 0);
    packet(28);
    CHECK(give(made, made_n, 70000).stored == 32);
}

static void not_looked_at(void)
{
    unsigned i;

    for (i = 0; i < 6 * 256; i++) {
        fresh();
        outer(i, 0);
        made[4 + i / 256] = (uint8_t)i;
        packet(28);
        CHECK(gives(0, 0, 0, 0, "28"));
    }
}

static void sequences_by_hand(void)
{
    static const unsigned lasts[] = {0, 1, 100, 32767, 32768, 65534, 65535};
    unsigned i, steps;

    for (i = 0; i < LEN(lasts); i++)
        for (steps = 0; steps < 65536; steps += steps < 4 || steps > 65530 ? 1 : 4099) {
            const unsigned next = (lasts[i] + steps) & 0xFFFF;

            fresh();
            outer(lasts[i], 0); /* a fresh reader takes any */
            packet(28);
            piece(100, 0, 60);
            CHECK(gives(0, 0, 0, 60, "28"));
            outer(next, -1);
            piece(100, 60, 100);
            if (steps == 0)
                CHECK(is_repeat() && is_repeat());
            else if (steps == 1)
                CHECK(gives(0, 0, 0, 0, "100"));
            else /* the part is dropped, and what goes on with it is thrown away */
                CHECK(gives(0, steps - 1, 100, 0, ""));
            CHECK(reader.last == next);
        }
    /* After a gap reading goes on in the same outer packet. */
    hold(100, 60);
    outer(103, 40);
    piece(100, 60, 100);
    packet(30);
    CHECK(gives(0, 2, 100, 0, "30"));
    /* Two that change places: a gap of 1, one of 65,534, one of 1. */
    hold(100, 60);
    outer(102, 0);
    packet(31);
    CHECK(gives(0, 1, 60, 0, "31"));
    outer(101, 40);
    piece(100, 60, 100);
    packet(30);
    CHECK(gives(0, 65534, 40, 0, "30"));
    outer(103, 0);
    packet(32);
    CHECK(gives(0, 1, 0, 0, "32"));
    /* A repeat is known by its number alone, whatever is in it. */
    outer(103, 5);
    CHECK(is_repeat());
    /* A fresh reader that holds a part: no gap, the part goes on. */
    hold(100, 60);
    reader.begun = 0;
    outer(9999, -1);
    piece(100, 60, 100);
    CHECK(gives(0, 0, 0, 0, "100"));
    /* A number above 16 bits counts modulo 65,536, and not 0 is begun. */
    hold(100, 60);
    reader.begun = -7;
    reader.last = 65536u * 5 + 100;
    outer(100, -1);
    CHECK(is_repeat() && reader.begun == -7 && reader.last == 65536u * 5 + 100);
    outer(101, -1);
    piece(100, 60, 100);
    CHECK(gives(0, 0, 0, 0, "100"));
}

static void offsets_by_hand(void)
{
    unsigned n, offset;

    for (n = 0; n < 40; n++)
        for (offset = 0; offset < 65536; offset += offset < 50 ? 1 : 5039) {
            hold(100, 60);
            outer(101, (int)offset);
            piece(100, 60, 60 + n); /* its own bytes, so that nothing but the offset is wrong */
            if (offset >= n) {
                CHECK(gives(17, 0, 60 + n, 0, ""));
                CHECK(is_repeat()); /* the number counts as accepted */
                outer(102, -1);
                piece(100, 60, 100);
                CHECK(gives(0, 0, 40, 0, "")); /* the part is gone */
            } else
                CHECK(give(made, made_n, PLAIN_UNWRAPPED).number == 0);
        }
    /* 17 with a gap; of a fresh reader, which then has one. */
    hold(100, 60);
    outer(104, 1488);
    piece(1490, 0, 1488);
    CHECK(gives(17, 3, 1548, 0, ""));
    fresh();
    outer(7, 0);
    CHECK(gives(17, 0, 0, 0, ""));
    outer(9, 0);
    packet(28);
    CHECK(gives(0, 1, 0, 0, "28"));
    /* Without a marker the offset is not looked at. */
    for (offset = 0; offset < 65536; offset += 257) {
        hold(100, 60);
        outer(101, -1);
        outer_put(made + 10, offset);
        piece(100, 60, 100);
        CHECK(gives(0, 0, 0, 0, "100"));
    }
}

/* A running packet of 100 bytes of which 60 are held. */
static void running_by_hand(void)
{
    hold(100, 60); /* it ends where the marker says */
    outer(101, 40);
    piece(100, 60, 100);
    packet(33);
    CHECK(gives(0, 0, 0, 0, "100 33"));
    hold(100, 60); /* before it */
    outer(101, 41);
    piece(100, 60, 100);
    made[made_n++] = 0;
    packet(33);
    CHECK(gives(0, 0, 101, 0, "33"));
    hold(100, 60); /* behind it: the marked start lies before the fault */
    outer(101, 39);
    piece(100, 60, 99);
    packet(33);
    CHECK(gives(0, 0, 99, 0, "33"));
    hold(100, 60); /* a marker at 0 */
    outer(101, 0);
    packet(33);
    CHECK(gives(0, 0, 60, 0, "33"));
    hold(100, 60); /* it goes on */
    outer(101, -1);
    piece(100, 60, 99);
    CHECK(gives(0, 0, 0, 99, ""));
    outer(102, -1); /* an empty payload */
    CHECK(gives(0, 0, 0, 99, ""));
    outer(103, -1); /* it ends with the payload */
    piece(100, 99, 100);
    CHECK(gives(0, 0, 0, 0, "100"));
    hold(100, 60); /* it is complete, and bytes without a marker follow */
    outer(101, -1);
    piece(100, 60, 100);
    packet(33);
    CHECK(gives(0, 0, 133, 0, ""));
    hold(100, 60); /* complete, a start that is not one, and the marked one tried once */
    outer(101, 42);
    piece(100, 60, 100);
    piece(33, 0, 2);
    packet(33);
    piece(34, 0, 20);
    CHECK(gives(0, 0, 102, 20, "33"));
}

/* A running packet whose length is not known yet, or comes to be outside the limits. */
static void lengths_by_hand(void)
{
    static const unsigned lengths[] = {0, 4, 20, 27, 28, 29, 255, 256, 1499, 1500, 1501, 7168, 65535};
    unsigned i, held, first;

    for (i = 0; i < LEN(lengths); i++)
        for (held = 1; held < 4; held++) {
            const unsigned length = lengths[i];
            const int good = length >= 28 && length <= 1500;

            for (first = held; first < 4; first++) { /* byte by byte */
                hold(length, held);
                outer(101, -1);
                piece(length, held, first);
                CHECK(gives(0, 0, 0, first, ""));
            }
            hold(length, held);
            outer(101, -1);
            piece(length, held, 4);
            CHECK(gives(0, 0, good ? 0 : 4, good ? 4 : 0, ""));
            hold(length, held);
            outer(101, 4 - (int)held); /* the marker ends it there, at the latest */
            piece(length, held, 4);
            packet(28);
            CHECK(gives(0, 0, 4, 0, "28"));
            if (held < 3) {
                hold(length, held);
                outer(101, 1);
                piece(length, held, held + 1);
                packet(28);
                CHECK(gives(0, 0, held + 1, 0, "28"));
            }
        }
    /* Marked ones, one behind the other. */
    for (i = 0; i < LEN(lengths); i++) {
        const unsigned length = lengths[i];
        const int good = length >= 28 && length <= 1500;
        const unsigned there = length < 4 ? 4 : length > 1400 ? 1400 : length;
        char want[32];

        fresh();
        outer(5, 3);
        piece(99, 50, 53);
        packet(28);
        piece(length, 0, there);
        snprintf(want, sizeof want, good && there == length ? "28 %u" : "28", length);
        CHECK(gives(0, 0, 3 + (good ? 0 : there), good && there < length ? there : 0, want));
    }
    /* The length is that of bytes 2 and 3, not of 4 and 5. */
    fresh();
    outer(5, 0);
    packet(40);
    outer_put(made + 12 + 4, 30);
    memset(made + 12 + 6, 0x45, 34);
    CHECK(give(made, made_n, PLAIN_UNWRAPPED).stored == 44 && reader.held == 0);
}

static void starts_by_hand(void)
{
    unsigned half, held;

    for (half = 0; half < 16; half++)
        for (held = 1; held <= 40; held += held < 5 ? 1 : 12) { /* the first half byte, also of a start that is cut */
            fresh();
            outer(5, 0);
            packet(30);
            made[made_n] = (uint8_t)(half << 4 | 5);
            made_n++;
            piece(50, 1, held);
            CHECK(gives(0, 0, half == 4 ? 0 : held, half == 4 ? held : 0, "30"));
        }
    fresh(); /* a fault stops; a good packet behind it is lost */
    outer(5, 0);
    packet(30);
    made[made_n++] = 0;
    packet(31);
    CHECK(gives(0, 0, 32, 0, "30"));
    outer(6, -1); /* reading waits for the next marked start */
    packet(32);
    CHECK(gives(0, 0, 32, 0, ""));
    outer(7, 4);
    piece(32, 0, 4);
    packet(34);
    CHECK(gives(0, 0, 4, 0, "34"));
    outer(8, -1); /* an empty payload without a running packet */
    CHECK(gives(0, 0, 0, 0, ""));
    fresh(); /* the end of the payload is the end of a packet: none is running */
    outer(5, 0);
    packet(30);
    packet(28);
    CHECK(gives(0, 0, 0, 0, "30 28"));
    outer(6, 1);
    piece(33, 0, 1);
    packet(28);
    CHECK(gives(0, 0, 1, 0, "28"));
    fresh(); /* the most that one call stores */
    hold(1500, 1488);
    outer(101, -1);
    piece(1500, 1488, 1499);
    CHECK(gives(0, 0, 0, 1499, ""));
    outer(102, 1);
    piece(1500, 1499, 1500);
    for (half = 0; half < 52; half++)
        packet(28);
    packet(31);
    CHECK(made_n == 1500 && give(made, made_n, PLAIN_UNWRAPPED).stored == MOST_STORED && reader.held == 0);
}

/* States that no calls make. */
static void states_by_hand(void)
{
    static const size_t helds[] = {0, 1, 2, 3, 4, 5, 27, 28, 59, 60, 99, 100, 101, 1499, 1500, 1501, 65535, 65536, (size_t)-1};
    static const unsigned lengths[] = {0, 3, 27, 28, 60, 100, 101, 1499, 1500, 1501, 65535};
    size_t i, k;
    unsigned half;

    for (i = 0; i < LEN(helds); i++)
        for (k = 0; k < LEN(lengths); k++)
            for (half = 3; half < 6; half++) {
                const size_t held = helds[i];
                const int held_one = held > 0 && half == 4
                                  && (held < 4 || (lengths[k] >= 28 && lengths[k] <= 1500 && held < lengths[k]));

                fresh();
                reader.begun = 1;
                reader.last = 7;
                reader.held = held;
                memset(reader.part, 0xEE, sizeof reader.part);
                reader.part[0] = (uint8_t)(half << 4);
                outer_put(reader.part + 2, lengths[k]);
                CHECK(holds(&reader) == (held_one ? held : 0));
                outer(8, -1);
                CHECK(gives(0, 0, 0, held_one ? held : 0, ""));
                reader.held = held;
                outer(10, 2);
                piece(28, 0, 2);
                packet(29);
                CHECK(gives(0, 1, held_one ? held + 2 : 2, 0, "29"));
                reader.held = held;
                CHECK(is_repeat() && reader.held == held);
            }
}

/* ---- The model ---- */

/* What a byte does, by the rules: no packet is being read; one from before this payload; one that begins in it. */
enum where { WAITING, RUNNING, OWN };

static struct {
    enum where where;
    uint8_t packet[PLAIN_PACKET], out[PLAIN_UNWRAPPED];
    size_t held, stored, lost;
} model;

static size_t model_length(void)
{
    return model.held < 4 ? 0 : 256u * model.packet[2] + model.packet[3];
}

static int model_complete(void)
{
    return model.held >= 4 && model.held == model_length();
}

static void model_drop(void)
{
    model.lost += model.held;
    model.held = 0;
}

static void model_store(void)
{
    const uint8_t head[4] = {0x49, 0x50, (uint8_t)(model.held / 256), (uint8_t)(model.held % 256)};

    memcpy(model.out + model.stored, head, 4);
    memcpy(model.out + model.stored + 4, model.packet, model.held);
    model.stored += 4 + model.held;
    model.held = 0;
}

static void model_byte(uint8_t byte, int start)
{
    if (model_complete()) {
        if (model.where == OWN || start)
            model_store();
        else {
            model_drop();
            model.where = WAITING;
        }
    }
    if (start) {
        model_drop();
        model.where = OWN;
    }
    if (model.where == WAITING) {
        model.lost++;
        return;
    }
    model.packet[model.held++] = byte;
    if ((model.held == 1 && byte / 16 != 4) || (model.held == 4 && (model_length() < 28 || model_length() > 1500))) {
        model_drop();
        model.where = WAITING;
    }
}

static struct plain_unwrapped model_unwrap(const struct plain_tunnel *t, const uint8_t *o, size_t n, size_t room)
{
    struct plain_unwrapped a = {0, 0, 0, 0, 0};
    const unsigned last = t->last % 65536;
    size_t i, start;

    model.held = holds(t);
    model.stored = model.lost = 0;
    memcpy(model.packet, t->part, PLAIN_PACKET);
    if (room < 4096)
        a.number = 1;
    else if (n > 1500 || n < 12 || o[0] / 64 != 2 || o[0] / 32 % 2 != 0 || o[0] / 16 % 2 != 0 || o[0] % 16 != 0 || o[1] % 128 != 97)
        a.number = 16;
    else if (t->begun && outer_get(o + 2) == last)
        a.repeat = 1;
    if (a.number != 0 || a.repeat)
        return a;
    if (t->begun && outer_get(o + 2) != (last + 1) % 65536) {
        a.gap = (outer_get(o + 2) + 65536 - last - 1) % 65536;
        model_drop();
    }
    model.where = model.held > 0 ? RUNNING : WAITING;
    start = o[1] >= 128 ? outer_get(o + 10) : 65536;
    if (o[1] >= 128 && start >= n - 12) {
        a.number = 17;
        model_drop();
        model.lost += n - 12;
    } else
        for (i = 0; i < n - 12; i++)
            model_byte(o[12 + i], i == start);
    if (model_complete())
        model_store();
    a.stored = model.stored;
    a.lost = model.lost;
    return a;
}

static unsigned long seen[18], seen_repeats, seen_gaps, seen_stored, seen_lost, seen_kept;

/* The reader at work and the model, on the same. */
static void both(const uint8_t *o, size_t n, size_t room)
{
    const struct plain_unwrapped w = model_unwrap(&reader, o, n, room), a = give(o, n, room);

    CHECK(a.number == w.number && a.repeat == w.repeat && a.gap == w.gap && a.lost == w.lost);
    CHECK(a.stored == w.stored && memcmp(stored, model.out, a.stored) == 0);
    CHECK(w.repeat || w.number == 1 || w.number == 16 || (reader.held == model.held && memcmp(reader.part, model.packet, model.held) == 0));
    seen[a.number]++;
    seen_repeats += a.repeat != 0;
    seen_gaps += a.gap > 0;
    seen_stored += a.stored > 0;
    seen_lost += a.lost > 0;
    seen_kept += a.number == 0 && !a.repeat && reader.held > 0;
}

static size_t any_room(void)
{
    return rng_once_in(&rng, 40) ? rng_below(&rng, 4096) : 4096 + rng_below(&rng, rng_once_in(&rng, 2) ? 2 : 3000);
}

static void model_corners(void)
{
    static struct corner c;
    unsigned round;

    for (round = 0; round < 200000; round++) {
        make_corner(&rng, &c);
        reader.begun = (int)c.begun;
        reader.last = c.last;
        reader.held = c.held;
        memcpy(reader.part, c.part, sizeof c.part);
        if (rng_once_in(&rng, 8))
            outer_damage(&rng, c.outer, &c.n, rng_below(&rng, OUTER_DAMAGES));
        both(c.outer, c.n, any_room());
    }
    CHECK(seen[0] > 100000 && seen[1] > 1000 && seen[16] > 1000 && seen[17] > 1000);
    CHECK(seen_repeats > 1000 && seen_gaps > 1000 && seen_stored > 10000 && seen_lost > 10000 && seen_kept > 10000);
}

static struct stream stream;

/* Streams with damage, repeats, and outer packets left out or exchanged. */
static void model_streams(void)
{
    static uint8_t o[OUTER_ROOM], before[OUTER_ROOM];
    unsigned round;
    size_t i, n, last = 0;

    for (round = 0; round < 1500; round++) {
        const unsigned first = rng_edge(&rng, 65535), often = 2 + rng_below(&rng, 40);

        stream_any(&rng, &stream, rng_below(&rng, 60000));
        if (rng_once_in(&rng, 2))
            fresh();
        for (i = 0; i < stream.payloads; i++) {
            if (i + 2 < stream.payloads && rng_once_in(&rng, 50)) { /* two exchanged */
                n = stream_outer(&rng, &stream, i + 1, first + (unsigned)i + 1, o);
                both(o, n, 4096);
            } else if (rng_once_in(&rng, 50))
                continue;
            n = stream_outer(&rng, &stream, i, first + (unsigned)i, o);
            if (rng_once_in(&rng, often))
                outer_damage(&rng, o, &n, rng_below(&rng, OUTER_DAMAGES));
            both(o, n, any_room());
            if (last > 0 && rng_once_in(&rng, 50))
                both(before, last, 4096);
            memcpy(before, o, n);
            last = n;
        }
    }
}

/* ---- The promises ---- */

static uint8_t came[STREAM_BYTES + 4 * STREAM_PACKETS], want[STREAM_BYTES + 4 * STREAM_PACKETS];
static size_t came_n;

/* Feeds the payloads from..to - 1, numbered from first on where the stream begins. Whether none is refused or a repeat; *gap is how often there was one. */
static int feed(size_t from, size_t to, unsigned first, unsigned *gaps)
{
    static uint8_t o[OUTER_LONGEST];
    int good = 1;

    for (; from < to; from++) {
        const size_t n = stream_outer(&rng, &stream, from, first + (unsigned)from, o);
        const struct plain_unwrapped a = give(o, n, 4096 + rng_below(&rng, 2) * 100);

        memcpy(came + came_n, stored, a.stored);
        came_n += a.stored;
        good &= a.number == 0 && !a.repeat;
        *gaps += a.gap > 0;
    }
    return good;
}

/* The first marked start in the payloads from..to - 1, or the stream's end. */
static size_t first_start(size_t from, size_t to)
{
    for (; from < to; from++) {
        const size_t at = stream.cut[from] + stream_offset(&stream, from);

        if (at < stream.cut[from + 1])
            return at;
    }
    return stream.start[stream.packets];
}

/* Whether what came are the packets that begin at or behind a place, without those that have a byte from x to y - 1 or run across. */
static int came_all_but(size_t place, size_t x, size_t y)
{
    size_t i, n = 0;

    for (i = 0; i < stream.packets; i++) {
        const size_t s = stream.start[i], e = stream.start[i + 1];

        if (s < place || (s < y && e > x))
            continue;
        n += stream_store(&stream, i, want + n);
    }
    return came_n == n && memcmp(came, want, n) == 0;
}

/* A reader for which the stream, from a number on, is to come out: 0 fresh, 1 without a part, 2 any other, before a gap. */
static void any_reader(unsigned sort, unsigned first)
{
    static struct corner c;

    fresh();
    if (sort == 0)
        return;
    make_corner(&rng, &c);
    reader.begun = 1;
    memcpy(reader.part, c.part, sizeof c.part);
    reader.held = sort == 1 ? 0 : c.held;
    reader.last = (first + 65536 - (sort == 1 ? 1 + rng_edge(&rng, 65534) : 2 + rng_edge(&rng, 65533))) & 0xFFFF;
}

static void promise_in_order(void)
{
    unsigned round, gaps;

    for (round = 0; round < 4000; round++) {
        const unsigned first = rng_once_in(&rng, 2) ? 65536 - rng_below(&rng, 60) : rng_below(&rng, 65536), sort = round % 3;
        size_t from;

        stream_any(&rng, &stream, rng_below(&rng, round % 4 ? 3000 : 40000));
        from = rng_once_in(&rng, 2) ? 0 : rng_below(&rng, (unsigned)stream.payloads + 1);
        any_reader(sort, (first + (unsigned)from) & 0xFFFF);
        came_n = 0;
        gaps = 0;
        CHECK(feed(from, stream.payloads, first, &gaps));
        CHECK(gaps <= 1 && (sort != 0 || gaps == 0));
        CHECK(came_all_but(first_start(from, stream.payloads), 0, 0));
        CHECK(from == stream.payloads || reader.held == 0 || came_n == 0);
    }
}

/* The run a..b - 1 left out. */
static void leave_out(size_t a, size_t b, unsigned first)
{
    const size_t x = stream.cut[a], y = stream.cut[b];
    size_t place = first_start(0, a);
    unsigned gaps = 0;

    if (place == stream.start[stream.packets] || a == 0)
        place = first_start(b, stream.payloads);
    fresh();
    came_n = 0;
    CHECK(feed(0, a, first, &gaps));
    CHECK(feed(b, stream.payloads, first, &gaps));
    CHECK(gaps == (a > 0 && b < stream.payloads));
    CHECK(came_all_but(place, x, y));
}

static void promise_after_gap(void)
{
    unsigned round;

    for (round = 0; round < 4000; round++) {
        size_t a, b;

        do
            stream_any(&rng, &stream, 28 + rng_below(&rng, round % 4 ? 4000 : 40000));
        while (stream.payloads == 0);
        a = rng_edge(&rng, (unsigned)stream.payloads - 1);
        b = a + 1 + (rng_once_in(&rng, 2) ? 0 : rng_below(&rng, (unsigned)(stream.payloads - a)));
        leave_out(a, b, rng_below(&rng, 65536));
    }
}

/* Runs as long as may be, and one longer. */
static void promise_long_gap(void)
{
    static const size_t runs[] = {65534, 65533, 65534, 32768, 40000, 65534};
    static uint8_t o[OUTER_LONGEST];
    unsigned round, gaps = 0;
    size_t a, n;

    for (round = 0; round < LEN(runs); round++) {
        stream_packets(&rng, &stream, 28, 200, 3000);
        stream_cut_even(&stream, 50 + round);
        a = 1 + rng_below(&rng, (unsigned)stream.payloads - 2);
        stream_pad(&stream, a, 65540);
        leave_out(a, a + runs[round], 7);         /* empty ones alone */
        leave_out(a - 1, a - 1 + runs[round], 7); /* and one that is not */
    }
    fresh();
    came_n = 0;
    CHECK(feed(0, a, 7, &gaps));
    n = stream_outer(&rng, &stream, a + 65535, 7 + (unsigned)a + 65535, o);
    CHECK(give(o, n, 4096).repeat);
}

/* ---- Stored packets ---- */

/* What stands at a place of a store that is in memory of exactly its length. */
static int next(const uint8_t *store, size_t n, size_t at, size_t *length)
{
    uint8_t *copy = n > 0 ? malloc(n) : NULL;
    int number;

    if (n > 0)
        memcpy(copy, store, n);
    *length = 77;
    number = plain_next_packet(copy, n, at, length);
    CHECK(*length == 0 || (number == 0 && *length >= 28 && *length <= 1500 && at + 4 + *length <= n));
    free(copy);
    return number;
}

static void stores_by_hand(void)
{
    static const unsigned lengths[] = {0, 1, 27, 28, 29, 1499, 1500, 1501, 4096, 65535};
    static uint8_t store[70000];
    size_t i, n, length;

    CHECK(next(NULL, 0, 0, &length) == 0 && length == 0);
    CHECK(next(NULL, 0, (size_t)-1, &length) == 0 && length == 0);
    memset(store, 0x45, sizeof store);
    memcpy(store, "IP", 2);
    for (i = 0; i < LEN(lengths); i++) {
        const int good = lengths[i] >= 28 && lengths[i] <= 1500;

        outer_put(store + 2, lengths[i]);
        for (n = 1; n < 1520; n++) { /* every cut, and bytes behind it */
            const int whole = good && n >= 4 + lengths[i];

            CHECK(next(store, n, 0, &length) == (whole ? 0 : 15) && length == (whole ? lengths[i] : 0));
            CHECK(next(store, n, n, &length) == 0 && length == 0);
            CHECK(next(store, n, n + 1 + (n % 2 ? 0 : (size_t)-1 / 2), &length) == 0 && length == 0);
        }
        CHECK(next(store, sizeof store, 0, &length) == (good ? 0 : 15));
    }
    CHECK(next(store, 1500, (size_t)-1, &length) == 0 && length == 0);
    outer_put(store + 2, 28);
    for (i = 0; i < 65536; i++) {
        outer_put(store, (unsigned)i);
        CHECK(plain_next_packet(store, 32, 0, &length) == (i == 0x4950 ? 0 : 15));
    }
}

/* Reading back what was stored gives the packets. */
static void stores_read_back(void)
{
    unsigned round, gaps;

    for (round = 0; round < 300; round++) {
        size_t at = 0, i, length;

        stream_any(&rng, &stream, 20000);
        fresh();
        came_n = gaps = 0;
        CHECK(feed(0, stream.payloads, round, &gaps));
        for (i = 0; i < stream.packets; i++) {
            CHECK(plain_next_packet(came, came_n, at, &length) == 0 && length == stream.start[i + 1] - stream.start[i]);
            CHECK(memcmp(came + at + 4, stream.bytes + stream.start[i], length) == 0);
            at += 4 + length;
        }
        CHECK(plain_next_packet(came, came_n, at, &length) == 0 && length == 0 && at == came_n);
    }
}

/* ---- The program ---- */

static char report[400000];
static size_t report_n;

static void add_outer(const uint8_t *o, size_t n)
{
    const uint8_t head[4] = {'O', 'P', (uint8_t)(n >> 8), (uint8_t)n};

    add(head, 4);
    add(o, n);
}

static void expect(const char *word, size_t number)
{
    report_n += (size_t)sprintf(report + report_n, "%s%zu", word, number);
}

static void expect_line(size_t record, const struct plain_unwrapped *a)
{
    if (a->number == 0 && !a->repeat && a->gap == 0 && a->lost == 0)
        return;
    expect("OP ", record);
    if (a->number != 0)
        expect(" ", (size_t)a->number);
    if (a->repeat)
        report_n += (size_t)sprintf(report + report_n, " repeat");
    if (a->gap != 0)
        expect(" gap ", a->gap);
    if (a->lost != 0)
        expect(" lost ", a->lost);
    report[report_n++] = '\n';
}

/* What the file so far must give, in came and in report. */
static void expect_file(void)
{
    size_t at = 0, record = 0;
    unsigned end = 0;

    fresh();
    came_n = report_n = 0;
    while (at < input_n && end == 0) {
        const size_t left = input_n - at, n = left < 4 ? 0 : outer_get(input + at + 2);

        if (left < 4 || memcmp(input + at, "OP", 2) != 0 || left - 4 < n)
            end = 15;
        else {
            const struct plain_unwrapped a = give(input + at + 4, n, 4096);

            memcpy(came + came_n, stored, a.stored);
            came_n += a.stored;
            expect_line(++record, &a);
            at += 4 + n;
        }
    }
    if (reader.held > 0) {
        expect("held ", reader.held);
        report[report_n++] = '\n';
    }
    expect("END ", end);
    report[report_n++] = '\n';
}

static int unwraps(size_t piece)
{
    expect_file();
    return run_program(">test.out 2>test.err", piece) == 0 && has("test.out", came, came_n) && has("test.err", report, report_n);
}

/* The examples of the page, and each word of a report. */
static void program_by_hand(void)
{
    static const char sample[] = "OP 2 16\nOP 3 16\nOP 5 repeat\nOP 6 gap 2 lost 60\nOP 7 17 gap 3 lost 1488\nOP 8 lost 30\nOP 9 17\nOP 10 gap 4\nheld 3\nEND 0\n";

    input_n = 0;
    outer(65534, 0);
    packet(28);
    piece(100, 0, 20);
    add_outer(made, made_n);
    memset(made + 1500, 0, 1500);
    add_outer(made, 3000);
    add_outer(made, 0);
    outer(65535, -1);
    piece(100, 20, 50);
    add_outer(made, made_n);
    add_outer(made, made_n);
    outer(2, 10);
    piece(100, 50, 60);
    packet(28);
    add_outer(made, made_n);
    outer(6, 1488);
    piece(1500, 0, 1488);
    add_outer(made, made_n);
    outer(7, -1);
    piece(100, 50, 80);
    add_outer(made, made_n);
    outer(8, 0);
    add_outer(made, made_n);
    outer(13, 0);
    packet(28);
    piece(100, 0, 3);
    add_outer(made, made_n);
    CHECK(unwraps(0));
    CHECK(report_n == sizeof sample - 1 && memcmp(report, sample, report_n) == 0);
    CHECK(unwraps(1));
    CHECK(came_n == 3 * 32);
}

static void program_ends(void)
{
    static const char *const marks[] = {"op", "IP", "PO", "O", "\n", "OO", "\0\0", "OQ"};
    const size_t whole = input_n;
    size_t i;

    input_n = 0; /* an empty file */
    CHECK(unwraps(0) && report_n == 6 && memcmp(report, "END 0\n", 6) == 0);
    for (i = 0; i < LEN(marks); i++) {
        input_n = whole;
        add(marks[i], marks[i][0] == '\0' ? 2 : strlen(marks[i]));
        add("OP\0\0", 4);
        CHECK(unwraps(i % 2));
        CHECK(memcmp(report + report_n - 14, "held 3\nEND 15\n", 14) == 0);
    }
    for (input_n = whole; input_n > 0; input_n -= input_n < 40 || input_n > whole - 40 ? 1 : 61) /* cuts */
        CHECK(unwraps(input_n % 2 ? 0 : 9));
}

static void program_streams(void)
{
    static uint8_t o[OUTER_ROOM];
    unsigned round;
    size_t i;

    for (round = 0; round < 60; round++) {
        const size_t size = 3000 + 65536u * (round % 4);

        input_n = 0;
        while (input_n < size) {
            const unsigned first = rng_below(&rng, 65536);

            stream_any(&rng, &stream, 40000);
            for (i = 0; i < stream.payloads && input_n < size; i++) {
                size_t n = stream_outer(&rng, &stream, i, first + (unsigned)i, o);

                if (rng_once_in(&rng, 30))
                    outer_damage(&rng, o, &n, rng_below(&rng, OUTER_DAMAGES));
                if (rng_once_in(&rng, 2000) && input_n + 70000 < sizeof input)
                    n = 65535;
                add_outer(o, n);
                if (rng_once_in(&rng, 30))
                    i += rng_below(&rng, 3);
            }
        }
        CHECK(unwraps(0));
        if (round % 6 == 0)
            CHECK(unwraps(1 + rng_below(&rng, 60000)));
        input_n -= 1 + rng_below(&rng, 30);
        CHECK(unwraps(0));
    }
    input_n = 0; /* nothing but lines, and the longest records */
    for (i = 0; i < 20000; i++)
        add_outer(o, i % 4);
    CHECK(unwraps(0));
    input_n = 0;
    for (i = 0; i < 8; i++)
        add_outer(made, 65535);
    CHECK(unwraps(0));
    CHECK(unwraps(65535));
    for (i = 65525; i < 65545; i++) { /* a mark, a length and a packet on the end of a block */
        input_n = 0;
        while (input_n < i - 1300)
            add_outer(o, 100);
        add_outer(o, i - 4 - input_n);
        outer(9, 0);
        packet(28);
        add_outer(made, made_n);
        CHECK(unwraps(0));
    }
}

/* What it reads and writes fails; its input comes slowly. The input is two outer packets by turns, each with a packet of 28 bytes. */
static void program_fails(void)
{
    static const char *const outputs[] = {">/dev/full 2>/dev/null", ">&- 2>/dev/null", ">/dev/null 2>/dev/full"};
    char command[600];
    size_t i;

    input_n = 0;
    while (input_n < 200000) {
        outer(input_n % 88 != 0, 0);
        packet(28);
        add_outer(made, made_n);
    }
    for (i = 0; i < LEN(outputs); i++)
        CHECK(run_program(outputs[i], 0) == 256);
    CHECK(run_program("2>/dev/null | head -c 1 >test.out", 0) == 0 && has("test.out", "I", 1));
    snprintf(command, sizeof command, "(%s <test.in 2>/dev/null; echo $? >test.err) | head -c 1 >test.out", program);
    CHECK(system(command) == 0 && has("test.err", "0\n", 2));
    snprintf(command, sizeof command, "%s </ >test.out 2>test.err", program);
    CHECK(system(command) == 256 && has("test.out", "", 0));
    CHECK(has("test.err", "plainunwrap: standard input could not be read: Is a directory\n", 62));
    snprintf(command, sizeof command, "%s word >test.out 2>test.err", program);
    CHECK(system(command) == 512);
    snprintf(command, sizeof command, "(printf 'OP\\0'; sleep 0.2; printf '\\0'; sleep 0.5; cp test.err test.out) | %s 2>test.err", program);
    CHECK(system(command) == 0 && has("test.out", "OP 1 16\n", 8));
    remove("test.in");
    remove("test.out");
    remove("test.err");
}

int main(int argc, char **argv)
{
    refusals_by_hand();
    not_looked_at();
    sequences_by_hand();
    offsets_by_hand();
    running_by_hand();
    lengths_by_hand();
    starts_by_hand();
    states_by_hand();
    model_corners();
    model_streams();
    promise_in_order();
    promise_after_gap();
    promise_long_gap();
    stores_by_hand();
    stores_read_back();
    if (argc > 1) {
        program = argv[1];
        program_by_hand();
        program_ends();
        program_streams();
        program_fails();
    } else
        printf("no program given: not tested\n");
    return verdict();
}
