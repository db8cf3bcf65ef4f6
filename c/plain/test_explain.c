/* Checks explain.c by hand, against a model that reads the tables bit by bit, and against the reader and the desk; and the program explain named by the first argument.
   Prints "ok", or what differs. */
#define _POSIX_C_SOURCE 200809L

#include "check_log.h"
#include "explain.h"

enum { CHUNK = PLAIN_CHUNK_TABLE, ENSEMBLE = PLAIN_ENSEMBLE_TABLE, SERVICE = PLAIN_SERVICE_TABLE, SEGMENT = PLAIN_SEGMENT_TABLE };

static uint64_t seed = 1;

static unsigned below(unsigned n)
{
    seed = seed * 6364136223846793005u + 1442695040888963407u;
    return (unsigned)((seed >> 32) * n >> 32);
}

/* ---- The model: the syntax of the tables, with a finger on the bit ---- */

/* What is to be told; nothing, if the number is 0. */
struct told {
    int number;
    unsigned table;
    const char *name;
    size_t bit, value;
};

static const struct told nothing = {0, PLAIN_NO_TABLE, "", 0, 0};

static struct {
    const uint8_t *bytes;
    size_t n, bit;
    struct told cut; /* the first field that is not whole, if one is not */
} finger;

static void put_finger(const uint8_t *bytes, size_t n)
{
    finger.bytes = bytes;
    finger.n = n;
    finger.bit = 0;
    finger.cut = nothing;
}

static unsigned take(unsigned table, const char *name, size_t bits)
{
    const struct told field = {9, table, name, finger.bit, finger.n};
    unsigned value = 0;

    for (; bits > 0 && finger.cut.number == 0; bits--, finger.bit++)
        if (finger.bit / 8 == finger.n)
            finger.cut = field;
        else
            value = 2 * value + (finger.bytes[finger.bit / 8] >> (7 - finger.bit % 8) & 1u);
    return finger.cut.number == 0 ? value : 0;
}

static void model_service(unsigned extension)
{
    take(SERVICE, "MH_service_id", 16);
    take(SERVICE, "reserved", 3);
    take(SERVICE, "multi_ensemble_service", 2);
    take(SERVICE, "MH_service_status", 2);
    take(SERVICE, "SP_indicator", 1);
    take(SERVICE, "MH_service_loop_extension_byte", 8 * extension);
}

/* Its number of services. */
static unsigned model_ensemble(unsigned extension)
{
    take(ENSEMBLE, "ensemble_id", 8);
    take(ENSEMBLE, "reserved", 3);
    take(ENSEMBLE, "ensemble_protocol_version", 5);
    take(ENSEMBLE, "SLT_ensemble_indicator", 1);
    take(ENSEMBLE, "GAT_ensemble_indicator", 1);
    take(ENSEMBLE, "EAT_ensemble_indicator", 1);
    take(ENSEMBLE, "MH_service_signaling_channel_version", 5);
    take(ENSEMBLE, "ensemble_loop_header_extension_byte", 8 * extension);
    return take(ENSEMBLE, "num_MH_services", 8);
}

static struct told model_chunk(const uint8_t *chunk, size_t n)
{
    unsigned major, h, e, s, ensembles, services;

    if (n > 560)
        return (struct told){8, PLAIN_NO_TABLE, "length", 0, n};
    put_finger(chunk, n);
    major = take(CHUNK, "FIC_chunk_major_protocol_version", 2);
    take(CHUNK, "FIC_chunk_minor_protocol_version", 3);
    h = take(CHUNK, "FIC_chunk_header_extension_length", 3);
    e = take(CHUNK, "ensemble_loop_header_extension_length", 3);
    s = take(CHUNK, "MH_service_loop_extension_length", 3);
    take(CHUNK, "reserved", 1);
    take(CHUNK, "current_next_indicator", 1);
    if (finger.cut.number == 0 && major > 0)
        return (struct told){5, CHUNK, "FIC_chunk_major_protocol_version", 0, major};
    take(CHUNK, "transport_stream_id", 16);
    take(CHUNK, "header_extension_byte", 8 * h);
    for (ensembles = take(CHUNK, "num_ensembles", 8); ensembles > 0; ensembles--)
        for (services = model_ensemble(e); services > 0; services--)
            model_service(s);
    return finger.cut;
}

/* A segment, and the slot of its kind, if there is one. */
static struct told model_segment(const uint8_t *segment, size_t n, const struct plain_gathered *slot)
{
    unsigned type, major, error, number, last;
    size_t i;

    if (n != 37)
        return (struct told){2, PLAIN_NO_TABLE, "length", 0, n};
    put_finger(segment, n);
    type = take(SEGMENT, "FIC_segment_type", 2);
    take(SEGMENT, "reserved", 1);
    take(SEGMENT, "wake_up_indicator", 1);
    major = take(SEGMENT, "FIC_chunk_major_protocol_version", 2);
    take(SEGMENT, "current_next_indicator", 1);
    error = take(SEGMENT, "error_indicator", 1);
    number = take(SEGMENT, "FIC_segment_num", 4);
    last = take(SEGMENT, "FIC_last_segment_num", 4);
    if (type != 0)
        return (struct told){3, SEGMENT, "FIC_segment_type", 0, type};
    if (error != 0)
        return (struct told){4, SEGMENT, "error_indicator", 7, error};
    if (major != 0)
        return (struct told){5, SEGMENT, "FIC_chunk_major_protocol_version", 4, major};
    if (number > last)
        return (struct told){6, SEGMENT, "FIC_segment_num", 8, number};
    if (slot == NULL)
        return nothing;
    if (slot->spoiled)
        return (struct told){7, PLAIN_NO_TABLE, "slot spoiled", 0, 0};
    if (slot->held > 0 && slot->last != last)
        return (struct told){7, SEGMENT, "FIC_last_segment_num", 12, last};
    for (i = 0; i < 35 && (slot->held >> number) % 2 == 1; i++)
        if (35 * number + i >= slot->n || slot->bytes[35 * number + i] != segment[2 + i])
            return (struct told){7, PLAIN_NO_TABLE, "payload", 16 + 8 * i, segment[2 + i]};
    return nothing;
}

/* ---- What holds for every call ---- */

static unsigned long seen[10][PLAIN_TABLES][PLAIN_ROWS];

/* Whether it tells this. */
static int tells(struct plain_explanation e, struct told want_told)
{
    seen[e.number][e.table][e.row]++;
    return e.number == want_told.number && e.table == want_told.table && strcmp(plain_field_name(e.table, e.row), want_told.name) == 0 && e.bit == want_told.bit
        && e.value == want_told.value && (e.number != 0 || e.row == 0);
}

static uint8_t *copy(const uint8_t *bytes, size_t n)
{
    uint8_t *to = n > 0 ? malloc(n) : NULL;

    if (n > 0)
        memcpy(to, bytes, n);
    return to;
}

/* A chunk in memory of exactly its length: the model's explanation, the reader's number, and a field within what ran out. */
static struct plain_explanation give_chunk(const uint8_t *bytes, size_t n)
{
    static uint8_t buffer[PLAIN_LISTING];
    uint8_t *chunk = copy(bytes, n);
    const struct plain_explanation a = plain_explain_chunk(chunk, n);
    const struct plain_read r = plain_read(chunk, n, buffer, sizeof buffer);

    CHECK(tells(a, model_chunk(chunk, n)));
    CHECK(a.number == r.number && a.bit >= 8 * r.at && a.bit <= 8 * n);
    CHECK(n == 0 || memcmp(chunk, bytes, n) == 0);
    free(chunk);
    return a;
}

/* A segment by itself, likewise. */
static struct plain_explanation give_segment(const uint8_t *bytes, size_t n)
{
    uint8_t *segment = copy(bytes, n);
    const struct plain_explanation a = plain_explain_segment(segment, n);

    CHECK(tells(a, model_segment(segment, n, NULL)));
    CHECK(n == 0 || memcmp(segment, bytes, n) == 0);
    free(segment);
    return a;
}

/* And a slot; a slot that is whole and well formed is also given to a desk. */
static struct plain_explanation give(const uint8_t *bytes, size_t n, struct plain_gathered slot)
{
    static struct plain_desk desk;
    static uint8_t buffer[2][PLAIN_LISTING];
    const uint8_t *kept = slot.bytes;
    uint8_t *segment = copy(bytes, n), *lent = copy(kept, slot.n);
    struct plain_explanation a;

    slot.bytes = lent;
    a = plain_explain_gathered(segment, n, &slot);
    CHECK(tells(a, model_segment(segment, n, &slot)));
    CHECK((n == 0 || memcmp(segment, bytes, n) == 0) && (slot.n == 0 || memcmp(lent, kept, slot.n) == 0));
    if (slot.n == PLAIN_CHUNK) {
        struct plain_slot *s = &desk.slot[n > 0 ? segment[0] >> 1 & 1 : 0];

        plain_fresh(&desk);
        s->held = slot.held;
        s->last = slot.last;
        s->spoiled = slot.spoiled;
        memcpy(s->bytes, lent, PLAIN_CHUNK);
        if (plain_well_formed(&desk)) {
            const int number = plain_segment(&desk, segment, n, buffer[0], PLAIN_LISTING, buffer[1], PLAIN_LISTING).number;

            CHECK(a.number != 0 ? a.number == number : number == 0 || (number == 5 && plain_explain_chunk(s->bytes, 35 * (s->last + 1)).number == 5)
                      || number == 9 || number == 10);
        }
    }
    free(segment);
    free(lent);
    return a;
}

/* ---- By hand ---- */

static void names_by_hand(void)
{
    static const char *const names[PLAIN_TABLES] = {
        ",length,payload,slot spoiled,",
        "FIC_chunk_major_protocol_version,FIC_chunk_minor_protocol_version,FIC_chunk_header_extension_length,ensemble_loop_header_extension_length,"
        "MH_service_loop_extension_length,reserved,current_next_indicator,transport_stream_id,header_extension_byte,num_ensembles,",
        "ensemble_id,reserved,ensemble_protocol_version,SLT_ensemble_indicator,GAT_ensemble_indicator,EAT_ensemble_indicator,"
        "MH_service_signaling_channel_version,ensemble_loop_header_extension_byte,num_MH_services,",
        "MH_service_id,reserved,multi_ensemble_service,MH_service_status,SP_indicator,MH_service_loop_extension_byte,",
        "FIC_segment_type,reserved,wake_up_indicator,FIC_chunk_major_protocol_version,current_next_indicator,error_indicator,FIC_segment_num,"
        "FIC_last_segment_num,"};
    static const unsigned rows[PLAIN_TABLES] = {4, 10, 9, 6, 8};
    char line[400];
    unsigned table, row;

    for (table = 0; table < PLAIN_TABLES; table++) {
        line[0] = '\0';
        for (row = 0; row < rows[table]; row++)
            strcat(strcat(line, plain_field_name((enum plain_table)table, row)), ",");
        CHECK(strcmp(line, names[table]) == 0);
        for (; row < 20; row++)
            CHECK(plain_field_name((enum plain_table)table, row)[0] == '\0');
    }
    for (; table < 20; table++)
        CHECK(plain_field_name((enum plain_table)table, 0)[0] == '\0');
}

/* What is told of a chunk that is cut to 0 bytes, 1 byte and so on: table, row, bit. */
struct cut {
    uint8_t table, row;
    uint16_t bit;
};

static void cuts_by_hand(const uint8_t *chunk, size_t whole, const struct cut *cuts)
{
    size_t n;

    for (n = 0; n < whole; n++) {
        const struct plain_explanation a = give_chunk(chunk, n);

        CHECK(a.number == 9 && a.table == cuts[n].table && a.row == cuts[n].row && a.bit == cuts[n].bit && a.value == n);
    }
    CHECK(give_chunk(chunk, whole).number == 0);
}

static void chunks_by_hand(void)
{
    static const uint8_t first[] = {0x00, 0x03, 0x01, 0x23, 0x01, 0x05, 0xE0, 0x83, 0x01, 0x0A, 0x01, 0xE6};
    static const struct cut of_first[] = {{CHUNK, 0, 0}, {CHUNK, 3, 8}, {CHUNK, 7, 16}, {CHUNK, 7, 16}, {CHUNK, 9, 32}, {ENSEMBLE, 0, 40},
        {ENSEMBLE, 1, 48}, {ENSEMBLE, 3, 56}, {ENSEMBLE, 8, 64}, {SERVICE, 0, 72}, {SERVICE, 0, 72}, {SERVICE, 1, 88}};
    /* h 2, e 1, s 3; an unknown ensemble with a service, and one with two */
    static const uint8_t all[] = {0x0A, 0x2F, 0x01, 0x23, 0xA1, 0xA2, 0x02, 0x05, 0xE1, 0x83, 0xB1, 0x01, 0x0A, 0x01, 0xE6, 0xC1, 0xC2, 0xC3,
                                  0x06, 0xE0, 0x83, 0xB1, 0x02, 0x0B, 0x01, 0xE6, 0xC1, 0xC2, 0xC3, 0x0B, 0x02, 0xE6, 0xC1, 0xC2, 0xC3};
    static const struct cut of_all[] = {{CHUNK, 0, 0}, {CHUNK, 3, 8}, {CHUNK, 7, 16}, {CHUNK, 7, 16}, {CHUNK, 8, 32}, {CHUNK, 8, 32}, {CHUNK, 9, 48},
        {ENSEMBLE, 0, 56}, {ENSEMBLE, 1, 64}, {ENSEMBLE, 3, 72}, {ENSEMBLE, 7, 80}, {ENSEMBLE, 8, 88},
        {SERVICE, 0, 96}, {SERVICE, 0, 96}, {SERVICE, 1, 112}, {SERVICE, 5, 120}, {SERVICE, 5, 120}, {SERVICE, 5, 120},
        {ENSEMBLE, 0, 144}, {ENSEMBLE, 1, 152}, {ENSEMBLE, 3, 160}, {ENSEMBLE, 7, 168}, {ENSEMBLE, 8, 176},
        {SERVICE, 0, 184}, {SERVICE, 0, 184}, {SERVICE, 1, 200}, {SERVICE, 5, 208}, {SERVICE, 5, 208}, {SERVICE, 5, 208},
        {SERVICE, 0, 232}, {SERVICE, 0, 232}, {SERVICE, 1, 248}, {SERVICE, 5, 256}, {SERVICE, 5, 256}, {SERVICE, 5, 256}};
    uint8_t c[PLAIN_CHUNK + 600];
    unsigned i, n;

    cuts_by_hand(first, LEN(first), of_first);
    cuts_by_hand(all, LEN(all), of_all);
    memset(c, 0, sizeof c);
    for (i = 0; i < 256; i++) /* 9 under 2 bytes, then 5 before 9, then 8 before all */
        for (n = 0; n < 5; n++) {
            const unsigned major = i >> 6;

            c[0] = (uint8_t)i;
            CHECK(n < 2 ? tells(give_chunk(c, n), n == 0 ? (struct told){9, CHUNK, "FIC_chunk_major_protocol_version", 0, 0}
                                                         : (struct told){9, CHUNK, "ensemble_loop_header_extension_length", 8, 1})
                  : major > 0 ? tells(give_chunk(c, n), (struct told){5, CHUNK, "FIC_chunk_major_protocol_version", 0, major})
                              : give_chunk(c, n).number == 9);
            CHECK(give_chunk(c, PLAIN_CHUNK).number == (major > 0 ? 5 : 0));
            CHECK(tells(give_chunk(c, PLAIN_CHUNK + 1 + i), (struct told){8, PLAIN_NO_TABLE, "length", 0, 561 + i}));
        }
    /* in 560 bytes: 183 services of 184, and of each length from 3 to 10; 138 ensembles of 139 */
    for (i = 0; i < 8; i++) {
        c[0] = 0;
        c[1] = (uint8_t)(i << 2);
        c[4] = 1;
        c[8] = 255;
        n = 9 + (551 / (3 + i)) * (3 + i); /* the first that does not fit */
        CHECK(tells(give_chunk(c, PLAIN_CHUNK), 560 - n < 2 ? (struct told){9, SERVICE, "MH_service_id", 8 * n, 560}
                    : 560 - n == 2 ? (struct told){9, SERVICE, "reserved", 8 * n + 16, 560}
                                   : (struct told){9, SERVICE, "MH_service_loop_extension_byte", 8 * n + 24, 560}));
    }
    c[1] = c[8] = 0;
    c[4] = 139;
    CHECK(tells(give_chunk(c, PLAIN_CHUNK), (struct told){9, ENSEMBLE, "num_MH_services", 4480, 560}));
    c[4] = 140;
    CHECK(tells(give_chunk(c, 557), (struct told){9, ENSEMBLE, "ensemble_id", 4456, 557}));
}

/* Every header, each with the first fault in order; every length up to 100, and some beyond. */
static void segments_by_hand(void)
{
    static const struct { uint8_t bytes[2], row, bit, value; int number; } samples[] = {
        {{0x72, 0x00}, 0, 0, 1, 3}, {{0xF3, 0x10}, 0, 0, 3, 3}, {{0x33, 0x00}, 5, 7, 1, 4}, {{0x3F, 0x10}, 5, 7, 1, 4}, {{0x36, 0x00}, 3, 4, 1, 5},
        {{0x3A, 0xF0}, 3, 4, 2, 5}, {{0x32, 0x10}, 6, 8, 1, 6}, {{0x30, 0xFE}, 6, 8, 15, 6}};
    static uint8_t s[70000];
    unsigned i;

    memset(s, 0xFF, sizeof s);
    for (i = 0; i < LEN(samples); i++) {
        struct plain_explanation a;

        memcpy(s, samples[i].bytes, 2);
        a = give_segment(s, 37);
        CHECK(a.number == samples[i].number && a.table == PLAIN_SEGMENT_TABLE && a.row == samples[i].row && a.bit == samples[i].bit && a.value == samples[i].value);
    }
    for (i = 0; i < 65536; i++) {
        s[0] = (uint8_t)(i >> 8);
        s[1] = (uint8_t)i;
        give_segment(s, 37);
    }
    for (i = 0; i < 70000; i += i < 100 ? 1 : 999)
        CHECK(i == 37 || tells(give_segment(s, i), (struct told){2, PLAIN_NO_TABLE, "length", 0, i}));
    CHECK(give_segment(s, 65536 + 37).number == 2);
}

/* A slot of last + 1 pieces, all held, beside each piece: as it is, with each byte changed, with any other last number, spoiled, with bytes too few. */
static void slots_by_hand(void)
{
    uint8_t bytes[PLAIN_CHUNK + 35], s[37];
    unsigned number, last, i;

    for (i = 0; i < sizeof bytes; i++)
        bytes[i] = (uint8_t)(i * 7 + i / 35);
    for (last = 0; last < 16; last++)
        for (number = 0; number <= last; number++) {
            const uint16_t held = (uint16_t)((2u << last) - 1), others = (uint16_t)(held & ~(1u << number));
            const size_t place = 35 * number;

            s[0] = (uint8_t)(0x10 * (number % 4) | last % 2 << 1);
            s[1] = (uint8_t)(number << 4 | last);
            memcpy(s + 2, bytes + place, 35);
            CHECK(give(s, 37, (struct plain_gathered){held, (uint8_t)last, 0, bytes, PLAIN_CHUNK}).number == 0);
            CHECK(give(s, 37, (struct plain_gathered){held, (uint8_t)last, 0, bytes, sizeof bytes}).number == 0);
            CHECK(tells(give(s, 37, (struct plain_gathered){held, (uint8_t)last, 1, bytes, PLAIN_CHUNK}), (struct told){7, 0, "slot spoiled", 0, 0}));
            CHECK(tells(give(s, 37, (struct plain_gathered){0, 0, -1, NULL, 0}), (struct told){7, 0, "slot spoiled", 0, 0}));
            for (i = 0; i < 256; i++) { /* also last numbers that no segment has; what holds nothing has none */
                const struct plain_gathered slot = {held, (uint8_t)i, 0, bytes, PLAIN_CHUNK}, none = {0, (uint8_t)i, 0, bytes, PLAIN_CHUNK};

                CHECK(tells(give(s, 37, slot), i == last ? nothing : (struct told){7, SEGMENT, "FIC_last_segment_num", 12, last}));
                CHECK(give(s, 37, none).number == 0);
            }
            for (i = 0; i < 35; i++) {
                const struct plain_gathered slot = {held, (uint8_t)last, 0, bytes, PLAIN_CHUNK}, without = {others, (uint8_t)last, 0, bytes, PLAIN_CHUNK},
                                            cut = {held, (uint8_t)last, 0, bytes, place + i}, away = {others, (uint8_t)last, 0, NULL, 0};
                const uint8_t was = s[2 + i];

                CHECK(tells(give(s, 37, cut), (struct told){7, 0, "payload", 16 + 8 * i, was}));
                s[2 + i] ^= 0x81; /* and a byte behind it, which is not told */
                s[36] ^= i < 34;
                CHECK(tells(give(s, 37, slot), (struct told){7, 0, "payload", 16 + 8 * i, was ^ 0x81u}));
                CHECK(tells(give(s, 37, cut), (struct told){7, 0, "payload", 16 + 8 * i, was ^ 0x81u}));
                CHECK(give(s, 37, without).number == 0 && give(s, 37, away).number == 0);
                s[2 + i] = was;
                s[36] ^= i < 34;
            }
        }
    s[0] = 0x33; /* the segment's own fault comes first */
    CHECK(give(s, 37, (struct plain_gathered){1, 200, 1, NULL, 0}).number == 4);
    CHECK(give(s, 36, (struct plain_gathered){1, 200, 1, NULL, 0}).number == 2);
}

/* ---- At random ---- */

enum { MOST = 700 }; /* bytes of a chunk or of a slot */

/* Bytes with small counts, so that chunks end anywhere. */
static size_t some_chunk(uint8_t *c)
{
    const unsigned most = below(3) ? 4 : below(256) + 1;
    size_t n = below(8) ? below(80) : below(MOST), i;

    for (i = 0; i < n; i++)
        c[i] = (uint8_t)below(below(8) ? most : 256);
    if (n > 1 && below(8)) {
        c[0] = (uint8_t)below(64);
        c[1] = (uint8_t)below(256);
    }
    return n;
}

static void some_slot(uint8_t *s, struct plain_gathered *slot, uint8_t *bytes)
{
    const unsigned last = below(4), number = below(below(8) ? last + 1 : 16);
    unsigned i;

    for (i = 0; i < 37; i++)
        s[i] = (uint8_t)below(256);
    s[0] = (uint8_t)(below(6) ? (unsigned)s[0] & 0x32 : s[0]);
    s[1] = (uint8_t)(number << 4 | last);
    memset(bytes, 0, MOST);
    slot->held = (uint16_t)below(below(3) ? 2u << last : 65536);
    slot->last = (uint8_t)(slot->held == 0 ? 0 : below(6) ? last : below(30));
    slot->spoiled = below(8) == 0;
    slot->bytes = bytes;
    slot->n = below(6) ? PLAIN_CHUNK : below(MOST);
    for (i = 0; i < 16; i++)
        if ((slot->held >> i & 1) != 0)
            memcpy(bytes + 35 * i, s + 2, 35);
    if (below(2))
        bytes[below(below(2) ? 140 : 560)] ^= (uint8_t)below(256);
    if (slot->spoiled && below(2)) {
        slot->held = slot->last = 0;
        memset(bytes, 0, MOST);
    }
}

/* The fields that can be at fault, and no others. */
static void faults_seen(void)
{
    static const uint8_t can[][3] = {{2, 0, 1}, {3, SEGMENT, 0}, {4, SEGMENT, 5}, {5, SEGMENT, 3}, {6, SEGMENT, 6}, {7, 0, 2}, {7, 0, 3}, {7, SEGMENT, 7},
        {8, 0, 1}, {5, CHUNK, 0}, {9, CHUNK, 0}, {9, CHUNK, 3}, {9, CHUNK, 7}, {9, CHUNK, 8}, {9, CHUNK, 9}, {9, ENSEMBLE, 0}, {9, ENSEMBLE, 1},
        {9, ENSEMBLE, 3}, {9, ENSEMBLE, 7}, {9, ENSEMBLE, 8}, {9, SERVICE, 0}, {9, SERVICE, 1}, {9, SERVICE, 5}, {0, 0, 0}};
    unsigned long *count = &seen[0][0][0];
    size_t i, others = 0;

    for (i = 0; i < LEN(can); i++) {
        CHECK(seen[can[i][0]][can[i][1]][can[i][2]] > 300);
        seen[can[i][0]][can[i][1]][can[i][2]] = 0;
    }
    for (i = 0; i < sizeof seen / sizeof *count; i++)
        others += count[i];
    CHECK(others == 0);
}

static void at_random(void)
{
    uint8_t c[MOST], s[37];
    struct plain_gathered slot;
    unsigned round;

    memset(seen, 0, sizeof seen);
    for (round = 0; round < 100000; round++) {
        give_chunk(c, some_chunk(c));
        some_slot(s, &slot, c);
        give(s, below(40) ? 37 : below(80) % 37, slot);
    }
    faults_seen();
}

/* ---- The program ---- */

static struct plain_desk desk;
static uint8_t buffer[2][PLAIN_LISTING];

static void expect_told(struct told t)
{
    if (t.number == 7 && t.name[0] == 's')
        expect("  slot spoiled\n");
    else if (t.number != 0)
        EXPECT("  %s at bit %zu is %zu\n", t.name, t.bit, t.value);
}

/* The three records of a log, and a chunk, each with the lines that it gives. */

static void add_segment(const uint8_t *segment)
{
    struct plain_slot *slot = &desk.slot[segment[0] >> 1 & 1];
    const struct plain_gathered gathered = {(uint16_t)slot->held, (uint8_t)slot->last, slot->spoiled, slot->bytes, PLAIN_CHUNK};
    const struct told own = model_segment(segment, 37, &gathered);
    struct plain_answer a;
    size_t n;

    add("SG", 2);
    add(segment, 37);
    a = plain_segment(&desk, segment, 37, buffer[0], PLAIN_LISTING, buffer[1], PLAIN_LISTING);
    expect_answer(&a, a.listed ? plain_show(&desk, a.kind, buffer[0], PLAIN_LISTING, buffer[1], PLAIN_LISTING, &n) : NULL);
    expect_told(own);
    if (own.number == 0 && (a.number == 5 || a.number == 9))
        expect_told(model_chunk(slot->bytes, 35 * (slot->last + 1)));
}

static void add_gathering(void)
{
    add("GA", 2);
    plain_gathering(&desk);
    expect("GA\n");
}

static void add_frame(void)
{
    const uint8_t *listing;
    size_t n;

    add("FR", 2);
    plain_frame(&desk);
    listing = plain_show(&desk, 1, buffer[0], PLAIN_LISTING, buffer[1], PLAIN_LISTING, &n);
    expect_frame(listing, n);
}

static void add_chunk(const uint8_t *chunk, size_t n)
{
    const uint8_t head[4] = {'C', 'H', (uint8_t)(n >> 8), (uint8_t)n};
    uint8_t listing[PLAIN_LISTING];
    const struct plain_read r = plain_read(chunk, n, listing, sizeof listing);

    add(head, 4);
    add(chunk, n);
    if (r.number == 9)
        EXPECT("CH 9 at %zu\n", r.at);
    else
        EXPECT("CH %d\n", r.number);
    expect_told(model_chunk(chunk, n));
}

static void begin(void)
{
    plain_fresh(&desk);
    input_n = want_n = 0;
}

/* Whether it prints the lines and this end. */
static int ends(const char *end, size_t piece)
{
    const size_t whole = want_n;
    int good;

    expect(end);
    good = prints(piece);
    want_n = whole;
    return good;
}

/* The pieces of a chunk, whose last number is this, with this header byte. */
static void add_pieces(uint8_t head, const uint8_t *chunk, unsigned last)
{
    uint8_t s[37];
    unsigned i;

    for (i = 0; i <= last; i++) {
        s[0] = head;
        s[1] = (uint8_t)(i << 4 | last);
        memcpy(s + 2, chunk + 35 * i, 35);
        add_segment(s);
    }
}

/* Chunks by themselves, of these bytes. */
static void chunk_records(uint8_t *c)
{
    add_chunk(c, 560);
    add_chunk(c, 11);
    add_chunk(c, 0);
    add_chunk(c, 1);
    c[0] = 0x80;
    add_chunk(c, 2);
    add_chunk(c, 65535);
    c[0] = 0;
}

/* The same segment with each fault of its header. */
static void header_records(uint8_t *s)
{
    static const uint8_t heads[] = {0xFF, 0x3F, 0x3E, 0x32};
    size_t i;

    s[1] = 0x21;
    for (i = 0; i < LEN(heads); i++) {
        s[0] = heads[i];
        add_segment(s);
    }
}

/* A repeat and two clashes, and what comes behind these; a chunk changes nothing in between. */
static void clash_records(uint8_t *s)
{
    s[1] = 0x01;
    add_segment(s);
    s[1] = 0x07;
    add_segment(s);
    add_segment(s);
    add_gathering();
    s[1] = 0x01;
    add_segment(s);
    s[5] = 9;
    add_segment(s);
    add_segment(s);
    add_chunk(s + 2, 35);
    add_segment(s);
    add_frame();
}

/* A chunk of one segment that is refused for its own major version, for its kind, and not at all. */
static void completed_records(uint8_t *c)
{
    c[0] = 0x40;
    add_pieces(0x32, c, 0);
    add_gathering();
    c[0] = 0;
    add_pieces(0x30, c, 0);
    add_gathering();
    c[1] = 2;
    add_pieces(0x30, c, 0);
    add_frame();
}

/* Each line of the page, and every end. */
static void program_by_hand(void)
{
    static const char sample[] =
        "CH 0\nCH 9 at 9\n  reserved at bit 88 is 11\nCH 9 at 0\n  FIC_chunk_major_protocol_version at bit 0 is 0\n"
        "CH 9 at 0\n  ensemble_loop_header_extension_length at bit 8 is 1\nCH 5\n  FIC_chunk_major_protocol_version at bit 0 is 2\n"
        "CH 8\n  length at bit 0 is 65535\nFR none\n"
        "SG 3\n  FIC_segment_type at bit 0 is 3\nSG 4\n  error_indicator at bit 7 is 1\nSG 5\n  FIC_chunk_major_protocol_version at bit 4 is 3\n"
        "SG 6\n  FIC_segment_num at bit 8 is 2\nSG 0 missing 1\nSG 9 at 67\n  MH_service_loop_extension_byte at bit 560 is 70\nSG 0 missing 0\n"
        "SG 7\n  FIC_last_segment_num at bit 12 is 7\nSG 7\n  slot spoiled\nGA\nSG 0 missing 1\nSG 7\n  payload at bit 40 is 9\nSG 7\n  slot spoiled\n"
        "CH 9 at 35\n  MH_service_id at bit 280 is 35\nSG 7\n  slot spoiled\nFR none\nSG 5\n  FIC_chunk_major_protocol_version at bit 0 is 1\nGA\nSG 10\nGA\n"
        "SG 0 list next 19\n5453012301454e050403015356050a01000300\nFR 19\n5453012301454e050403015356050a01000300\n";
    static const char *const cuts[] = {"ch", "HC", "CC", "C", "H", "\n", "SE", "CH", "CH\1", "CH\1\2\3", "SG", "SGx", "G"};
    static const char chunk[] = "\0\3\1\43\1\5\340\203\1\12\1\346";
    static uint8_t c[65535];
    uint8_t s[37];
    size_t i, whole;

    begin();
    CHECK(ends("END 0\n", 0));
    memset(c, 0xFF, sizeof c);
    memcpy(c, chunk, 12);
    chunk_records(c);
    add_frame();
    c[1] = 0x47; /* e 2, s 1: 15 services of 4 bytes, the last without its last byte */
    c[10] = 15;
    memcpy(s + 2, c, 35);
    header_records(s);
    add_pieces(0x32, c, 1);
    clash_records(s);
    memcpy(c, chunk, 12);
    completed_records(c);
    CHECK(want_n == sizeof sample - 1 && memcmp(want, sample, want_n) == 0);
    CHECK(ends("END 0\n", 0) && ends("END 0\n", 1) && ends("END 0\n", 1000));
    for (i = 0, whole = input_n; i < LEN(cuts); i++, input_n = whole) {
        add(cuts[i], strlen(cuts[i]));
        CHECK(ends("END 15\n", i % 3));
    }
}

/* A chunk or a few segments: a chunk's pieces, some of them again, changed, or with another header; or a boundary. */
static void add_some(void)
{
    uint8_t c[MOST], s[37];
    const unsigned last = below(below(4) ? 3 : 16);
    unsigned i;

    memset(c, 0, sizeof c);
    if (below(3) == 0) {
        add_chunk(c, some_chunk(c));
        return;
    }
    some_chunk(c);
    for (i = 0; i <= last + below(3); i++) {
        s[0] = (uint8_t)(below(20) ? 0x30 | (c[1] & 1) << 1 : below(256));
        s[1] = (uint8_t)(i % (last + 1) << 4 | (below(20) ? last : below(16)));
        memcpy(s + 2, c + 35 * (i % (last + 1)), 35);
        s[2 + below(35)] ^= (uint8_t)(below(15) ? 0 : below(256));
        add_segment(s);
    }
    if (below(3))
        add_gathering();
    else if (below(2))
        add_frame();
}

static void program_streams(void)
{
    uint8_t c[PLAIN_CHUNK] = {0, 1, 0, 0, 1, 0, 0, 0, 183};
    unsigned round;

    for (round = 0; round < 12; round++) {
        for (begin(); input_n < (round % 3 ? 300000 : 3000);)
            add_some();
        CHECK(ends("END 0\n", 0) && ends("END 0\n", 1 + below(70000)));
        add("CH\2\60", 4);
        CHECK(ends("END 15\n", 0));
    }
    for (round = 65480; round < 65540; round++) { /* a mark, a length, a chunk and a segment on the end of a block */
        static uint8_t long_one[65540];

        begin();
        add_chunk(long_one, round - 4);
        add_pieces(0x32, c, 0);
        CHECK(ends("END 0\n", 0));
    }
    for (begin(); input_n < 400000;) /* the longest lines */
        add_pieces((uint8_t)(0x32 - 2 * (input_n % 2)), c, 15), add_gathering();
    CHECK(ends("END 0\n", 0));
}

/* Its input comes slowly. */
static void program_waits(void)
{
    CHECK(does("(printf 'GACH\\0'; sleep 0.2; printf '\\1@C'; sleep 0.5; cp test.out test.err) | %s >test.out", 0,
               "GA\nCH 9 at 0\n  ensemble_loop_header_extension_length at bit 8 is 1\nEND 15\n",
               "GA\nCH 9 at 0\n  ensemble_loop_header_extension_length at bit 8 is 1\n"));
}

int main(int argc, char **argv)
{
    names_by_hand();
    chunks_by_hand();
    segments_by_hand();
    slots_by_hand();
    at_random();
    if (argc > 1) {
        program = argv[1];
        program_by_hand();
        program_streams();
        program_waits();
        check_failures("plainexplain");
    } else
        printf("no program given: not tested\n");
    return verdict();
}
