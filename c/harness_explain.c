/* Gives the same chunks, segments and slots to both explanations, and compares number, field, offset and value, and the field's name; what is lent has to stay as it
   was.
   harness_explain [--seed N] [--calls M] [--plant ours|plain] [--keep FOLDER], or harness_explain --replay FILE
   The input of a difference is written to the folder. How far it has come goes to standard error. */
#include "both.h"
#include "explain.h"
#include "lukasembo.h"
#include "make.h"

#include <string.h>

/* A chunk; a segment by itself; a segment and the slot of its kind, whose numbers are the state's and whose bytes are its memory. */
enum { CHUNK, SEGMENT, GATHERED, SORTS };

enum { CUT, HEADS, DAMAGED, LENGTHS, HEADERS, SLOTS, PHASES };
static const struct phase phases[PHASES] = {
    {"cut", 240}, {"heads", 120}, {"damaged", 170}, {"lengths", 50}, {"headers", 120}, {"slots", 300}
};

/* How a result is made wrong; the seed says which. */
enum { NUMBER, FIELD, SPARE_BITS, OFFSET, VALUE, SLOT_BYTE, WATCHED, INPUT_BYTE, WRONGS };

const struct about about = {phases, PHASES, SORTS, WRONGS, "slot", 0, MEMORY_MOST, 0};
const char kept_mark[5] = "LKE1", kept_word[] = "explain";

/* The fields that can be at fault. Of a chunk that ran out, those with which a byte begins: it ends with a whole one. */
static const struct {
    uint8_t number, field;
    const char *of;
} faults[] = {
    {2, LUKASEMBO_LENGTH_FIELD, "segment"}, {3, LUKASEMBO_SEGMENT_FIELD, "segment"}, {4, LUKASEMBO_SEGMENT_FIELD + 5, "segment"},
    {5, LUKASEMBO_SEGMENT_FIELD + 3, "segment"}, {6, LUKASEMBO_SEGMENT_FIELD + 6, "segment"}, {7, LUKASEMBO_SPOILED, "slot"},
    {7, LUKASEMBO_SEGMENT_FIELD + 7, "segment"}, {7, LUKASEMBO_PAYLOAD_FIELD, "segment"}, {8, LUKASEMBO_LENGTH_FIELD, "chunk"},
    {5, LUKASEMBO_CHUNK_FIELD, "chunk"}, {9, LUKASEMBO_CHUNK_FIELD, "chunk"}, {9, LUKASEMBO_CHUNK_FIELD + 3, "chunk"},
    {9, LUKASEMBO_CHUNK_FIELD + 7, "chunk"}, {9, LUKASEMBO_CHUNK_FIELD + 8, "chunk"}, {9, LUKASEMBO_CHUNK_FIELD + 9, "chunk"},
    {9, LUKASEMBO_ENSEMBLE_FIELD, "ensemble"}, {9, LUKASEMBO_ENSEMBLE_FIELD + 1, "ensemble"}, {9, LUKASEMBO_ENSEMBLE_FIELD + 3, "ensemble"},
    {9, LUKASEMBO_ENSEMBLE_FIELD + 7, "ensemble"}, {9, LUKASEMBO_ENSEMBLE_FIELD + 8, "ensemble"}, {9, LUKASEMBO_SERVICE_FIELD, "service"},
    {9, LUKASEMBO_SERVICE_FIELD + 1, "service"}, {9, LUKASEMBO_SERVICE_FIELD + 5, "service"}
};
enum { FAULTS = sizeof faults / sizeof *faults };

struct due {
    uint64_t answer, value;
};

static struct make_list list;
static struct made made;
static const struct due *known; /* what is due, where the phase knows it */

static struct {
    uint64_t calls[SORTS], nothing[SORTS], fault[FAULTS];
    uint64_t repeats, spoiled, above, not_reached, cut_place, longer;
} seen;

/* ---- One call ---- */

int has_state(void)
{
    return 1;
}

static unsigned held_in(uint64_t numbers)
{
    return (unsigned)(numbers & 0xFFFF);
}

static unsigned last_in(uint64_t numbers)
{
    return (unsigned)(numbers >> 16 & 0xFF);
}

void print_numbers(const char *who, uint64_t numbers)
{
    printf("%-6s %016llx  %llu\n", who, (unsigned long long)numbers, (unsigned long long)numbers);
}

void print_answer(const char *who, uint64_t a)
{
    printf("%-6s %016llx  number %u, field %02x %s, bit %zu; the value:\n", who, (unsigned long long)a, (unsigned)lukasembo_number(a), lukasembo_field(a),
           lukasembo_field_name(a), lukasembo_bit(a));
}

void print_given(void)
{
    printf("%s %zu bytes, %s", now.sort == CHUNK ? "chunk" : "segment", now.n, place_name(now.spot[INPUT]));
    if (now.sort == GATHERED)
        printf("; slot %llu bytes, %s; held %04x, last %u%s", (unsigned long long)now.other, place_name(now.spot[STATE]), held_in(now.numbers),
               last_in(now.numbers), now.numbers >> 24 != 0 ? ", spoiled" : "");
    printf("\n");
}

const void *plain_state(void)
{
    return now.memory;
}

/* What comes back as the state's numbers is the value. */
void call_ours(struct result *to)
{
    const uint8_t *input = lent[OURS][INPUT].at;
    struct lukasembo_explanation e;

    to->memory = lent[OURS][STATE].at;
    switch (now.sort) {
    case CHUNK: e = lukasembo_explain_chunk(input, now.n); break;
    case SEGMENT: e = lukasembo_explain_segment(input, now.n); break;
    default: e = lukasembo_explain_gathered(input, now.n, now.numbers, to->memory, (size_t)now.other); break;
    }
    to->answer = e.answer;
    to->numbers = e.value;
}

void call_plain(struct result *to)
{
    const uint8_t *input = lent[PLAIN][INPUT].at;
    const struct plain_gathered slot = {(uint16_t)held_in(now.numbers), (uint8_t)last_in(now.numbers), now.numbers >> 24 != 0, lent[PLAIN][STATE].at,
                                        (size_t)now.other};
    struct plain_explanation e;

    to->memory = lent[PLAIN][STATE].at;
    switch (now.sort) {
    case CHUNK: e = plain_explain_chunk(input, now.n); break;
    case SEGMENT: e = plain_explain_segment(input, now.n); break;
    default: e = plain_explain_gathered(input, now.n, &slot); break;
    }
    to->answer = (uint64_t)e.number | (uint64_t)e.table << 12 | (uint64_t)e.row << 8 | (uint64_t)e.bit << 32;
    to->numbers = e.value;
}

int make_wrong(int side, unsigned how)
{
    struct result *r = &result[side];

    switch (how) {
    case NUMBER: return add_one(&r->answer, 0);
    case FIELD: return r->answer != 0 && add_one(&r->answer, 8);
    case SPARE_BITS: return add_one(&r->answer, 16);
    case OFFSET: return lukasembo_bit(r->answer) > 0 && add_one(&r->answer, 32);
    case VALUE: return add_one(&r->numbers, 0);
    case SLOT_BYTE: return now.other > 0 && flip(r->memory + now.other - 1);
    case WATCHED: return lent[side][STATE].before > 0 && flip(lent[side][STATE].at - 1);
    default: return now.n > 0 && flip(lent[side][INPUT].at + now.n - 1);
    }
}

size_t written_by(uint64_t a)
{
    (void)a;
    return 0;
}

/* ---- What holds for every call ---- */

static struct due due(unsigned number, unsigned field, size_t bit, uint64_t value)
{
    const struct due d = {number | (uint64_t)field << 8 | (uint64_t)bit << 32, value};

    return d;
}

/* Of a segment of 37 bytes whose header is sound: the place is compared byte by byte. */
static struct due due_in_slot(const uint8_t *segment)
{
    const unsigned held = held_in(now.numbers), number = segment[1] / 16;
    size_t i;

    if (now.numbers > 0xFFFFFF)
        return due(7, LUKASEMBO_SPOILED, 0, 0);
    if (held > 0 && segment[1] % 16 != last_in(now.numbers))
        return due(7, LUKASEMBO_SEGMENT_FIELD + 7, 12, segment[1] % 16);
    for (i = 0; (held & 1u << number) != 0 && i < LUKASEMBO_PAYLOAD; i++)
        if (number * 35 + i >= now.other || now.memory[number * 35 + i] != segment[2 + i])
            return due(7, LUKASEMBO_PAYLOAD_FIELD, 8 * (2 + i), segment[2 + i]);
    return due(0, 0, 0, 0);
}

/* By the order of the checks. */
static struct due due_to_segment(void)
{
    const uint8_t *s = now.input;

    if (now.n != 37)
        return due(2, LUKASEMBO_LENGTH_FIELD, 0, now.n);
    if (s[0] >= 0x40)
        return due(3, LUKASEMBO_SEGMENT_FIELD, 0, s[0] / 0x40);
    if (s[0] % 2 == 1)
        return due(4, LUKASEMBO_SEGMENT_FIELD + 5, 7, 1);
    if ((s[0] & 0x0C) != 0)
        return due(5, LUKASEMBO_SEGMENT_FIELD + 3, 4, s[0] % 16 / 4);
    if (s[1] / 16 > s[1] % 16)
        return due(6, LUKASEMBO_SEGMENT_FIELD + 6, 8, s[1] / 16);
    return now.sort == SEGMENT ? due(0, 0, 0, 0) : due_in_slot(s);
}

/* Whether an explanation of a chunk goes with the reader's answer: the same number, with 9 a field in the thing that ran out. */
static int goes_with_reader(uint64_t a, uint64_t value)
{
    static uint8_t listing[LUKASEMBO_LISTING];
    const uint64_t read = lukasembo_read(now.input, now.n, listing, sizeof listing);

    if (lukasembo_number(a) != lukasembo_number(read))
        return 0;
    switch (lukasembo_number(read)) {
    case 5: return lukasembo_bit(a) == 0 && value == now.input[0] / 0x40;
    case 8: return lukasembo_bit(a) == 0 && value == now.n;
    case 9: return lukasembo_bit(a) >= 8 * lukasembo_offset(read) && lukasembo_bit(a) <= 8 * now.n && value == now.n;
    default: return a == 0 && value == 0;
    }
}

static int is_named_alike(unsigned field)
{
    return strcmp(lukasembo_field_name((uint64_t)field << 8), plain_field_name((enum plain_table)(field >> 4), field & 15)) == 0;
}

/* Which of the faults an answer tells, or FAULTS. */
static int fault_of(uint64_t a)
{
    int i;

    for (i = 0; i < FAULTS && (faults[i].number != lukasembo_number(a) || faults[i].field != lukasembo_field(a)); i++)
        ;
    return i;
}

const char *rules(void)
{
    const struct result *r = &result[OURS];
    const struct due d = now.sort == CHUNK ? (known != NULL ? *known : due(0, 0, 0, 0)) : due_to_segment();

    if (memcmp(r->memory, now.memory, (size_t)now.other) != 0)
        return "both change the slot's bytes";
    if (!is_named_alike(lukasembo_field(r->answer)) || !is_named_alike(calls & 0xFF))
        return "the header and plain have two names for one field";
    if (r->answer != 0 && fault_of(r->answer) == FAULTS)
        return "both name a field that can't be at fault";
    if ((now.sort != CHUNK || known != NULL) && (r->answer != d.answer || r->numbers != d.value))
        return "both explain it otherwise than is due";
    if (now.sort == CHUNK && !goes_with_reader(r->answer, r->numbers))
        return "both explain it otherwise than the reader answers";
    return NULL;
}

static void count_slot(void)
{
    const unsigned number = now.input[1] >> 4, held = held_in(now.numbers);
    const size_t place = LUKASEMBO_PAYLOAD * number;

    seen.spoiled += now.numbers >> 24 != 0;
    seen.above += last_in(now.numbers) > 15 || (held >> last_in(now.numbers)) > 1;
    seen.longer += now.other > LUKASEMBO_CHUNK;
    seen.not_reached += now.other <= place;
    seen.cut_place += now.other > place && now.other < place + LUKASEMBO_PAYLOAD;
    seen.repeats += result[OURS].answer == 0 && (held >> number & 1) != 0;
}

void count(void)
{
    const uint64_t a = result[OURS].answer;
    const int fault = fault_of(a);

    seen.calls[now.sort]++;
    seen.nothing[now.sort] += a == 0;
    if (fault < FAULTS)
        seen.fault[fault]++;
    if (now.sort == GATHERED && now.n == LUKASEMBO_SEGMENT)
        count_slot();
}

/* ---- What the phases give ---- */

static void hold_next(int sort, const uint8_t *bytes, size_t n, uint64_t numbers, size_t memory)
{
    now.sort = sort;
    now.input = now.want_bytes = bytes;
    now.n = n;
    now.numbers = numbers;
    now.other = memory;
    hold();
    known = NULL;
}

static void hold_chunk(const uint8_t *chunk, size_t n)
{
    hold_next(CHUNK, chunk, n, 0, 0);
}

/* A chunk of any shape, of at most so many bytes. */
static void any_chunk(size_t most)
{
    const struct make_shape shape = make_shape(&rng);

    make_any_chunk(&rng, &list, &shape, most, &made);
}

/* ---- Chunks ---- */

/* What is due to a chunk of n bytes, in a thing that begins at this one. The rows are those of the bytes before its extension, each by the field with which it begins
   or goes on, and then the extension's own. */
static struct due due_at(unsigned table, const uint8_t *rows, unsigned before, unsigned extension, size_t at, size_t n)
{
    const size_t k = n - at; /* the first byte of it that is not there */

    if (k >= before + extension)
        return due(9, table + rows[before] + 1, 8 * n, n);
    if (k >= before)
        return due(9, table + rows[before], 8 * (at + before), n);
    return due(9, table + rows[k], 8 * (k > 0 && rows[k] == rows[k - 1] ? n - 1 : n), n);
}

/* What is due to the list's chunk of this shape, cut to n bytes. */
static struct due due_to_cut(const struct make_shape *shape, size_t n)
{
    static const uint8_t header[] = {0, 3, 7, 7, 8}, ensemble[] = {0, 1, 3, 7}, service[] = {0, 0, 1, 5};
    size_t at = 5 + shape->header;
    unsigned i, j;

    if (n < at)
        return due_at(LUKASEMBO_CHUNK_FIELD, header, 4, shape->header, 0, n);
    for (i = 0; i < list.ensembles; i++) {
        if (n < at + 4 + shape->ensemble)
            return due_at(LUKASEMBO_ENSEMBLE_FIELD, ensemble, 3, shape->ensemble, at, n);
        at += 4 + shape->ensemble;
        for (j = 0; j < list.ensemble[i].services; j++, at += 3 + shape->service)
            if (n < at + 3 + shape->service)
                return due_at(LUKASEMBO_SERVICE_FIELD, service, 3, shape->service, at, n);
    }
    return due(0, 0, 0, 0);
}

/* A sound chunk cut to each of its lengths, if they are not too many, or to some; and whole. */
static void cut(void)
{
    struct due d;
    size_t turn, turns;

    any_chunk(rng_once_in(&rng, 2) ? MAKE_CHUNK : 12 + rng_below(&rng, 100));
    turns = made.n < 100 ? made.n : 60;
    for (turn = 0; turn <= turns; turn++) {
        const size_t n = turn == turns ? made.n : turns == made.n ? turn : rng_below(&rng, (unsigned)made.n);

        d = due_to_cut(&made.shape, n);
        known = &d;
        hold_chunk(made.bytes, n);
    }
}

/* Every pair of first two bytes in its turn, with bodies of up to 40 bytes: any, or with counts that are small. */
static void heads(void)
{
    static unsigned next;
    uint8_t bytes[42];
    unsigned i;

    rng_fill(&rng, bytes, sizeof bytes);
    if (!rng_once_in(&rng, 3))
        for (i = 2; i < sizeof bytes; i++)
            bytes[i] &= 3;
    bytes[0] = (uint8_t)(next >> 8);
    bytes[1] = (uint8_t)next++;
    hold_chunk(bytes, rng_edge(&rng, sizeof bytes));
}

/* One damage or a few, of a chunk with its stuffing or without. */
static void damaged(void)
{
    unsigned times;

    any_chunk(rng_once_in(&rng, 2) ? MAKE_CHUNK : 12 + rng_below(&rng, 100));
    if (rng_once_in(&rng, 2))
        make_stuffing(&rng, &made, (made.n + MAKE_PAYLOAD - 1) / MAKE_PAYLOAD * MAKE_PAYLOAD);
    for (times = 1 + rng_below(&rng, 4); times > 0; times--) {
        make_damage_chunk(&rng, &made, rng_below(&rng, MAKE_CHUNK_DAMAGES));
        if (made.n <= BUFFER_ROOM)
            hold_chunk(made.bytes, made.n);
    }
}

/* Every length up to 562 bytes, of a chunk with stuffing, if there is room for its header, and of any bytes; and lengths that 16 bits do not hold. */
static void lengths(void)
{
    static size_t next;
    const size_t n = next++ % (MAKE_CHUNK + 3), more = rng_once_in(&rng, 32) ? LONG : 0;

    any_chunk(n);
    make_stuffing(&rng, &made, n + more);
    hold_chunk(made.bytes, n + more);
    rng_fill(&rng, made.bytes, n);
    if (!rng_once_in(&rng, 4))
        made.bytes[0] &= 0x3F;
    hold_chunk(made.bytes, n);
}

/* ---- Segments ---- */

/* By itself and, at times, beside a slot that would take it. */
static void hold_segment(const uint8_t *segment, size_t n)
{
    hold_next(SEGMENT, segment, n, 0, 0);
    if (rng_once_in(&rng, 4))
        hold_next(GATHERED, segment, n, 0, rng_edge(&rng, MAKE_CHUNK));
}

/* Every header in its turn, and now and then another length: up to 80 bytes, or one whose low bits are a segment's. */
static void headers(void)
{
    static uint8_t bytes[LONG + 256];
    static unsigned next;
    size_t n = MAKE_SEGMENT;

    rng_fill(&rng, bytes, 80);
    bytes[0] = (uint8_t)(next >> 8);
    bytes[1] = (uint8_t)next++;
    if (rng_once_in(&rng, 8))
        n = rng_once_in(&rng, 8) ? MAKE_SEGMENT + (rng_once_in(&rng, 2) ? 256 : LONG) : rng_edge(&rng, 80);
    hold_segment(bytes, n);
}

/* ---- Slots ---- */

static uint8_t segments[MAKE_PLACES][MAKE_SEGMENT];
static unsigned pieces;

/* Some of the pieces are held, in a slot that is well formed; its numbers. */
static uint64_t gather(void)
{
    const unsigned all = (2u << (pieces - 1)) - 1, sort = rng_below(&rng, 4), one = 1u << rng_below(&rng, pieces);
    const unsigned held = sort == 0 ? all : sort == 1 ? one : sort == 2 ? all & ~one : all & rng_below(&rng, 0x10000);
    unsigned i;

    memset(now.memory, 0, MAKE_CHUNK);
    for (i = 0; i < pieces; i++)
        if ((held >> i & 1) != 0)
            memcpy(now.memory + i * MAKE_PAYLOAD, segments[i] + 2, MAKE_PAYLOAD);
    return held | (uint64_t)(held != 0 ? pieces - 1 : 0) << 16;
}

/* Another slot than calls make, at times: spoiled, with or without what it held; another last number, also above 15; other places held; nothing held, and bytes that
   stay; a byte of the place changed; any. */
static uint64_t disturb(uint64_t numbers, unsigned number)
{
    const uint64_t x = rng_next(&rng);

    switch (x & 15) {
    case 0: return UINT64_C(1) << (24 + (x >> 8) % 40);
    case 1: return numbers | (x >> 24 | 1) << 24;
    case 2: return numbers ^ (x >> 8 & 0xF0) << 16;
    case 3: return numbers ^ (x >> 8 & 0xFF) << 16;
    case 4: return numbers ^ UINT64_C(1) << (x >> 8 & 15);
    case 5: return numbers | 0xFFFF;
    case 6: return numbers & ~UINT64_C(0xFFFF);
    case 7: case 8: now.memory[number * MAKE_PAYLOAD + (x >> 8) % MAKE_PAYLOAD] ^= (uint8_t)(1u << (x >> 24 & 7)); return numbers;
    case 9: rng_fill(&rng, now.memory, MAKE_CHUNK); return x >> (x >> 8 & 1 ? 40 : 0);
    default: return numbers;
    }
}

/* How many bytes the slot has: nearly always 560; else fewer, more often so that the segment's place is cut, or more. */
static size_t any_bytes(unsigned number)
{
    const size_t place = (size_t)number * MAKE_PAYLOAD;
    size_t n;

    switch (rng_below(&rng, 24)) {
    case 0: return rng_edge(&rng, MAKE_CHUNK);
    case 1: case 2: return place + rng_edge(&rng, MAKE_PAYLOAD);
    case 3: n = MAKE_CHUNK + 1 + rng_below(&rng, 300); break;
    case 4: n = rng_once_in(&rng, 64) ? LONG + rng_below(&rng, 40) : MAKE_CHUNK + 1; break;
    default: return MAKE_CHUNK;
    }
    rng_fill(&rng, now.memory + MAKE_CHUNK, n - MAKE_CHUNK);
    return n;
}

/* A piece as it is or with other reserved bits; with a byte changed, each in its turn, or some; with another last number; with a header that is refused or any. */
static void change(uint8_t *segment)
{
    static unsigned next;
    unsigned i;

    switch (rng_below(&rng, 12)) {
    case 0: segment[0] = (uint8_t)((segment[0] & 0xCF) | rng_below(&rng, 4) << 4); break;
    case 1: case 2: case 3: segment[2 + next++ % MAKE_PAYLOAD] ^= (uint8_t)(1 + rng_below(&rng, 255)); break;
    case 4:
        for (i = 2 + rng_below(&rng, 6); i > 0; i--)
            segment[2 + rng_below(&rng, MAKE_PAYLOAD)] ^= (uint8_t)(1u << rng_below(&rng, 8));
        break;
    case 5: case 6: segment[1] = (uint8_t)((segment[1] & 0xF0) | rng_below(&rng, 16)); break;
    case 7: segment[0] = (uint8_t)rng_next(&rng); break;
    case 8: rng_fill(&rng, segment, 2); break;
    default: break;
    }
}

/* A chunk in pieces, each in its turn beside slots that hold some of them. */
static void slots(void)
{
    unsigned turn;

    any_chunk(rng_once_in(&rng, 2) ? MAKE_CHUNK : 12 + rng_below(&rng, MAKE_CHUNK - 12));
    pieces = make_segments(&rng, made.bytes, made.n < MAKE_CHUNK ? made.n : MAKE_CHUNK, made.shape.kind, 0, segments);
    for (turn = 0; turn < 4 * pieces; turn++) {
        uint8_t segment[MAKE_SEGMENT];
        const unsigned number = turn % pieces;
        const uint64_t numbers = disturb(gather(), number);

        memcpy(segment, segments[number], sizeof segment);
        change(segment);
        hold_next(GATHERED, segment, rng_once_in(&rng, 100) ? rng_below(&rng, MAKE_SEGMENT) : MAKE_SEGMENT, numbers, any_bytes(number));
    }
}

/* ---- All ---- */

void hold_some(int phase)
{
    switch (phase) {
    case CUT: cut(); break;
    case HEADS: heads(); break;
    case DAMAGED: damaged(); break;
    case LENGTHS: lengths(); break;
    case HEADERS: headers(); break;
    default: slots(); break;
    }
}

void print_table(void)
{
    static const char *const what[SORTS] = {"chunks", "segments", "segments and slots"};
    char line[80];
    int i;

    for (i = 0; i < SORTS; i++) {
        print_seen(what[i], seen.calls[i]);
        print_seen("  nothing to explain", seen.nothing[i]);
    }
    for (i = 0; i < FAULTS; i++) {
        snprintf(line, sizeof line, "%u %s: %s", faults[i].number, faults[i].of, lukasembo_field_name((uint64_t)faults[i].field << 8));
        print_seen(line, seen.fault[i]);
    }
    print_seen("repeats", seen.repeats);
    print_seen("slots that are spoiled", seen.spoiled);
    print_seen("slots with a last number or a place too great", seen.above);
    print_seen("slots with bytes behind the last place", seen.longer);
    print_seen("slots without a byte of the segment's place", seen.not_reached);
    print_seen("slots with some of them", seen.cut_place);
}

int main(int argc, char **argv)
{
    return both(argc, argv, 1500000, replay_kept);
}
