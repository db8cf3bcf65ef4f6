/* Gives the same states, packets and outputs to both writers of the tunnel, and compares every answer, every bit of the state and every byte. The outer packets of
   whole streams go to our own reader too, which has to store the packets that were taken.
   harness_wrap [--seed N] [--calls M] [--plant ours|plain] [--keep FOLDER], or harness_wrap --replay FILE
   The input of a difference is written to the folder. How far it has come goes to standard error. */
#include "both.h"
#include "lukasembo.h"
#include "outer.h"
#include "tunnel.h"

#include <stdlib.h>
#include <string.h>

/* A packet and a close, which are given the state's timestamp and their own; a round trip, of many such, which is given the generator's state at its start. */
enum { PACKET, CLOSE, TRIP, SORTS };

enum { IN_ORDER, OUTPUTS, SIZES, DAMAGED, STATES, TIMES, SEQUENCES, TRIPS, PHASES };
static const struct phase phases[PHASES] = {
    {"in order", 200}, {"outputs", 120}, {"sizes", 100}, {"packets damaged", 100}, {"states", 150}, {"timestamps", 50}, {"sequence numbers", 30},
    {"round trips", 250}
};

/* How a result is made wrong; the seed says which. The last is the outer packets of a round trip. */
enum { WROTE_BYTE, BYTE_BEHIND, LEFT_BYTE, LEFT_BEHIND, NEXT, LEFT, BEGIN, WROTE, TIMESTAMP, WATCHED, SENT_BYTE, WRONGS };

const struct about about = {phases, PHASES, SORTS, WRONGS, "memory", LUKASEMBO_SIZE, sizeof(struct plain_wrapper), 0};
const char kept_mark[5] = "LKO1", kept_word[] = "wrap";

enum {
    SIZE_LEAST = 64,
    TRIP_PACKETS = 1 << 15,
    TRIP_OUTERS = 1 << 17,
    TRIP_BYTES = 1 << 23,
    LONGEST_RUN = 65534 /* outer packets left out of which the reader can tell */
};

static struct stream stream;
static uint8_t packet[BUFFER_ROOM]; /* one that is not of the stream, and more room than it may have */
static uint32_t since;              /* the state's timestamp */

/* The outer packets of a round trip, those left out, and the packets that were taken. */
static struct {
    size_t size, outers, packets;
    size_t from, to;                 /* the run that is left out; none, if they are the same */
    size_t at[TRIP_OUTERS + 1];      /* where each outer packet begins in what is sent */
    size_t payload[TRIP_OUTERS + 1]; /* and its payload, in all the bytes that were taken */
    size_t which[TRIP_PACKETS];      /* of the stream */
    size_t start[TRIP_PACKETS + 1];  /* where it begins, in these bytes */
    uint8_t sent[TRIP_BYTES];
    int again; /* 1: it is a replay */
} trip;

static struct {
    uint64_t packets[256], closes[256], none, one, more, sends, outers, wraps, more_left, begin_behind, most;
    uint64_t trips, read, back, runs, longest, lost;
} seen;

/* ---- The state ---- */

static size_t size_in(uint64_t numbers)
{
    return (size_t)(numbers & 0xFFFF);
}

static unsigned next_in(uint64_t numbers)
{
    return (unsigned)(numbers >> 16 & 0xFFFF);
}

/* By what it means. */
static size_t left_in(uint64_t numbers)
{
    const size_t left = (size_t)(numbers >> 32 & 0xFFFF);

    return left < size_in(numbers) ? left : 0;
}

static size_t begin_in(uint64_t numbers)
{
    return (size_t)(numbers >> 48);
}

static uint64_t numbers_of(size_t size, unsigned next, size_t left, size_t begin)
{
    return (uint64_t)size | (uint64_t)next << 16 | (uint64_t)left << 32 | (uint64_t)begin << 48;
}

static int is_size(size_t size)
{
    return size >= SIZE_LEAST && size <= LUKASEMBO_SIZE;
}

/* How long an output the call has to have: a packet of n bytes, or a close. Where it is refused whatever the output, as long as any. */
static size_t needed(int sort, size_t n)
{
    const size_t size = size_in(now.numbers), left = left_in(now.numbers);

    if (!is_size(size) || n > LUKASEMBO_PACKET)
        return LUKASEMBO_WRAPPED;
    if (sort == CLOSE)
        return left > 0 ? OUTER_HEADER + left : 0;
    return (left + n) / size * (OUTER_HEADER + size);
}

/* ---- One call ---- */

int has_state(void)
{
    return now.sort != TRIP;
}

void print_numbers(const char *who, uint64_t numbers)
{
    printf("%-6s %016llx  size %zu, next %u, left %u, begin %zu\n", who, (unsigned long long)numbers, size_in(numbers), next_in(numbers),
           (unsigned)(numbers >> 32 & 0xFFFF), begin_in(numbers));
}

void print_answer(const char *who, uint64_t a)
{
    printf("%-6s %016llx  number %u, wrote %zu, timestamp %08x\n", who, (unsigned long long)a, (unsigned)lukasembo_number(a), lukasembo_wrote(a),
           (unsigned)(a >> 32));
}

void print_given(void)
{
    if (now.sort == TRIP) {
        printf("size %zu, packets taken %zu, outer packets %zu, of which %zu are left out from %zu on\n", trip.size, trip.packets, trip.outers,
               trip.to - trip.from, trip.from);
        return;
    }
    if (now.sort == CLOSE)
        printf("close");
    else
        printf("packet %zu bytes, %s, timestamp %08x", now.n, place_name(now.spot[INPUT]), (unsigned)now.other);
    printf("; memory %s, timestamp %08x; output %zu bytes, %s\n", place_name(now.spot[STATE]), (unsigned)(now.other >> 32), now.room,
           place_name(now.spot[BUFFER]));
}

const void *plain_state(void)
{
    static struct plain_wrapper w;

    w.size = size_in(now.numbers);
    w.next = next_in(now.numbers);
    w.left = (size_t)(now.numbers >> 32 & 0xFFFF);
    w.begin = begin_in(now.numbers);
    w.timestamp = (uint32_t)(now.other >> 32);
    memcpy(w.bytes, now.memory, sizeof w.bytes);
    return &w;
}

void call_ours(struct result *to)
{
    uint8_t *output = lent[OURS][BUFFER].at;
    struct lukasembo_step step;

    to->memory = lent[OURS][STATE].at;
    if (now.sort == CLOSE)
        step = lukasembo_close_step(now.numbers, (uint32_t)(now.other >> 32), to->memory, output, now.room);
    else
        step = lukasembo_wrap_step(now.numbers, (uint32_t)(now.other >> 32), to->memory, lent[OURS][INPUT].at, now.n, (uint32_t)now.other, output, now.room);
    to->answer = step.answer;
    to->numbers = step.numbers;
}

void call_plain(struct result *to)
{
    struct plain_wrapper *w = (struct plain_wrapper *)lent[PLAIN][STATE].at;
    uint8_t *output = lent[PLAIN][BUFFER].at;
    struct plain_wrapped a;

    if (now.sort == CLOSE)
        a = plain_close(w, output, now.room);
    else
        a = plain_wrap(w, lent[PLAIN][INPUT].at, now.n, (uint32_t)now.other, output, now.room);
    to->memory = w->bytes;
    to->answer = (uint64_t)a.number | (uint64_t)a.wrote << 16 | (uint64_t)w->timestamp << 32;
    to->numbers = numbers_of(w->size, w->next, w->left, w->begin);
}

int make_wrong(int side, unsigned how)
{
    struct result *r = &result[side];
    const size_t wrote = lukasembo_wrote(r->answer), left = left_in(r->numbers);
    const struct lent *out = &lent[side][BUFFER];

    switch (how) {
    case WROTE_BYTE: return wrote > 0 && flip(out->at + wrote - 1);
    case BYTE_BEHIND: return wrote < now.room && flip(out->at + wrote);
    case LEFT_BYTE: return left > 0 && left <= LUKASEMBO_SIZE && flip(r->memory + left - 1);
    case LEFT_BEHIND: return left < LUKASEMBO_SIZE && flip(r->memory + left);
    case NEXT: return wrote > 0 && add_one(&r->numbers, 16);
    case LEFT: return add_one(&r->numbers, 32);
    case BEGIN: return left > 0 && add_one(&r->numbers, 48);
    case WROTE: return add_one(&r->answer, 16);
    case TIMESTAMP: return add_one(&r->answer, 32);
    case WATCHED: return lent[side][STATE].before > 0 && flip(lent[side][STATE].at - 1);
    default: return 0;
    }
}

size_t written_by(uint64_t a)
{
    return lukasembo_wrote(a);
}

/* By the order of the checks. */
static unsigned number_due(void)
{
    const size_t n = now.n;

    if (!is_size(size_in(now.numbers)))
        return LUKASEMBO_BAD_SIZE;
    if (now.sort == PACKET && (n < INNER_SHORTEST || n > INNER_LONGEST || now.input[0] >> 4 != 4 || outer_get(now.input + 2) != n))
        return LUKASEMBO_NOT_CARRIED;
    return now.room < needed(now.sort, n) ? LUKASEMBO_SHORT_BUFFER : LUKASEMBO_ACCEPTED;
}

/* Whether an outer packet has a header of ours, with this sequence number, by the reader's fixed rules and the writer's. */
static int is_outer(const uint8_t *outer, size_t n, unsigned sequence)
{
    const unsigned offset = outer_get(outer + 10);

    if (outer[0] != 0x80 || (outer[1] & 0x7F) != 97 || outer_get(outer + 2) != (sequence & 0xFFFF) || outer_get(outer + 8) != 0x4000)
        return 0;
    return (outer[1] & 0x80) != 0 ? offset < n - OUTER_HEADER : offset == 0;
}

/* Whether the outer packets of an accepted call and what is left then have, one behind the other, what was left and the packet. */
static int is_all_there(size_t each)
{
    static uint8_t all[LUKASEMBO_SIZE + BUFFER_ROOM];
    const struct result *r = &result[OURS];
    const size_t before = left_in(now.numbers), wrote = lukasembo_wrote(r->answer), left = left_in(r->numbers);
    const uint8_t *outer = lent[OURS][BUFFER].at, *end = outer + wrote;
    unsigned sequence = next_in(now.numbers);
    size_t at = 0;

    memcpy(all, now.memory, before);
    memcpy(all + before, now.input, now.n);
    if (wrote > 0 && wrote % each != 0)
        return 0;
    for (; outer < end; outer += each, at += each - OUTER_HEADER)
        if (at + each - OUTER_HEADER > before + now.n || !is_outer(outer, each, sequence++) || memcmp(outer + OUTER_HEADER, all + at, each - OUTER_HEADER) != 0)
            return 0;
    return next_in(r->numbers) == (sequence & 0xFFFF) && at + left == before + now.n && memcmp(r->memory, all + at, left) == 0;
}

/* Whether the state's timestamp and memory are as they were. */
static int is_kept(const struct result *r)
{
    return r->answer >> 32 == now.other >> 32 && memcmp(r->memory, now.memory, LUKASEMBO_SIZE) == 0;
}

const char *rules(void)
{
    const struct result *r = &result[OURS];
    const size_t size = size_in(now.numbers), before = left_in(now.numbers), left = (size_t)(r->numbers >> 32 & 0xFFFF);

    if ((r->answer & 0xFFFF) != number_due() || (number_due() != LUKASEMBO_ACCEPTED && lukasembo_wrote(r->answer) > 0))
        return "both answer what they may not";
    if (number_due() != LUKASEMBO_ACCEPTED)
        return r->numbers != now.numbers || !is_kept(r) ? "both change the state" : NULL;
    if (size_in(r->numbers) != size || left >= size || begin_in(r->numbers) > left)
        return "both leave a state that they may not";
    if (now.sort == CLOSE && (left > 0 || (before == 0 && lukasembo_wrote(r->answer) > 0) || !is_kept(r)))
        return "both leave something behind a close, or send nothing";
    if (memcmp(r->memory + left, now.memory + left, LUKASEMBO_SIZE - left) != 0)
        return "both change the memory behind what is left";
    if (!is_all_there(OUTER_HEADER + (now.sort == CLOSE ? before : size)))
        return "both lose bytes, or write what is no outer packet";
    return NULL;
}

void count(void)
{
    const uint64_t a = result[OURS].answer, size = size_in(now.numbers), wrote = lukasembo_wrote(a);
    const uint64_t outers = wrote == 0 ? 0 : now.sort == CLOSE ? 1 : wrote / (OUTER_HEADER + size);

    seen.most = wrote > seen.most ? wrote : seen.most;
    seen.outers += outers;
    seen.wraps += next_in(now.numbers) > next_in(result[OURS].numbers);
    seen.more_left += (now.numbers >> 32 & 0xFFFF) >= size;
    seen.begin_behind += begin_in(now.numbers) > (now.numbers >> 32 & 0xFFFF);
    if (now.sort == CLOSE) {
        seen.closes[lukasembo_number(a)]++;
        seen.sends += wrote > 0;
        return;
    }
    seen.packets[lukasembo_number(a)]++;
    if (lukasembo_number(a) == LUKASEMBO_ACCEPTED)
        ++*(outers == 0 ? &seen.none : outers == 1 ? &seen.one : &seen.more);
}

/* ---- The calls with their states ---- */

static int hold_next(int sort, const uint8_t *input, size_t n, uint32_t timestamp, size_t room)
{
    now.sort = sort;
    now.input = input;
    now.n = n;
    now.other = (uint64_t)since << 32 | timestamp;
    now.room = room;
    if (!hold())
        return 0;
    since = (uint32_t)(result[OURS].answer >> 32);
    return 1;
}

/* Any, or one about which a byte of it changes. */
static uint32_t any_time(void)
{
    const uint64_t x = rng_next(&rng);

    return (x & 1) != 0 ? (uint32_t)(x >> 32) : ((uint32_t)(x >> 32 & 0xFF) << 8 * (x >> 1 & 3)) - (uint32_t)(x >> 3 & 1);
}

static int hold_packet(const uint8_t *bytes, size_t n, size_t room)
{
    return hold_next(PACKET, bytes, n, any_time(), room);
}

static int hold_close(size_t room)
{
    return hold_next(CLOSE, now.memory, 0, 0, room);
}

static int is_accepted(void)
{
    return lukasembo_number(result[OURS].answer) == LUKASEMBO_ACCEPTED;
}

static void fresh(size_t size, unsigned next)
{
    now.numbers = numbers_of(size, next & 0xFFFF, 0, 0);
}

static size_t room_about(size_t need)
{
    return need > 0 ? any_room(&rng, need) : rng_once_in(&rng, 4) ? rng_below(&rng, LUKASEMBO_WRAPPED) : 0;
}

/* ---- What the phases give ---- */

static size_t any_size(void)
{
    switch (rng_below(&rng, 4)) {
    case 0: return SIZE_LEAST + rng_below(&rng, 3);
    case 1: return LUKASEMBO_SIZE - rng_below(&rng, 3);
    case 2: return SIZE_LEAST + rng_below(&rng, 100);
    default: return SIZE_LEAST + rng_edge(&rng, LUKASEMBO_SIZE - SIZE_LEAST);
    }
}

/* The first sequence number: often one from which a stream comes to 65,535. */
static unsigned any_first(void)
{
    return rng_once_in(&rng, 2) ? 65536 - rng_below(&rng, 100) : rng_edge(&rng, 65535);
}

/* A packet that may be carried, of n bytes. */
static void make_packet(size_t n)
{
    rng_fill(&rng, packet, n);
    packet[0] = (uint8_t)(0x40 | (packet[0] & 15));
    outer_put(packet + 2, (unsigned)n);
}

/* Its length: that which fills up to three payloads, a byte more or less, or any. */
static size_t any_length(void)
{
    const size_t fills = size_in(now.numbers) * (1 + rng_below(&rng, 3)) - left_in(now.numbers), n = fills - 1 + rng_below(&rng, 3);

    if (rng_once_in(&rng, 2) && n >= INNER_SHORTEST && n <= INNER_LONGEST)
        return n;
    return INNER_SHORTEST + rng_edge(&rng, rng_once_in(&rng, 3) ? 60 : INNER_LONGEST - INNER_SHORTEST);
}

/* Makes the packet of n bytes another; answers how many it has. */
static size_t damage(size_t n)
{
    switch (rng_below(&rng, 8)) {
    case 0: return rng_below(&rng, rng_once_in(&rng, 2) ? 5 : (unsigned)n + 1);
    case 1: /* a length outside the limits, and it says so */
        n = length_outside(&rng);
        outer_put(packet + 2, (unsigned)n);
        return n;
    case 2: return n + 1 + rng_below(&rng, 1600);
    case 3: return LONG + n; /* what it says, in 16 bits */
    case 4:
        packet[rng_below(&rng, 4)] ^= (uint8_t)(1u << rng_below(&rng, 8));
        return n;
    default: return inner_spoil(&rng, packet, n);
    }
}

/* A packet made for the state, and damaged once in so many times. */
static void hold_made(unsigned often)
{
    size_t n = any_length();

    make_packet(n);
    if (rng_once_in(&rng, often))
        n = damage(n);
    hold_packet(packet, n, room_about(needed(PACKET, n)));
}

static void hold_any(void)
{
    if (rng_once_in(&rng, 4))
        hold_close(room_about(needed(CLOSE, 0)));
    else
        hold_made(16);
}

/* ---- The phases: what each holds again and again, until it has had its share ---- */

/* A writer's way through a stream of which all is known. The payloads are cut as they are sent. */
struct known {
    size_t size, packet; /* the next one */
    unsigned sequence;
    uint32_t stamp;      /* of what is left */
    size_t n;            /* bytes that the call has to write */
    uint8_t bytes[LUKASEMBO_WRAPPED];
};

/* The next payload goes up to there. */
static void want_outer(struct known *k, size_t to, uint32_t timestamp)
{
    uint8_t *outer = k->bytes + k->n;

    stream.cut[stream.payloads + 1] = to;
    k->n += stream_outer(&rng, &stream, stream.payloads++, k->sequence++, outer);
    outer_put(outer + 4, timestamp >> 16);
    outer_put(outer + 6, timestamp & 0xFFFF);
    outer_put(outer + 8, 0x4000);
    if ((outer[1] & 0x80) == 0)
        outer_put(outer + 10, 0);
}

/* The call is to answer and write that; it has this room or more. */
static size_t want_all(const struct known *k)
{
    now.known = 1;
    now.want = (uint64_t)k->n << 16 | (uint64_t)k->stamp << 32;
    now.want_bytes = k->bytes;
    return k->n + (rng_once_in(&rng, 8) ? rng_below(&rng, 3000) : 0);
}

static void hold_known(struct known *k)
{
    const size_t from = stream.start[k->packet], end = stream.start[++k->packet];
    const uint32_t timestamp = any_time();
    size_t at = stream.cut[stream.payloads];

    k->n = 0;
    for (; end - at >= k->size; at += k->size)
        want_outer(k, at + k->size, at < from ? k->stamp : timestamp);
    if (at >= from)
        k->stamp = timestamp;
    hold_next(PACKET, stream.bytes + from, end - from, timestamp, want_all(k));
}

static void hold_known_close(struct known *k)
{
    const size_t end = stream.start[k->packet];

    k->n = 0;
    if (stream.cut[stream.payloads] < end)
        want_outer(k, end, k->stamp);
    hold_close(want_all(k));
}

static void in_order(void)
{
    static struct known k;
    const unsigned often = rng_once_in(&rng, 2) ? 2 + rng_below(&rng, 30) : 1000;

    stream_any(&rng, &stream, rng_below(&rng, 60000));
    stream.payloads = stream.cut[0] = 0;
    k.size = any_size();
    k.packet = 0;
    k.sequence = any_first();
    k.stamp = since;
    fresh(k.size, k.sequence);
    while (k.packet < stream.packets) {
        hold_known(&k);
        if (rng_once_in(&rng, often))
            hold_known_close(&k);
    }
    hold_known_close(&k);
    hold_known_close(&k);
}

/* One byte short, exact, none, longer, and every length from 0 to the most that a call writes. */
static size_t next_room(size_t need)
{
    static size_t next;

    switch (rng_below(&rng, 6)) {
    case 0: return 0;
    case 1: return need > 0 ? need - 1 : 0;
    case 2: return need + 1 + rng_below(&rng, 40);
    case 3: return rng_once_in(&rng, 50) ? LONG + rng_below(&rng, 2048) : need;
    default: return next++ % (LUKASEMBO_WRAPPED + 1);
    }
}

static void outputs(void)
{
    unsigned turn;

    fresh(any_size(), any_first());
    for (turn = 0; turn < 20; turn++) {
        const size_t n = any_length();
        unsigned tries;

        make_packet(n);
        for (tries = 0; tries < 4; tries++)
            hold_packet(packet, n, next_room(needed(PACKET, n)));
        hold_packet(packet, n, needed(PACKET, n));
        if (rng_once_in(&rng, 4)) {
            hold_close(next_room(needed(CLOSE, 0)));
            hold_close(next_room(needed(CLOSE, 0)));
        }
    }
}

/* Every one from 0 to 1,402 in turn, the limits more often, and any. */
static void sizes(void)
{
    static const uint16_t edges[] = {0, SIZE_LEAST - 1, SIZE_LEAST, SIZE_LEAST + 1, LUKASEMBO_SIZE - 1, LUKASEMBO_SIZE, LUKASEMBO_SIZE + 1, 65535};
    static size_t next;
    const unsigned sort = rng_below(&rng, 8);
    unsigned turn;

    fresh(sort == 0 ? rng_below(&rng, 65536) : sort < 3 ? edges[rng_below(&rng, sizeof edges / sizeof *edges)] : next++ % (LUKASEMBO_SIZE + 3), any_first());
    for (turn = 0; turn < 6; turn++)
        hold_any();
    hold_close(room_about(needed(CLOSE, 0)));
}

static void damaged(void)
{
    const unsigned often = 1 + rng_below(&rng, 6);
    unsigned turn;

    fresh(any_size(), any_first());
    for (turn = 0; turn < 30; turn++) {
        hold_made(often);
        if (rng_once_in(&rng, 10))
            hold_close(room_about(needed(CLOSE, 0)));
    }
}

/* About this place, before it, or any. */
static unsigned place_about(size_t place)
{
    switch (rng_below(&rng, 6)) {
    case 0: return rng_edge(&rng, 65535);
    case 1: return rng_below(&rng, 3);
    case 2: case 3: return (unsigned)(place + rng_below(&rng, 3) - 1) & 0xFFFF;
    default: return rng_below(&rng, (unsigned)place + 1);
    }
}

/* States that calls need not make. */
static void states(void)
{
    const size_t size = rng_once_in(&rng, 8) ? place_about(LUKASEMBO_SIZE) : any_size(), left = place_about(size);
    unsigned turn;

    if (rng_once_in(&rng, 4))
        rng_fill(&rng, now.memory, LUKASEMBO_SIZE);
    now.numbers = numbers_of(size, any_first() & 0xFFFF, left, place_about(left < size ? left : 0));
    if (rng_once_in(&rng, 16))
        now.numbers = rng_next(&rng);
    since = any_time();
    for (turn = rng_below(&rng, 3) + 1; turn > 0; turn--)
        hold_any();
}

/* Another one in the state at times. */
static void timestamps(void)
{
    unsigned turn;

    fresh(SIZE_LEAST + rng_below(&rng, 100), any_first());
    for (turn = 0; turn < 30; turn++) {
        if (rng_once_in(&rng, 3))
            since = any_time();
        hold_any();
    }
}

/* Many outer packets from one call, about the sequence number 65,535. */
static void sequence_numbers(void)
{
    unsigned turn;

    fresh(SIZE_LEAST + rng_below(&rng, 30), 65536 - rng_below(&rng, 60));
    for (turn = 0; turn < 6; turn++) {
        const size_t n = INNER_LONGEST - rng_below(&rng, 700);

        make_packet(n);
        hold_packet(packet, n, room_about(needed(PACKET, n)));
        if (rng_once_in(&rng, 3))
            hold_close(room_about(needed(CLOSE, 0)));
    }
}

/* ---- Round trips ---- */

/* What the last call wrote, in outer packets of so many bytes. */
static void note_outers(size_t each)
{
    size_t wrote = lukasembo_wrote(result[OURS].answer);

    memcpy(trip.sent + trip.at[trip.outers], lent[OURS][BUFFER].at, wrote);
    for (; wrote > 0; wrote -= each, trip.outers++) {
        trip.at[trip.outers + 1] = trip.at[trip.outers] + each;
        trip.payload[trip.outers + 1] = trip.payload[trip.outers] + each - OUTER_HEADER;
    }
}

/* A packet of the stream, which is refused at times for its output and then given again or not. 0 where the phase has had its share, also of those below. */
static int trip_packet(size_t which)
{
    const size_t n = stream.start[which + 1] - stream.start[which];

    do
        if (!hold_packet(stream.bytes + stream.start[which], n, room_about(needed(PACKET, n))))
            return 0;
    while (!is_accepted() && rng_once_in(&rng, 2));
    if (is_accepted()) {
        trip.which[trip.packets++] = which;
        trip.start[trip.packets] = trip.start[trip.packets - 1] + n;
    }
    note_outers(OUTER_HEADER + trip.size);
    return 1;
}

static int trip_close(size_t room)
{
    if (!hold_close(room))
        return 0;
    note_outers(lukasembo_wrote(result[OURS].answer));
    return 1;
}

/* A call that is refused: for the size that its state says, or for a packet that is spoiled. */
static int trip_refused(size_t which)
{
    const unsigned sort = rng_below(&rng, 3);
    size_t n = stream.start[which + 1] - stream.start[which];
    int held;

    memcpy(packet, stream.bytes + stream.start[which], n);
    if (sort == 0)
        n = inner_spoil(&rng, packet, n);
    else
        now.numbers ^= trip.size ^ (rng_once_in(&rng, 2) ? SIZE_LEAST - 1 : LUKASEMBO_SIZE + 1);
    held = sort == 1 ? hold_close(LUKASEMBO_WRAPPED) : hold_packet(packet, n, LUKASEMBO_WRAPPED);
    now.numbers ^= trip.size ^ size_in(now.numbers);
    return held;
}

/* The packets of the stream from its start on, and again until there are so many outer packets; closes and refused calls between them, and a close. */
static int trip_out(size_t outers, unsigned often)
{
    size_t i = 0;

    trip.outers = trip.packets = 0;
    while (i < stream.packets || trip.outers < outers) {
        if (rng_once_in(&rng, often) && !trip_refused(i % stream.packets))
            return 0;
        if (!trip_packet(i++ % stream.packets) || (rng_once_in(&rng, often) && !trip_close(room_about(needed(CLOSE, 0)))))
            return 0;
    }
    return trip_close(needed(CLOSE, 0));
}

/* The first packet taken, from this one on, that has no byte in the run. */
static size_t first_whole(size_t k)
{
    const size_t from = trip.payload[trip.from], to = trip.payload[trip.to];

    for (; k < trip.packets && from < to && trip.start[k] < to && trip.start[k + 1] > from; k++)
        seen.lost++;
    return k;
}

/* Whether these are the packets that have to be stored next. */
static int come_back(const uint8_t *store, size_t n, size_t *next)
{
    uint8_t want[4 + INNER_LONGEST];
    size_t at, length;

    for (at = 0; at < n; at += length) {
        if (*next == trip.packets)
            return 0;
        length = stream_store(&stream, trip.which[*next], want);
        if (length > n - at || memcmp(store + at, want, length) != 0)
            return 0;
        seen.back++;
        *next = first_whole(*next + 1);
    }
    return 1;
}

/* What is wrong with what our reader makes of the outer packets but for the run; null if nothing. */
static const char *trip_back(void)
{
    static uint8_t output[LUKASEMBO_UNWRAPPED];
    struct lukasembo_tunnel tunnel = {0};
    size_t next = first_whole(0), i, lost = 0;

    for (i = trip.from == 0 ? trip.to : 0; i < trip.outers; i = i + 1 == trip.from ? trip.to : i + 1) {
        const uint64_t gap = i == trip.to && trip.from > 0 ? trip.to - trip.from : 0;
        uint64_t answer;

        at_work = OURS;
        answer = lukasembo_unwrap(&tunnel, trip.sent + trip.at[i], trip.at[i + 1] - trip.at[i], output, sizeof output);
        at_work = -1;
        seen.read++;
        lost += lukasembo_lost(answer);
        if ((answer & 0xFFFFFFFF) != gap << 16)
            return "the reader refuses an outer packet, or tells of another gap";
        if (!come_back(output, lukasembo_stored(answer), &next))
            return "the reader stores other packets than were taken";
    }
    if (next != trip.packets)
        return "the reader does not store a packet that was taken";
    return trip.from == trip.to && (lost > 0 || (tunnel.numbers & 0xFFFF) > 0) ? "the reader loses or keeps bytes, and nothing is left out" : NULL;
}

/* The trip at hand, without so many outer packets from that one on. */
static void hold_trip(size_t from, size_t run)
{
    const char *wrong;

    trip.from = from;
    trip.to = from + run;
    wrong = trip_back();
    seen.runs += run > 0;
    seen.longest = run > seen.longest ? run : seen.longest;
    if (wrong == NULL)
        return;
    print_difference(wrong, now.planted);
    if (trip.again)
        printf("a difference\n");
    else
        keep_call();
    exit(1);
}

/* Each of a few runs left out, most of them short. */
static void hold_runs(void)
{
    unsigned turn;

    for (turn = 0; turn < 3 && trip.outers > 0; turn++) {
        const size_t from = rng_edge(&rng, (unsigned)trip.outers - 1), rest = trip.outers - from;
        const size_t most = rng_once_in(&rng, 4) ? LONGEST_RUN : 8;

        hold_trip(from, 1 + rng_below(&rng, (unsigned)(rest < most ? rest : most)));
    }
}

/* One in a few is long enough for the longest run. */
static void round_trip(void)
{
    const uint64_t start = rng.state;
    const uint8_t planted = trip.again ? now.planted : 0;
    const unsigned far = rng_once_in(&rng, 10) ? LONGEST_RUN + 2 + rng_below(&rng, 100) : 0, often = 2 + rng_below(&rng, far > 0 ? 1000 : 40);

    if (far > 0)
        stream_packets(&rng, &stream, rng_once_in(&rng, 2) ? 1000 : INNER_SHORTEST, INNER_LONGEST, STREAM_BYTES);
    else
        stream_any(&rng, &stream, rng_below(&rng, 60000));
    trip.size = far > 0 ? SIZE_LEAST + rng_below(&rng, 8) : any_size();
    fresh(trip.size, any_first());
    if (!trip_out(far, often))
        return;
    now.sort = TRIP;
    now.n = 0;
    now.other = start;
    seen.trips++;
    if (trip.outers > 0 && (planted != 0 || (plant_due() && seed % WRONGS == SENT_BYTE))) {
        now.planted = planted != 0 ? planted : (uint8_t)plant;
        now.how = SENT_BYTE;
        flip(trip.sent + trip.at[trip.outers] - 1);
    }
    hold_trip(0, 0);
    hold_runs();
    if (far > 0)
        hold_trip(1 + rng_below(&rng, (unsigned)trip.outers - 1 - LONGEST_RUN), LONGEST_RUN);
}

/* ---- All ---- */

void hold_some(int phase)
{
    switch (phase) {
    case IN_ORDER: in_order(); break;
    case OUTPUTS: outputs(); break;
    case SIZES: sizes(); break;
    case DAMAGED: damaged(); break;
    case STATES: states(); break;
    case TIMES: timestamps(); break;
    case SEQUENCES: sequence_numbers(); break;
    default: round_trip(); break;
    }
}

static uint64_t sum(const uint64_t *of)
{
    return of[LUKASEMBO_ACCEPTED] + of[LUKASEMBO_SHORT_BUFFER] + of[LUKASEMBO_BAD_SIZE] + of[LUKASEMBO_NOT_CARRIED];
}

void print_table(void)
{
    print_seen("packets", sum(seen.packets));
    print_seen("  0, that filled no payload", seen.none);
    print_seen("  0, one", seen.one);
    print_seen("  0, more", seen.more);
    print_seen("  1", seen.packets[1]);
    print_seen("  18", seen.packets[18]);
    print_seen("  19", seen.packets[19]);
    print_seen("closes", sum(seen.closes));
    print_seen("  0, that sent something", seen.sends);
    print_seen("  0, that had nothing to send", seen.closes[0] - seen.sends);
    print_seen("  1", seen.closes[1]);
    print_seen("  18", seen.closes[18]);
    print_seen("outer packets", seen.outers);
    print_seen("sequence numbers that went down (wraps)", seen.wraps);
    print_seen("states with more left than may be", seen.more_left);
    print_seen("states with a begin past what is left", seen.begin_behind);
    print_seen("the most that one call wrote, in bytes", seen.most);
    print_seen("round trips", seen.trips);
    print_seen("  outer packets that were read", seen.read);
    print_seen("  packets that came back", seen.back);
    print_seen("  runs left out", seen.runs);
    print_seen("  the longest", seen.longest);
    print_seen("  packets that had a byte in one", seen.lost);
}

/* A round trip once more, from the generator's state at its start on. */
static int replay_trip(void)
{
    trip.again = 1;
    rng.state = now.other;
    limit = phase_end = UINT64_MAX;
    round_trip();
    print_call();
    printf("no difference\n");
    return 0;
}

static int replay(const char *name)
{
    const int status = get_call(name);

    if (status != 0)
        return status;
    return now.sort == TRIP ? replay_trip() : replay_call();
}

int main(int argc, char **argv)
{
    return both(argc, argv, 1000000, replay);
}
