/* Gives the same states, outer packets and outputs to both readers of the tunnel, and the same stores to both readers of stores, and compares every answer,
   every bit of the state and every byte.
   harness_tunnel [--seed N] [--calls M] [--plant ours|plain] [--keep FOLDER], or harness_tunnel --replay FILE
   The input of a difference is written to the folder. How far it has come goes to standard error. */
#include "both.h"
#include "lukasembo.h"
#include "outer.h"
#include "tunnel.h"

#include <string.h>

/* An outer packet; the next packet of a store, whose place the call is given. */
enum { OUTER, STORE, SORTS };

enum { IN_ORDER, RUNS, HEADERS, INNER, LENGTHS, OUTPUTS, STATES, CORNERS, STORES, PHASES };
static const struct phase phases[PHASES] = {
    {"in order", 200}, {"gaps and repeats", 150}, {"headers damaged", 120}, {"inner damaged", 150}, {"lengths", 60}, {"outputs", 60}, {"states", 70},
    {"corners", 110}, {"stores", 80}
};

/* How a result is made wrong; the seed says which. */
enum { STORED_BYTE, BYTE_BEHIND, PART_BYTE, PART_BEHIND, HELD, LAST, LOST, GAP, WATCHED, NEXT_LENGTH, WRONGS };

const struct about about = {phases, PHASES, SORTS, WRONGS, "part", LUKASEMBO_PACKET, sizeof(struct plain_tunnel), 0};
const char kept_mark[5] = "LKT1", kept_word[] = "tunnel";

static struct stream stream;
static struct corner corner;

static struct {
    uint64_t number[256], outers, repeats, gaps, left_out, wraps, packets, ended, losses, lost, parts, stores, read, ends, most;
} seen;

/* ---- One call ---- */

int has_state(void)
{
    return now.sort == OUTER;
}

void print_numbers(const char *who, uint64_t numbers)
{
    printf("%-6s %016llx  held %u, last %u, %s\n", who, (unsigned long long)numbers, (unsigned)(numbers & 0xFFFF),
           (unsigned)(numbers >> 16 & 0xFFFF), numbers >> 32 != 0 ? "begun" : "not begun");
}

void print_answer(const char *who, uint64_t a)
{
    printf("%-6s %016llx  number %u", who, (unsigned long long)a, (unsigned)lukasembo_number(a));
    if (now.sort == STORE)
        printf(", length %zu\n", lukasembo_length(a));
    else
        printf("%s, gap %u, stored %zu, lost %zu\n", lukasembo_repeat(a) ? ", repeat" : "", lukasembo_gap(a), lukasembo_stored(a), lukasembo_lost(a));
}

void print_given(void)
{
    if (now.sort == STORE)
        printf("store %zu bytes, %s, at %zu\n", now.n, place_name(now.spot[INPUT]), (size_t)now.other);
    else
        printf("outer packet %zu bytes, %s; part %s; output %zu bytes, %s\n", now.n, place_name(now.spot[INPUT]), place_name(now.spot[STATE]), now.room,
               place_name(now.spot[BUFFER]));
}

const void *plain_state(void)
{
    static struct plain_tunnel t;

    t.begun = (int)(uint32_t)(now.numbers >> 32);
    t.last = (unsigned)(now.numbers >> 16 & 0xFFFF);
    t.held = (size_t)(now.numbers & 0xFFFF);
    memcpy(t.part, now.memory, sizeof t.part);
    return &t;
}

void call_ours(struct result *to)
{
    const uint8_t *input = lent[OURS][INPUT].at;
    struct lukasembo_step step;

    if (now.sort == STORE) {
        to->answer = lukasembo_next_packet(input, now.n, (size_t)now.other);
        return;
    }
    to->memory = lent[OURS][STATE].at;
    step = lukasembo_unwrap_step(now.numbers, to->memory, input, now.n, lent[OURS][BUFFER].at, now.room);
    to->answer = step.answer;
    to->numbers = step.numbers;
}

void call_plain(struct result *to)
{
    const uint8_t *input = lent[PLAIN][INPUT].at;
    struct plain_tunnel *t = (struct plain_tunnel *)lent[PLAIN][STATE].at;
    struct plain_unwrapped a;

    if (now.sort == STORE) {
        size_t length;
        const int number = plain_next_packet(input, now.n, (size_t)now.other, &length);

        to->answer = (uint64_t)number | (uint64_t)length << 16;
        return;
    }
    a = plain_unwrap(t, input, now.n, lent[PLAIN][BUFFER].at, now.room);
    to->memory = t->part;
    to->answer = (uint64_t)a.number | (uint64_t)(a.repeat != 0) << 8 | (uint64_t)a.gap << 16 | (uint64_t)a.stored << 32 | (uint64_t)a.lost << 48;
    to->numbers = (uint64_t)t->held | (uint64_t)t->last << 16 | (uint64_t)(uint32_t)t->begun << 32;
}

int make_wrong(int side, unsigned how)
{
    struct result *r = &result[side];
    const size_t stored = lukasembo_stored(r->answer), held = (size_t)(r->numbers & 0xFFFF);
    const struct lent *out = &lent[side][BUFFER];

    if ((now.sort == STORE) != (how == NEXT_LENGTH))
        return 0;
    switch (how) {
    case STORED_BYTE: return stored > 0 && flip(out->at + stored - 1);
    case BYTE_BEHIND: return stored < now.room && flip(out->at + stored);
    case PART_BYTE: return held > 0 && held <= LUKASEMBO_PACKET && flip(r->memory + held - 1);
    case PART_BEHIND: return held < LUKASEMBO_PACKET && flip(r->memory + held);
    case HELD: return add_one(&r->numbers, 0);
    case LAST: return add_one(&r->numbers, 16);
    case LOST: return add_one(&r->answer, 48);
    case GAP: return lukasembo_gap(r->answer) > 0 && add_one(&r->answer, 16);
    case WATCHED: return lent[side][STATE].before > 0 && flip(lent[side][STATE].at - 1);
    default: return lukasembo_length(r->answer) > 0 && add_one(&r->answer, 16);
    }
}

size_t written_by(uint64_t a)
{
    return now.sort == STORE ? 0 : lukasembo_stored(a);
}

/* Whether a call changes nothing, by its answer. */
static int changes_nothing(uint64_t a)
{
    return lukasembo_repeat(a) || lukasembo_number(a) == LUKASEMBO_SHORT_BUFFER || lukasembo_number(a) == LUKASEMBO_FOREIGN_OUTER;
}

const char *rules(void)
{
    const struct result *r = &result[OURS];
    const size_t before = part_held(now.memory, (size_t)(now.numbers & 0xFFFF)), stored = lukasembo_stored(r->answer);
    size_t held, own, packets;

    if (now.sort == STORE)
        return NULL;
    if (changes_nothing(r->answer)) {
        if ((r->answer & ~(uint64_t)0x1FF) != 0)
            return "both say more than they may";
        return r->numbers != now.numbers || memcmp(r->memory, now.memory, LUKASEMBO_PACKET) != 0 ? "both change the state" : NULL;
    }
    held = (size_t)(r->numbers & 0xFFFF);
    if (r->numbers != (held | (uint64_t)outer_get(now.input + 2) << 16 | UINT64_C(1) << 32) || part_held(r->memory, held) != held)
        return "both leave a state that they may not";
    if (memcmp(r->memory + held, now.memory + held, LUKASEMBO_PACKET - held) != 0)
        return "both change the part behind what is held";
    own = store_own(lent[OURS][BUFFER].at, stored, &packets);
    if (own == STORE_BROKEN || before + now.n - OUTER_HEADER != own + held + lukasembo_lost(r->answer))
        return "both lose bytes in silence, or store what is no packet";
    return NULL;
}

void count(void)
{
    const uint64_t a = result[OURS].answer;
    const size_t before = part_held(now.memory, (size_t)(now.numbers & 0xFFFF));
    size_t packets;

    seen.number[lukasembo_number(a)]++;
    if (now.sort == STORE) {
        seen.stores++;
        seen.read += lukasembo_length(a) > 0;
        seen.ends += a == 0;
        return;
    }
    store_own(lent[OURS][BUFFER].at, lukasembo_stored(a), &packets);
    seen.outers++;
    seen.packets += packets;
    seen.repeats += lukasembo_repeat(a);
    seen.gaps += lukasembo_gap(a) > 0;
    seen.left_out += lukasembo_gap(a);
    seen.losses += lukasembo_lost(a) > 0;
    seen.lost += lukasembo_lost(a);
    seen.most = lukasembo_stored(a) > seen.most ? lukasembo_stored(a) : seen.most;
    if (changes_nothing(a))
        return;
    seen.parts += (result[OURS].numbers & 0xFFFF) > 0;
    seen.wraps += now.numbers >> 32 != 0 && (now.numbers >> 16 & 0xFFFF) > (result[OURS].numbers >> 16 & 0xFFFF);
    seen.ended += packets > 0 && before > 0 && lukasembo_gap(a) == 0 && memcmp(lent[OURS][BUFFER].at + 4, now.memory, before) == 0;
}

static void hold_outer(const uint8_t *outer, size_t n, size_t room)
{
    now.sort = OUTER;
    now.input = outer;
    now.n = n;
    now.room = room;
    hold();
}

static void fresh(void)
{
    now.numbers = 0;
}

/* ---- The phases: what each holds again and again, until it has had its share ---- */

/* A reader's way through a stream of which all is known. */
struct known {
    size_t payload, packet; /* the next of each; packets are counted that are to come out */
    size_t place;           /* where the first of these begins */
    unsigned sequence;
    unsigned gap;   /* what the next call is to tell */
    size_t dropped; /* and what it drops */
};

/* The call for a payload, with its answer and what it stores. */
static void hold_known(struct known *k)
{
    static uint8_t outer[OUTER_ROOM], store[LUKASEMBO_UNWRAPPED];
    const size_t from = stream.cut[k->payload], to = stream.cut[k->payload + 1];
    size_t n = 0, lost = k->dropped;

    if (k->place > from)
        lost += (k->place < to ? k->place : to) - from;
    for (; k->packet < stream.packets && stream.start[k->packet + 1] <= to; k->packet++)
        n += stream_store(&stream, k->packet, store + n);
    now.known = 1;
    now.want = (uint64_t)k->gap << 16 | (uint64_t)n << 32 | (uint64_t)lost << 48;
    now.want_bytes = store;
    n = stream_outer(&rng, &stream, k->payload++, k->sequence++, outer);
    hold_outer(outer, n, LUKASEMBO_UNWRAPPED + (rng_once_in(&rng, 8) ? rng_below(&rng, 3000) : 0));
    k->gap = 0;
    k->dropped = 0;
}

/* From any payload on: a fresh reader, one without a part, and any other after a gap. */
static void in_order(void)
{
    const unsigned sort = rng_below(&rng, 3);
    struct known k = {0, 0, 0, rng_edge(&rng, 65535), 0, 0};

    stream_any(&rng, &stream, rng_below(&rng, 60000));
    if (rng_once_in(&rng, 2))
        k.payload = rng_below(&rng, (unsigned)stream.payloads + 1);
    while (k.packet < stream.packets && stream.start[k.packet] < stream.cut[k.payload])
        k.packet++;
    k.place = stream.start[k.packet];
    fresh();
    if (sort > 0) {
        make_corner(&rng, &corner);
        memcpy(now.memory, corner.part, LUKASEMBO_PACKET);
        k.gap = sort - 1 + rng_edge(&rng, 65533);
        now.numbers = (uint64_t)((k.sequence - 1 - k.gap) & 0xFFFF) << 16 | UINT64_C(1) << 32 | (sort == 2 ? corner.held : 0);
        k.dropped = part_held(now.memory, (size_t)(now.numbers & 0xFFFF));
    }
    while (k.payload < stream.payloads)
        hold_known(&k);
}

/* Outer packets left out, given again, exchanged, renumbered. */
static void gaps_and_repeats(void)
{
    static uint8_t outer[2][OUTER_ROOM];
    unsigned sequence = rng_once_in(&rng, 2) ? 65536 - rng_below(&rng, 100) : rng_below(&rng, 65536), often = 2 + rng_below(&rng, 30);
    size_t i, n[2];

    stream_any(&rng, &stream, rng_below(&rng, 60000));
    if (rng_once_in(&rng, 4))
        fresh();
    for (i = 0; i + 1 < stream.payloads; i++) {
        const unsigned what = rng_once_in(&rng, often) ? 1 + rng_below(&rng, 5) : 0;

        n[0] = stream_outer(&rng, &stream, i, sequence + (unsigned)i, outer[0]);
        n[1] = stream_outer(&rng, &stream, i + 1, sequence + (unsigned)i + 1, outer[1]);
        if (what == 1) { /* left out */
            i += rng_edge(&rng, 4);
            continue;
        }
        if (what == 2) { /* exchanged */
            hold_outer(outer[1], n[1], any_room(&rng, LUKASEMBO_UNWRAPPED));
            hold_outer(outer[0], n[0], any_room(&rng, LUKASEMBO_UNWRAPPED));
            i++;
            continue;
        }
        if (what == 3) /* renumbered from here on */
            sequence += rng_edge(&rng, 65535);
        hold_outer(outer[0], n[0], any_room(&rng, LUKASEMBO_UNWRAPPED));
        if (what >= 4) /* again, at times with other content */
            hold_outer(outer[0], what == 4 ? n[0] : OUTER_HEADER + rng_below(&rng, OUTER_PAYLOAD), any_room(&rng, LUKASEMBO_UNWRAPPED));
    }
}

/* One damage after another out of these, to one outer packet of a few. */
static void damaged(const uint8_t *damages, unsigned count)
{
    static uint8_t outer[OUTER_ROOM];
    const unsigned sequence = rng_edge(&rng, 65535), often = 1 + rng_below(&rng, 6);
    unsigned turn = rng_below(&rng, count), times;
    size_t i, n;

    stream_any(&rng, &stream, rng_below(&rng, 60000));
    for (i = 0; i < stream.payloads; i++) {
        n = stream_outer(&rng, &stream, i, sequence + (unsigned)i, outer);
        if (rng_once_in(&rng, often))
            for (times = rng_once_in(&rng, 4) ? 1 + rng_below(&rng, 3) : 1; times > 0 && n >= OUTER_HEADER; times--)
                outer_damage(&rng, outer, &n, damages[turn++ % count]);
        hold_outer(outer, n, any_room(&rng, LUKASEMBO_UNWRAPPED));
    }
}

/* The outer packets of a stream in order, for a reader in any state, each to be given in some way. */
static void each_outer(void (*give)(uint8_t *outer, size_t n))
{
    static uint8_t outer[OUTER_ROOM];
    size_t i;

    stream_any(&rng, &stream, 20000);
    for (i = 0; i < stream.payloads; i++)
        give(outer, stream_outer(&rng, &stream, i, (unsigned)(now.numbers >> 16) + 1, outer));
}

/* With every length from 0 to 1,600, and at times the longest that a record has. */
static void give_length(uint8_t *outer, size_t n)
{
    static size_t next;

    if (n < 1600)
        rng_fill(&rng, outer + n, 1600 - n);
    hold_outer(outer, rng_once_in(&rng, 200) ? OUTER_ROOM : next++ % 1601, any_room(&rng, LUKASEMBO_UNWRAPPED));
}

/* With every output from 0 to 4,096 bytes, at times cut, and with a longer one. */
static void give_output(uint8_t *outer, size_t n)
{
    static size_t next;

    hold_outer(outer, rng_once_in(&rng, 8) ? rng_below(&rng, 1700) : n, next++ % (LUKASEMBO_UNWRAPPED + 1));
    hold_outer(outer, n, LUKASEMBO_UNWRAPPED + rng_below(&rng, rng_once_in(&rng, 50) ? BUFFER_ROOM - LUKASEMBO_UNWRAPPED : 8));
}

/* A field of the state, or the part, is other than calls left it: any number, cut, or damaged where it counts. */
static void disturb(void)
{
    const uint64_t held = now.numbers & 0xFFFF;

    switch (rng_below(&rng, 6)) {
    case 0: now.numbers = rng_next(&rng); break;
    case 1: now.numbers ^= held ^ rng_below(&rng, (unsigned)held + 1); break;
    case 2: now.numbers ^= held ^ rng_edge(&rng, LUKASEMBO_PACKET + 1); break;
    case 3: now.numbers ^= UINT64_C(1) << (32 + rng_below(&rng, 32)); break;
    case 4: now.memory[rng_below(&rng, 4)] ^= (uint8_t)(1 + rng_below(&rng, 255)); break;
    default:
        if (rng_once_in(&rng, 2))
            rng_fill(&rng, now.memory, LUKASEMBO_PACKET);
        now.memory[0] = (uint8_t)(0x40 | (now.memory[0] & 15));
        outer_put(now.memory + 2, (unsigned)held + rng_below(&rng, 40));
        break;
    }
}

static void give_disturbed(uint8_t *outer, size_t n)
{
    if (rng_once_in(&rng, 2))
        disturb();
    outer_put(outer + 2, (unsigned)(now.numbers >> 16) + (rng_once_in(&rng, 16) ? rng_below(&rng, 3) : 1));
    hold_outer(outer, n, any_room(&rng, LUKASEMBO_UNWRAPPED));
}

static void corners(void)
{
    make_corner(&rng, &corner);
    now.numbers = corner.held | (uint64_t)corner.last << 16 | (uint64_t)corner.begun << 32;
    memcpy(now.memory, corner.part, LUKASEMBO_PACKET);
    if (rng_once_in(&rng, 16))
        outer_damage(&rng, corner.outer, &corner.n, rng_below(&rng, OUTER_DAMAGES));
    hold_outer(corner.outer, corner.n, any_room(&rng, LUKASEMBO_UNWRAPPED));
}

/* A mark, a length, a byte or the end of a store changed; answers its length. */
static size_t damage_store(uint8_t *store, size_t n, size_t packets)
{
    size_t at = 0;
    unsigned skip;

    for (skip = rng_below(&rng, (unsigned)packets); skip > 0; skip--)
        at += 4 + outer_get(store + at + 2);
    switch (rng_below(&rng, 5)) {
    case 0: store[at + rng_below(&rng, 2)] ^= (uint8_t)(1 + rng_below(&rng, 255)); return n;
    case 1: outer_put(store + at + 2, rng_once_in(&rng, 2) ? INNER_SHORTEST - 1 : INNER_LONGEST + 1); return n;
    case 2: outer_put(store + at + 2, (outer_get(store + at + 2) + rng_below(&rng, 5) - 2) & 0xFFFF); return n;
    case 3: store[rng_below(&rng, (unsigned)n)] ^= (uint8_t)(1 + rng_below(&rng, 255)); return n;
    default: return at + rng_below(&rng, (unsigned)(n - at));
    }
}

/* A store read from its start on, whole, cut, damaged or any bytes; then at any places. */
static void stores(void)
{
    static uint8_t store[BUFFER_ROOM];
    size_t at = 0, n = 0, i;

    stream_any(&rng, &stream, rng_once_in(&rng, 100) ? LONG : 5000);
    for (i = 0; i < stream.packets && n + 4 + INNER_LONGEST < sizeof store; i++)
        n += stream_store(&stream, i, store + n);
    if (i > 0 && !rng_once_in(&rng, 3))
        n = damage_store(store, n, i);
    else if (rng_once_in(&rng, 8))
        rng_fill(&rng, store, n);
    now.sort = STORE;
    now.input = store;
    now.n = n;
    do {
        now.other = at;
        hold();
        at += 4 + lukasembo_length(result[OURS].answer);
    } while (lukasembo_length(result[OURS].answer) > 0 && calls < phase_end);
    for (i = 0; i < 4; i++) {
        now.other = i == 0 ? n + rng_below(&rng, 3) : i == 1 ? (size_t)rng_next(&rng) : rng_below(&rng, (unsigned)n + 8);
        hold();
    }
}

/* ---- All ---- */

void hold_some(int phase)
{
    static const uint8_t header[] = {0, 1, 2, 3, 4, 5, 6, 7, 8}, inner[] = {9, 10, 5, 7, 11, 9, 10, 12, 13};

    switch (phase) {
    case IN_ORDER: in_order(); break;
    case RUNS: gaps_and_repeats(); break;
    case HEADERS: damaged(header, sizeof header); break;
    case INNER: damaged(inner, sizeof inner); break;
    case LENGTHS: each_outer(give_length); break;
    case OUTPUTS: each_outer(give_output); break;
    case STATES: each_outer(give_disturbed); break;
    case CORNERS: corners(); break;
    default: stores(); break;
    }
}

void print_table(void)
{
    print_seen("outer packets", seen.outers);
    print_seen("  0, repeats among them", seen.number[0] - seen.read - seen.ends);
    print_seen("  1", seen.number[1]);
    print_seen("  16", seen.number[16]);
    print_seen("  17", seen.number[17]);
    print_seen("  repeats", seen.repeats);
    print_seen("  gaps", seen.gaps);
    print_seen("  outer packets that gaps left out", seen.left_out);
    print_seen("  sequence numbers that went down (wraps)", seen.wraps);
    print_seen("  packets stored", seen.packets);
    print_seen("  parts that ended", seen.ended);
    print_seen("  parts left", seen.parts);
    print_seen("  calls that lost bytes", seen.losses);
    print_seen("  bytes lost", seen.lost);
    print_seen("  the most that one stored, in bytes", seen.most);
    print_seen("places of stores", seen.stores);
    print_seen("  packets", seen.read);
    print_seen("  ends", seen.ends);
    print_seen("  15", seen.number[15]);
}

int main(int argc, char **argv)
{
    return both(argc, argv, 1700000, replay_kept);
}
