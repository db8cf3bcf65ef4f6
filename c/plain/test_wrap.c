/* Checks the writer in tunnel.c against each rule of the request by hand, against a model that goes byte by byte, and against the promises for whole streams,
   which the reader takes back; and the program wrap named by the first argument. Prints "ok", or what differs. */
#define _POSIX_C_SOURCE 200809L

#include "check.h"
#include "outer.h"
#include "tunnel.h"

enum { MOST_WROTE = 2824, MOST_ROOM = 8192 };

static struct rng rng = {1};
static struct plain_wrapper writer;
static uint8_t wrote[MOST_ROOM]; /* by the last call */

/* ---- What holds for every call ---- */

static int same_state(const struct plain_wrapper *a, const struct plain_wrapper *b)
{
    return a->size == b->size && a->next == b->next && a->left == b->left && a->begin == b->begin && a->timestamp == b->timestamp
        && memcmp(a->bytes, b->bytes, PLAIN_SIZE_MOST) == 0;
}

/* What came of a call with so much room, and of the memory that it was lent. */
static void check_call(const struct plain_wrapper *before, const struct plain_wrapped *a, const uint8_t *out, size_t room)
{
    CHECK(a->number == 0 || a->number == 1 || a->number == 18 || a->number == 19);
    CHECK(a->wrote <= room && a->wrote <= MOST_WROTE && (a->number == 0 || a->wrote == 0));
    CHECK(room == 0 || all(out + a->wrote, room - a->wrote, 0xA5));
    if (room > 0)
        memcpy(wrote, out, a->wrote);
    if (a->number != 0)
        CHECK(same_state(&writer, before));
    else {
        CHECK(writer.size == before->size && writer.left < writer.size && writer.begin <= writer.left);
        CHECK(a->wrote == 0 ? writer.next == before->next : writer.next < 65536);
        CHECK(memcmp(writer.bytes + writer.left, before->bytes + writer.left, PLAIN_SIZE_MOST - writer.left) == 0);
    }
}

static uint8_t *lend(size_t room)
{
    uint8_t *out = room > 0 ? malloc(room) : NULL;

    if (room > 0)
        memset(out, 0xA5, room);
    return out;
}

/* A call on memories of exactly their lengths. */
static struct plain_wrapped give(const uint8_t *packet, size_t n, uint32_t timestamp, size_t room)
{
    const struct plain_wrapper before = writer;
    uint8_t *in = n > 0 ? malloc(n) : NULL, *out = lend(room);
    struct plain_wrapped a;

    if (n > 0)
        memcpy(in, packet, n);
    a = plain_wrap(&writer, in, n, timestamp, out, room);
    CHECK(n == 0 || memcmp(in, packet, n) == 0);
    check_call(&before, &a, out, room);
    free(in);
    free(out);
    return a;
}

static struct plain_wrapped give_close(size_t room)
{
    const struct plain_wrapper before = writer;
    uint8_t *out = lend(room);
    const struct plain_wrapped a = plain_close(&writer, out, room);

    check_call(&before, &a, out, room);
    CHECK(memcmp(writer.bytes, before.bytes, PLAIN_SIZE_MOST) == 0 && writer.timestamp == before.timestamp);
    CHECK(a.number != 0 || (writer.left == 0 && writer.begin == 0));
    free(out);
    return a;
}

/* ---- By hand ---- */

static uint8_t want[4 * MOST_ROOM]; /* the outer packets that the next call has to write */
static size_t want_n;

/* The header of the next one; offset -1 is no marker. */
static void outer(unsigned sequence, uint32_t timestamp, int offset)
{
    const uint8_t header[12] = {0x80, offset < 0 ? 97 : 225, (uint8_t)(sequence / 256), (uint8_t)(sequence % 256), (uint8_t)(timestamp / 16777216),
                                (uint8_t)(timestamp / 65536), (uint8_t)(timestamp / 256), (uint8_t)timestamp, 0x40, 0x00,
                                (uint8_t)(offset < 0 ? 0 : offset / 256), (uint8_t)(offset < 0 ? 0 : offset % 256)};

    memcpy(want + want_n, header, 12);
    want_n += 12;
}

static uint8_t byte_of(unsigned length, unsigned i)
{
    return i == 0 ? 0x45 : i == 2 ? (uint8_t)(length >> 8) : i == 3 ? (uint8_t)length : (uint8_t)(i * 7 + length);
}

/* Bytes from..to - 1 of the packet of that length. */
static void piece(unsigned length, unsigned from, unsigned to)
{
    for (; from < to; from++)
        want[want_n++] = byte_of(length, from);
}

static void packets(unsigned length, unsigned times)
{
    while (times-- > 0)
        piece(length, 0, length);
}

/* The whole of it; also of one that is too short, its first four bytes. */
static const uint8_t *packet_of(unsigned length)
{
    static uint8_t packet[70000];
    unsigned i;

    for (i = 0; i < length || i < 4; i++)
        packet[i] = byte_of(length, i);
    return packet;
}

/* Whether the call wrote what it had to; the next one has to write nothing, until that is said. */
static int is_want(const struct plain_wrapped *a)
{
    const int good = a->number == 0 && a->wrote == want_n && memcmp(wrote, want, want_n) == 0;

    want_n = 0;
    return good;
}

static int writes(unsigned length, uint32_t timestamp)
{
    const struct plain_wrapped a = give(packet_of(length), length, timestamp, want_n);

    return is_want(&a);
}

static int closes(void)
{
    const struct plain_wrapped a = give_close(want_n);

    return is_want(&a);
}

static int refused(const uint8_t *packet, size_t n, size_t room)
{
    return give(packet, n, 0x0BADCAFE, room).number;
}

static void fresh(size_t size, unsigned first)
{
    plain_wrapper(&writer, size, first);
}

static int is_state(unsigned next, size_t left, size_t begin, uint32_t timestamp)
{
    return writer.next == next && writer.left == left && writer.begin == begin && writer.timestamp == timestamp;
}

/* Whether the memory has, from a place on, the bytes from..to - 1 of a packet. */
static int has_left(size_t at, unsigned length, unsigned from, unsigned to)
{
    for (; from < to; from++)
        if (writer.bytes[at++] != byte_of(length, from))
            return 0;
    return 1;
}

static void fresh_by_hand(void)
{
    static const size_t sizes[] = {0, 1, 63, 64, 65, 1399, 1400, 1401, 65535, 65536 + 64, SIZE_MAX};
    static const unsigned firsts[] = {0, 1, 255, 256, 65535, 65536, 0xFFFFFFFF};
    size_t i, k;

    for (i = 0; i < LEN(sizes); i++)
        for (k = 0; k < LEN(firsts); k++) {
            memset(&writer, 0xEE, sizeof writer);
            fresh(sizes[i], firsts[k]);
            CHECK(writer.size == sizes[i] && is_state(firsts[k], 0, 0, 0) && all(writer.bytes, PLAIN_SIZE_MOST, 0));
        }
}

static void sizes_by_hand(void)
{
    static const size_t bad[] = {0, 1, 12, 28, 62, 63, 1401, 1402, 1500, 65535, 65536, 65536 + 64, 65536 + 1400, SIZE_MAX / 2, SIZE_MAX - 1, SIZE_MAX};
    static const size_t lefts[] = {0, 1, 63, 64, 1400, 1401, SIZE_MAX};
    static const unsigned good[] = {64, 65, 66, 1398, 1399, 1400};
    size_t i, k;

    for (i = 0; i < LEN(bad); i++)
        for (k = 0; k < LEN(lefts); k++) {
            fresh(bad[i], 7);
            writer.left = lefts[k];
            writer.begin = lefts[LEN(lefts) - 1 - k];
            CHECK(refused(packet_of(40), 40, MOST_ROOM) == 18);
            CHECK(refused(packet_of(40), 40, 0) == 18);  /* before 1 */
            CHECK(refused(packet_of(40), 39, 100) == 18); /* before 19 */
            CHECK(refused(packet_of(27), 27, 0) == 18);
            CHECK(refused(NULL, 0, 0) == 18);
            CHECK(give_close(MOST_ROOM).number == 18 && give_close(0).number == 18);
        }
    for (i = 0; i < LEN(good); i++) {
        const unsigned size = good[i];

        fresh(size, 7);
        outer(7, 5, 0);
        piece(1500, 0, size);
        for (k = 1; (k + 1) * size <= 1500; k++) {
            outer(7 + (unsigned)k, 5, -1);
            piece(1500, (unsigned)k * size, (unsigned)(k + 1) * size);
        }
        CHECK(writes(1500, 5) && writer.left == 1500 - k * size && has_left(0, 1500, (unsigned)k * size, 1500));
    }
}

/* The first half byte of a packet; the second may be any. */
static void halves_by_hand(size_t left)
{
    uint8_t packet[40];
    unsigned first;

    for (first = 0; first < 256; first++) {
        fresh(1400, 3);
        CHECK(left == 0 || writes((unsigned)left, 9));
        memcpy(packet, packet_of(40), 40);
        packet[0] = (uint8_t)first;
        if (first >= 0x40 && first < 0x50)
            CHECK(give(packet, 40, 1, 1412).number == 0);
        else
            CHECK(refused(packet, 40, 1412) == 19 && refused(packet, 40, 0) == 19); /* before 1 */
    }
}

/* Its length, what it says and what it is. */
static void lengths_by_hand(size_t left)
{
    static uint8_t packet[70000];
    static const unsigned lengths[] = {0, 1, 4, 20, 27, 28, 29, 39, 40, 41, 255, 256, 1499, 1500, 1501, 1536, 7168, 10240, 65535};
    size_t i, n;

    fresh(1400, 3);
    CHECK(left == 0 || writes((unsigned)left, 9));
    for (i = 0; i < LEN(lengths); i++)
        for (n = 0; n < 1600; n += n < 50 || n > 1490 ? 1 : 97) {
            memcpy(packet, packet_of(lengths[i]), 4);
            CHECK((n == lengths[i] && n >= 28 && n <= 1500) || refused(packet, n, n % 2 ? MOST_ROOM : 0) == 19);
        }
    for (i = 0; i < 28; i++) /* what it says is so, but outside the limits */
        CHECK(refused(packet_of((unsigned)i), i, MOST_ROOM) == 19);
    for (i = 1501; i < 65536; i += i < 1510 ? 1 : 997)
        CHECK(refused(packet_of((unsigned)i), i, MOST_ROOM) == 19);
    memcpy(packet, packet_of(28), 28); /* a length of more than two bytes does not wrap around */
    CHECK(refused(packet, 65536 + 28, MOST_ROOM) == 19);
    CHECK(refused(NULL, 0, 0) == 19 && refused(packet, 3, MOST_ROOM) == 19);
    memset(packet, 0x45, 40); /* it is that of bytes 2 and 3 */
    outer_put(packet, 0x4028);
    outer_put(packet + 4, 40);
    CHECK(refused(packet, 40, MOST_ROOM) == 19);
    outer_put(packet + 2, 40);
    CHECK(give(packet, 40, 9, MOST_ROOM).number == 0);
}

static void small_payloads_by_hand(void)
{
    fresh(64, 10);
    CHECK(writes(28, 1) && is_state(10, 28, 0, 1) && has_left(0, 28, 0, 28));
    CHECK(writes(29, 2) && is_state(10, 57, 0, 1) && has_left(0, 28, 0, 28) && has_left(28, 29, 0, 29));
    outer(10, 1, 0); /* three begin in it: the first counts; of the third 7 bytes */
    packets(28, 1);
    packets(29, 1);
    piece(30, 0, 7);
    CHECK(writes(30, 3) && is_state(11, 23, 23, 3) && has_left(0, 30, 7, 30) && has_left(23, 28, 23, 28));
    CHECK(writes(31, 4) && is_state(11, 54, 23, 3) && has_left(23, 31, 0, 31));
    outer(11, 3, 23); /* it begins with the rest of one */
    piece(30, 7, 30);
    packets(31, 1);
    piece(200, 0, 10);
    outer(12, 5, -1);
    piece(200, 10, 74);
    outer(13, 5, -1);
    piece(200, 74, 138);
    CHECK(writes(200, 5) && is_state(14, 62, 62, 5));
    outer(14, 5, 62); /* two bytes of it, at the payload's end */
    piece(200, 138, 200);
    piece(70, 0, 2);
    outer(15, 6, -1);
    piece(70, 2, 66);
    CHECK(writes(70, 6) && is_state(16, 4, 4, 6));
}

/* Packets that end with a payload, or begin with one. */
static void exact_payloads_by_hand(void)
{
    fresh(64, 14);
    CHECK(writes(63, 5) && is_state(14, 63, 0, 5));
    outer(14, 5, 0); /* one byte of it */
    packets(63, 1);
    piece(65, 0, 1);
    outer(15, 6, -1); /* and the rest */
    piece(65, 1, 65);
    CHECK(writes(65, 6) && is_state(16, 0, 0, 6));
    CHECK(writes(36, 7) && is_state(16, 36, 0, 7));
    outer(16, 7, 0);
    packets(36, 1);
    packets(28, 1);
    CHECK(writes(28, 8) && is_state(17, 0, 0, 8));
    outer(17, 9, 0); /* a packet that is a payload, and one that is two */
    packets(64, 1);
    CHECK(writes(64, 9) && is_state(18, 0, 0, 9));
    outer(18, 10, 0);
    piece(128, 0, 64);
    outer(19, 10, -1);
    piece(128, 64, 128);
    CHECK(writes(128, 10) && is_state(20, 0, 0, 10));
}

static void large_payloads_by_hand(void)
{
    unsigned i;

    fresh(1400, 0);
    for (i = 0; i < 49; i++)
        CHECK(writes(28, 100 + i) && is_state(0, 28 * (i + 1), 0, 100));
    outer(0, 100, 0);
    packets(28, 50);
    CHECK(writes(28, 149) && is_state(1, 0, 0, 149));
    outer(1, 150, 0);
    piece(1500, 0, 1400);
    CHECK(writes(1500, 150) && is_state(2, 100, 100, 150) && has_left(0, 1500, 1400, 1500));
    for (i = 0; i < 46; i++) /* the first that begins, not the last */
        CHECK(writes(28, 151 + i) && is_state(2, 100 + 28 * (i + 1), 100, 150));
    outer(2, 150, 100);
    piece(1500, 1400, 1500);
    packets(28, 46);
    piece(29, 0, 12);
    CHECK(writes(29, 200) && is_state(3, 17, 17, 200));
    CHECK(writes(1382, 201) && is_state(3, 1399, 17, 200));
    outer(3, 200, 17); /* the most that one call writes */
    piece(29, 12, 29);
    packets(1382, 1);
    piece(1500, 0, 1);
    outer(4, 202, -1);
    piece(1500, 1, 1401);
    CHECK(want_n == MOST_WROTE && writes(1500, 202) && is_state(5, 99, 99, 202));
    outer(5, 202, 99); /* the whole packet is there, and the payload is full */
    piece(1500, 1401, 1500);
    packets(1301, 1);
    CHECK(writes(1301, 203) && is_state(6, 0, 0, 203));
    outer(6, 204, 0);
    packets(1400, 1);
    CHECK(writes(1400, 204) && is_state(7, 0, 0, 204));
}

/* Every offset that there is: the rest of a packet, then one that begins. */
static void offsets_by_hand(void)
{
    unsigned size, rest, k;

    for (size = 64; size <= 1400; size += size < 70 || size > 1390 ? 1 : 131)
        for (rest = 0; rest < size && size + rest <= 1500; rest++) {
            fresh(size, rest);
            outer(rest, 1, 0);
            piece(size + rest, 0, size);
            CHECK(writes(size + rest, 1) && is_state(rest + 1, rest, rest, 1));
            outer(rest + 1, rest > 0 ? 1 : 0xFFFFFFFF, (int)rest);
            piece(size + rest, size, size + rest);
            piece(1500, 0, size - rest);
            for (k = 1; (k + 1) * size - rest <= 1500; k++) {
                outer(rest + 1 + k, 0xFFFFFFFF, -1);
                piece(1500, k * size - rest, (k + 1) * size - rest);
            }
            CHECK(writes(1500, 0xFFFFFFFF));
        }
}

static void timestamps_by_hand(void)
{
    static const uint32_t times[] = {0, 1, 0xFF, 0x100, 0xFFFF, 0x10000, 0x01020304, 0x7FFFFFFF, 0x80000000, 0xFFFFFFFF};
    size_t i, k;

    for (i = 0; i < LEN(times); i++)
        for (k = 0; k < LEN(times); k++) {
            fresh(64, 0); /* the first byte's, not the finishing call's; then that of the call which gave the rest */
            CHECK(writes(40, times[i]) && is_state(0, 40, 0, times[i]));
            outer(0, times[i], 0);
            packets(40, 1);
            piece(60, 0, 24);
            CHECK(writes(60, times[k]) && is_state(1, 36, 36, times[k]));
            outer(1, times[k], -1);
            piece(60, 24, 60);
            CHECK(closes() && is_state(2, 0, 0, times[k]));
            CHECK(writes(28, times[i]) && is_state(2, 28, 0, times[i])); /* what was there before the close is gone */
            outer(2, times[i], 0);
            packets(28, 1);
            piece(36, 0, 36);
            CHECK(writes(36, times[k]) && is_state(3, 0, 0, times[k]));
            CHECK(writes(28, times[i]) && is_state(3, 28, 0, times[i]));
        }
}

static void sequences_by_hand(void)
{
    static const unsigned nexts[] = {0, 1, 255, 256, 32767, 32768, 65533, 65534, 65535, 65536, 65537, 131071, 0x7FFFFFFF, 0x80000000, 0xFFFFFFFE, 0xFFFFFFFF};
    size_t i;
    unsigned k;

    for (i = 0; i < LEN(nexts); i++) {
        const unsigned n = nexts[i] % 65536;

        fresh(64, nexts[i]);
        CHECK(closes() && is_state(nexts[i], 0, 0, 0)); /* nothing to send: it does not move */
        CHECK(writes(40, 1) && is_state(nexts[i], 40, 0, 1));
        CHECK(refused(packet_of(40), 39, 0) == 19 && refused(packet_of(40), 40, 75) == 1 && is_state(nexts[i], 40, 0, 1));
        outer(n, 1, 0);
        CHECK(give_close(51).number == 1 && is_state(nexts[i], 40, 0, 1));
        packets(40, 1);
        CHECK(closes() && is_state((n + 1) % 65536, 0, 0, 1));
        for (k = 0; k < 23; k++) { /* many in one call */
            outer((n + 1 + k) % 65536, 2, k == 0 ? 0 : -1);
            piece(1500, 64 * k, 64 * k + 64);
        }
        CHECK(writes(1500, 2) && is_state((n + 24) % 65536, 28, 28, 2));
    }
    fresh(64, 65530); /* a packet that is a payload, one by one */
    for (k = 65530; k < 2 * 65536 + 10; k++) {
        outer(k % 65536, k, 0);
        packets(64, 1);
        CHECK(writes(64, k) && writer.next == (k + 1) % 65536);
    }
}

/* The call with every output length about the one that is needed; a packet of 0 bytes is a close. The state is then as before. */
static void rooms(unsigned length)
{
    const struct plain_wrapper before = writer;
    const size_t need = want_n;
    size_t room;

    for (room = 0; room <= need + 40; room += room < 40 || room + 200 > need ? 1 : 13) {
        struct plain_wrapped a;

        writer = before;
        a = length == 0 ? give_close(room) : give(packet_of(length), length, 77, room);
        if (room < need)
            CHECK(a.number == 1);
        else
            CHECK(a.number == 0 && a.wrote == need && memcmp(wrote, want, need) == 0);
    }
    writer = before;
    want_n = 0;
}

static void rooms_by_hand(void)
{
    unsigned k;

    fresh(64, 9);
    rooms(0);  /* a close with nothing to send */
    rooms(40); /* a packet that finishes nothing */
    CHECK(writes(40, 5));
    outer(9, 5, 0);
    packets(40, 1);
    rooms(0);
    outer(9, 5, 0);
    packets(40, 1);
    piece(28, 0, 24);
    rooms(28);
    outer(9, 5, 0);
    packets(40, 1);
    piece(1500, 0, 24);
    for (k = 0; k < 23; k++) {
        outer(10 + k, 77, -1);
        piece(1500, 24 + 64 * k, 88 + 64 * k);
    }
    CHECK(want_n == 24 * 76);
    rooms(1500);
}

static void large_rooms_by_hand(void)
{
    fresh(1400, 0);
    CHECK(writes(1372, 1));
    outer(0, 1, 0);
    packets(1372, 1);
    rooms(0);
    outer(0, 1, 0);
    packets(1372, 1);
    packets(28, 1);
    rooms(28);
    outer(0, 1, 0);
    packets(1372, 1);
    piece(1428, 0, 28);
    outer(1, 77, -1);
    piece(1428, 28, 1428);
    CHECK(want_n == 2 * 1412);
    rooms(1428);
}

static void closes_by_hand(void)
{
    fresh(64, 5); /* of a fresh writer, twice */
    CHECK(closes() && closes() && is_state(5, 0, 0, 0));
    CHECK(give_close(1).wrote == 0 && give_close(MOST_ROOM).wrote == 0);
    CHECK(writes(30, 1));
    outer(5, 1, 0);
    packets(30, 1);
    CHECK(closes() && is_state(6, 0, 0, 1));
    CHECK(closes() && closes() && is_state(6, 0, 0, 1)); /* nothing is sent again */
    CHECK(has_left(0, 30, 0, 30));                        /* the memory is as it was */
    outer(6, 2, 0); /* writing goes on, in sequence */
    piece(65, 0, 64);
    CHECK(writes(65, 2) && is_state(7, 1, 1, 2));
    outer(7, 2, -1); /* none begins in it: no marker, offset 0 */
    piece(65, 64, 65);
    CHECK(closes() && is_state(8, 0, 0, 2));
    CHECK(writes(28, 3) && writes(29, 4));
    outer(8, 3, 0); /* two that begin */
    packets(28, 1);
    packets(29, 1);
    CHECK(closes() && is_state(9, 0, 0, 3));
    fresh(1400, 65535); /* the longest that is left, and the number after it */
    CHECK(writes(1399, 7));
    outer(65535, 7, 0);
    packets(1399, 1);
    CHECK(closes() && is_state(0, 0, 0, 7));
    fresh(64, 1); /* a full payload has been sent by the call that filled it */
    outer(1, 8, 0);
    packets(64, 1);
    CHECK(writes(64, 8) && closes() && is_state(2, 0, 0, 8));
}

/* A rest, and one that begins behind it. */
static void rests_by_hand(void)
{
    unsigned rest;

    for (rest = 1; rest < 36; rest++) {
        const unsigned i = 7 + 2 * rest;

        fresh(64, i);
        outer(i, 5, 0);
        piece(64 + rest, 0, 64);
        CHECK(writes(64 + rest, 5) && writes(28, 6));
        outer(i + 1, 5, (int)rest);
        piece(64 + rest, 64, 64 + rest);
        packets(28, 1);
        CHECK(closes() && is_state(i + 2, 0, 0, 5));
    }
}

/* A state as no calls make it; its memory is the packet of 1,400 bytes. */
static void any_state(size_t size, size_t left, size_t begin)
{
    fresh(size, 300);
    writer.left = left;
    writer.begin = begin;
    writer.timestamp = 11;
    memcpy(writer.bytes, packet_of(1400), 1400);
}

/* Nothing is left, wherever it may begin. */
static void nothing_by_hand(void)
{
    static const size_t nothing[] = {0, 64, 65, 1399, 1400, 1401, 65536, SIZE_MAX};
    static const size_t begins[] = {0, 1, 29, 30, 31, 63, 64, 1400, SIZE_MAX};
    size_t i, k;

    for (i = 0; i < LEN(nothing); i++)
        for (k = 0; k < LEN(begins); k++) {
            any_state(64, nothing[i], begins[k]);
            CHECK(closes() && is_state(300, 0, 0, 11));
            any_state(64, nothing[i], begins[k]);
            CHECK(writes(30, 12) && is_state(300, 30, 0, 12) && has_left(0, 30, 0, 30) && has_left(30, 1400, 30, 1400));
            any_state(64, nothing[i], begins[k]);
            outer(300, 12, 0);
            piece(70, 0, 64);
            CHECK(writes(70, 12) && is_state(301, 6, 6, 12) && has_left(0, 70, 64, 70) && has_left(6, 1400, 6, 1400));
        }
    any_state(1400, 1400, 0); /* the full memory is nothing, too; one byte less is not */
    CHECK(closes() && is_state(300, 0, 0, 11));
    any_state(1400, 1399, 1398);
    outer(300, 11, 1398);
    piece(1400, 0, 1399);
    CHECK(closes() && is_state(301, 0, 0, 11));
}

/* Forty bytes are left, and a packet begins in them or does not. */
static void begins_by_hand(void)
{
    static const size_t begins[] = {0, 1, 2, 38, 39, 40, 41, 99, 100, 101, 1400, 65536, SIZE_MAX};
    size_t i;

    for (i = 0; i < LEN(begins); i++) {
        const int begin = begins[i] < 40 ? (int)begins[i] : -1, offset = begin < 0 ? 40 : begin;

        any_state(100, 40, begins[i]);
        outer(300, 11, begin);
        piece(1400, 0, 40);
        CHECK(closes() && is_state(301, 0, 0, 11));
        any_state(100, 40, begins[i]);
        CHECK(writes(30, 12) && is_state(300, 70, (size_t)offset, 11) && has_left(0, 1400, 0, 40) && has_left(40, 30, 0, 30));
        any_state(100, 40, begins[i]);
        outer(300, 11, offset);
        piece(1400, 0, 40);
        piece(161, 0, 60);
        outer(301, 12, -1);
        piece(161, 60, 160);
        CHECK(writes(161, 12) && is_state(302, 1, 1, 12) && has_left(0, 161, 160, 161) && has_left(1, 1400, 1, 1400));
    }
}

/* ---- The model ---- */

/* A payload as its bytes come. */
static struct {
    size_t size, held, begin, n;
    unsigned next;
    uint32_t timestamp;
    uint8_t payload[PLAIN_SIZE_MOST], out[MOST_ROOM];
} model;

static void model_send(void)
{
    const int marked = model.begin < model.held;
    const unsigned fields[6] = {marked ? 0x80E1 : 0x8061, model.next % 65536, model.timestamp / 65536, model.timestamp % 65536, 0x4000,
                                marked ? (unsigned)model.begin : 0};
    size_t i;

    for (i = 0; i < 6; i++)
        outer_put(model.out + model.n + 2 * i, fields[i]);
    for (i = 0; i < model.held; i++)
        model.out[model.n + 12 + i] = model.payload[i];
    model.n += 12 + model.held;
    model.next = (model.next + 1) % 65536;
    model.held = 0;
}

static void model_byte(uint8_t byte, int begins, uint32_t timestamp)
{
    if (model.held == 0) {
        model.timestamp = timestamp;
        model.begin = SIZE_MAX;
    }
    if (begins && model.begin == SIZE_MAX)
        model.begin = model.held;
    model.payload[model.held++] = byte;
    if (model.held == model.size)
        model_send();
}

/* The state at hand, byte by byte. */
static void model_begin(void)
{
    const size_t left = writer.left < writer.size ? writer.left : 0;
    size_t i;

    model.size = writer.size;
    model.held = model.n = 0;
    model.begin = SIZE_MAX;
    model.next = writer.next;
    model.timestamp = writer.timestamp;
    for (i = 0; i < left; i++)
        model_byte(writer.bytes[i], i == writer.begin, writer.timestamp);
}

static int is_bad_size(void)
{
    return writer.size < 64 || writer.size > 1400;
}

static int model_wrap(const uint8_t *packet, size_t n, uint32_t timestamp, size_t room)
{
    size_t i;

    model.n = 0;
    if (is_bad_size())
        return 18;
    if (n < 4 || packet[0] / 16 != 4 || outer_get(packet + 2) < 28 || outer_get(packet + 2) > 1500 || outer_get(packet + 2) != n)
        return 19;
    model_begin();
    for (i = 0; i < n; i++)
        model_byte(packet[i], i == 0, timestamp);
    if (room < model.n)
        return 1;
    if (model.held == 0) /* nothing is left: the settled fields */
        model.timestamp = timestamp;
    return 0;
}

static int model_close(size_t room)
{
    const uint32_t timestamp = writer.timestamp;

    model.n = 0;
    if (is_bad_size())
        return 18;
    model_begin();
    if (model.held > 0)
        model_send();
    if (room < model.n)
        return 1;
    model.timestamp = timestamp;
    return 0;
}

static unsigned long seen[20], seen_wrote, seen_many, seen_kept, seen_rest, seen_full;

/* What a call came to, and what the model says; the state before it. */
static void compare(const struct plain_wrapped *a, int number, const struct plain_wrapper *before)
{
    CHECK(a->number == number);
    seen[a->number]++;
    if (number != 0)
        return;
    CHECK(a->wrote == model.n && memcmp(wrote, model.out, model.n) == 0);
    CHECK(writer.left == model.held && writer.begin == (model.begin < model.held ? model.begin : model.held));
    CHECK(writer.timestamp == model.timestamp && writer.next == (model.n > 0 ? model.next : before->next));
    CHECK(memcmp(writer.bytes, model.payload, model.held) == 0);
    seen_wrote += a->wrote > 0;
    seen_many += a->wrote > 2 * (12 + writer.size);
    seen_kept += a->wrote == 0 && model.held > 0;
    seen_rest += writer.left > 0 && writer.begin == writer.left;
    seen_full += a->wrote > 0 && writer.left == 0;
}

static void both_wrap(const uint8_t *packet, size_t n, uint32_t timestamp, size_t room)
{
    const struct plain_wrapper before = writer;
    const int number = model_wrap(packet, n, timestamp, room);
    const struct plain_wrapped a = give(packet, n, timestamp, room);

    compare(&a, number, &before);
}

static void both_close(size_t room)
{
    const struct plain_wrapper before = writer;
    const int number = model_close(room);
    const struct plain_wrapped a = give_close(room);

    compare(&a, number, &before);
}

static size_t any_size(void)
{
    static const size_t edges[] = {0, 1, 63, 64, 65, 1399, 1400, 1401, 65536 + 64, SIZE_MAX};

    switch (rng_below(&rng, 8)) {
    case 0: return edges[rng_below(&rng, LEN(edges))];
    case 1: return 64 + rng_below(&rng, 3);
    case 2: return 1400 - rng_below(&rng, 3);
    case 3: return 64 + rng_below(&rng, 100);
    default: return 64 + rng_edge(&rng, 1336);
    }
}

/* A place about one that matters. */
static size_t any_place(size_t about)
{
    switch (rng_below(&rng, 8)) {
    case 0: return SIZE_MAX - rng_below(&rng, 2);
    case 1: return rng_below(&rng, 3);
    case 2: case 3: return about + rng_below(&rng, 3) - 1;
    case 4: return rng_below(&rng, 3000);
    default: return rng_below(&rng, about < 3000 ? (unsigned)about + 1 : 3000);
    }
}

static size_t any_length(size_t size, size_t left)
{
    const size_t aim = size * (1 + rng_below(&rng, 3)) - left + rng_below(&rng, 3) - 1;

    if (rng_once_in(&rng, 2) && aim >= 28 && aim <= 1500)
        return aim;
    return 28 + rng_edge(&rng, rng_once_in(&rng, 3) ? 60 : 1472);
}

/* A packet of that length or, once in a while, one with a fault. Answers how many bytes it has. */
static size_t any_packet(uint8_t *packet, size_t n)
{
    rng_fill(&rng, packet, 1600);
    packet[0] = (uint8_t)(0x40 | (packet[0] & 15));
    outer_put(packet + 2, (unsigned)n);
    if (!rng_once_in(&rng, 10))
        return n;
    switch (rng_below(&rng, 5)) {
    case 0: packet[0] ^= (uint8_t)((1 + rng_below(&rng, 15)) << 4); return n;
    case 1: outer_put(packet + 2, (unsigned)n + rng_below(&rng, 3) - 1); return n;
    case 2: packet[2 + rng_below(&rng, 2)] ^= (uint8_t)(1u << rng_below(&rng, 8)); return n;
    case 3: return rng_below(&rng, 1600);
    default:
        n = rng_once_in(&rng, 2) ? rng_below(&rng, 28) : 1501 + rng_below(&rng, 99);
        outer_put(packet + 2, (unsigned)n);
        return n;
    }
}

static size_t any_room(size_t need)
{
    switch (rng_below(&rng, 8)) {
    case 0: return rng_below(&rng, (unsigned)need + 1);
    case 1: return need > 0 ? need - 1 : 0;
    case 2: return need + rng_below(&rng, 100);
    default: return need;
    }
}

static void model_corners(void)
{
    static uint8_t packet[1600];
    unsigned round;

    for (round = 0; round < 300000; round++) {
        const uint32_t timestamp = (uint32_t)rng_next(&rng);
        size_t left, n;

        fresh(any_size(), rng_once_in(&rng, 4) ? (unsigned)rng_next(&rng) : rng_edge(&rng, 65535));
        writer.left = any_place(writer.size);
        left = writer.left < writer.size ? writer.left : 0;
        writer.begin = any_place(left);
        writer.timestamp = (uint32_t)rng_next(&rng);
        rng_fill(&rng, writer.bytes, PLAIN_SIZE_MOST);
        n = any_packet(packet, any_length(writer.size, left));
        if (rng_once_in(&rng, 4)) {
            model_close(0);
            both_close(any_room(model.n));
        } else {
            model_wrap(packet, n, timestamp, 0);
            both_wrap(packet, n, timestamp, any_room(model.n));
        }
    }
    CHECK(seen[0] > 100000 && seen[1] > 10000 && seen[18] > 1000 && seen[19] > 10000);
    CHECK(seen_wrote > 10000 && seen_many > 1000 && seen_kept > 10000 && seen_rest > 10000 && seen_full > 1000);
}

/* Every payload size, with every length of a packet that ends about a payload's end. */
static void model_sizes(void)
{
    static uint8_t packet[1600];
    size_t size, left, near, n;

    for (size = 64; size <= 1400; size++) {
        fresh(size, (unsigned)size);
        rng_fill(&rng, writer.bytes, PLAIN_SIZE_MOST);
        for (left = 0; left < size; left += 1 + rng_below(&rng, (unsigned)size / 4))
            for (near = size; near <= left + 1501; near += size)
                for (n = near - left - 1; n <= near - left + 1; n++) {
                    writer.left = left;
                    writer.begin = rng_below(&rng, (unsigned)left + 1);
                    rng_fill(&rng, packet, n);
                    packet[0] = 0x45;
                    outer_put(packet + 2, (unsigned)n);
                    both_wrap(packet, n, (uint32_t)rng_next(&rng), MOST_WROTE);
                    both_close(MOST_WROTE);
                }
    }
}

/* ---- The promises ---- */

enum { MOST_OUTERS = 100000, MOST_SENT = 9 << 20 };

static struct stream stream;
static uint8_t sent[MOST_SENT]; /* the outer packets of a stream, end to end */
static size_t sent_at[MOST_OUTERS + 1], outers, carried; /* where each begins; how many they are, and how many bytes of the stream they have */
static size_t carried_to[MOST_OUTERS + 1];               /* up to each */
static uint8_t came[2 * MOST_SENT], all_stored[2 * MOST_SENT];
static size_t came_n, stored_n;

/* Notes what a call wrote, packets of this length each. */
static void note(const struct plain_wrapped *a, size_t each)
{
    size_t at;

    CHECK(a->number == 0 && a->wrote % each == 0);
    CHECK(outers + a->wrote / each <= MOST_OUTERS && sent_at[outers] + a->wrote <= MOST_SENT);
    if (outers + a->wrote / each > MOST_OUTERS || sent_at[outers] + a->wrote > MOST_SENT)
        return;
    memcpy(sent + sent_at[outers], wrote, a->wrote);
    for (at = 0; at < a->wrote; at += each) {
        CHECK(wrote[at] == 0x80 && wrote[at + 1] % 128 == 97 && outer_get(wrote + at + 8) == 0x4000);
        carried += each - 12;
        carried_to[outers + 1] = carried;
        sent_at[outers + 1] = sent_at[outers] + each;
        outers++;
    }
}

static void note_close(void)
{
    const size_t left = writer.left;
    const struct plain_wrapped a = give_close(MOST_ROOM);

    CHECK(a.wrote == (left > 0 ? 12 + left : 0) && writer.left == 0);
    if (a.wrote > 0)
        note(&a, a.wrote);
}

static void forget_sent(void)
{
    outers = carried = 0;
    carried_to[0] = sent_at[0] = 0;
}

/* Calls that change nothing. */
static void refused_calls(const uint8_t *packet, size_t n)
{
    const size_t size = writer.size, left = writer.left;

    CHECK(refused(packet, n - 1, MOST_ROOM) == 19);
    writer.size = rng_once_in(&rng, 2) ? 63 : 1401;
    CHECK(refused(packet, n, MOST_ROOM) == 18 && give_close(MOST_ROOM).number == 18);
    writer.size = size;
    if (left + n >= size)
        CHECK(refused(packet, n, (left + n) / size * (12 + size) - 1) == 1);
    if (left > 0)
        CHECK(give_close(11 + left).number == 1);
}

/* Writes the stream's packets; a close comes about once in so many (0: none), and refused calls too. The last close is not made. */
static void send_stream(unsigned often)
{
    size_t i;

    for (i = 0; i < stream.packets; i++) {
        const uint8_t *packet = stream.bytes + stream.start[i];
        const size_t n = stream.start[i + 1] - stream.start[i];
        struct plain_wrapped a;

        if (often > 0 && rng_once_in(&rng, often))
            note_close();
        if (often > 0 && rng_once_in(&rng, often))
            refused_calls(packet, n);
        a = give(packet, n, (uint32_t)rng_next(&rng), MOST_WROTE);
        note(&a, 12 + writer.size);
    }
}

/* Against the streams' own outer packets: the marker, the offset and the payload of each. */
static void check_against_stream(unsigned first)
{
    static uint8_t o[OUTER_LONGEST];
    size_t i, n;

    stream.payloads = outers;
    memcpy(stream.cut, carried_to, (outers + 1) * sizeof *carried_to);
    for (i = 0; i < outers; i++) {
        const uint8_t *ours = sent + sent_at[i];

        n = stream_outer(&rng, &stream, i, first + (unsigned)i, o);
        CHECK(sent_at[i + 1] - sent_at[i] == n && memcmp(ours, o, 4) == 0 && memcmp(ours + 12, o + 12, n - 12) == 0);
        CHECK(outer_get(ours + 10) == (o[1] < 128 ? 0 : outer_get(o + 10)));
    }
}

/* Gives the outer packets from..to - 1 to a reader. Whether none is refused or a repeat; *gaps is how often there was one. */
static int feed(struct plain_tunnel *reader, size_t from, size_t to, unsigned *gaps)
{
    int good = 1;

    for (; from < to; from++) {
        const struct plain_unwrapped a = plain_unwrap(reader, sent + sent_at[from], sent_at[from + 1] - sent_at[from], came + came_n, PLAIN_UNWRAPPED);

        came_n += a.stored;
        good &= a.number == 0 && !a.repeat;
        *gaps += a.gap > 0;
    }
    return good;
}

/* The stream so many times over, without the packets that have a byte from x to y - 1. */
static void store_all_but(size_t times, size_t x, size_t y)
{
    const size_t whole = stream.start[stream.packets];
    size_t k, i;

    stored_n = 0;
    for (k = 0; k < times; k++)
        for (i = 0; i < stream.packets; i++)
            if (k * whole + stream.start[i + 1] <= x || k * whole + stream.start[i] >= y)
                stored_n += stream_store(&stream, i, all_stored + stored_n);
}

/* The run a..b - 1 left out; none, if they are the same. */
static void leave_out(size_t times, size_t a, size_t b)
{
    struct plain_tunnel reader;
    unsigned gaps = 0;

    memset(&reader, 0, sizeof reader);
    came_n = 0;
    CHECK(feed(&reader, 0, a, &gaps) && feed(&reader, b, outers, &gaps));
    CHECK(gaps == (a > 0 && a < b && b < outers));
    store_all_but(times, carried_to[a], carried_to[b]);
    CHECK(came_n == stored_n && memcmp(came, all_stored, came_n) == 0);
    CHECK(b == outers || reader.held == 0);
}

static void any_stream(unsigned round)
{
    const unsigned sizes = rng_below(&rng, 4), least = 28 + (sizes < 2 ? 0 : rng_edge(&rng, 1472));

    stream_packets(&rng, &stream, least, sizes % 2 ? 1500 : least > 1420 ? 1500 : least + rng_below(&rng, 80), rng_below(&rng, round % 4 ? 6000 : 60000));
}

static void promises(void)
{
    unsigned round, i;

    for (round = 0; round < 4000; round++) {
        const unsigned first = rng_once_in(&rng, 2) ? 65536 - rng_below(&rng, 60) : rng_below(&rng, 65536);

        any_stream(round);
        forget_sent();
        do
            fresh(any_size(), first);
        while (is_bad_size());
        send_stream(round % 2 ? 0 : 1 + rng_below(&rng, 12));
        note_close();
        note_close();
        CHECK(carried == stream.start[stream.packets]); /* each byte once */
        check_against_stream(first);
        leave_out(1, 0, 0);
        for (i = 0; i < 3 && outers > 0; i++) {
            const size_t a = rng_edge(&rng, (unsigned)outers - 1);

            leave_out(1, a, a + 1 + (rng_once_in(&rng, 2) ? 0 : rng_below(&rng, (unsigned)(outers - a))));
        }
    }
}

/* Runs as long as may be, and one longer. */
static void promise_long_gap(void)
{
    static const size_t runs[] = {65534, 65533, 65534, 32768, 40000, 65534};
    struct plain_tunnel reader;
    unsigned round, gaps = 0;
    size_t times, a;

    for (round = 0; round < LEN(runs); round++) {
        stream_packets(&rng, &stream, 28, round % 2 ? 28 : 1500, STREAM_BYTES);
        forget_sent();
        fresh(64 + round, 65535 - 7 * round);
        for (times = 0; outers < 65560 && times < 12; times++)
            send_stream(round % 3 ? 0 : 3);
        note_close();
        CHECK(outers >= 65560);
        if (outers < 65560)
            return;
        a = 1 + rng_below(&rng, (unsigned)(outers - runs[round]) - 1);
        leave_out(times, a, a + runs[round]);
        leave_out(times, 0, 0);
    }
    memset(&reader, 0, sizeof reader); /* one more is a repeat */
    came_n = 0;
    CHECK(feed(&reader, 0, 5, &gaps) && gaps == 0);
    CHECK(plain_unwrap(&reader, sent + sent_at[5 + 65535], sent_at[5 + 65536] - sent_at[5 + 65535], came + came_n, PLAIN_UNWRAPPED).repeat);
}

/* ---- The program ---- */

static char report[400000];
static size_t report_n;

static void add_packet(const uint8_t *packet, size_t n)
{
    const uint8_t head[4] = {'I', 'P', (uint8_t)(n >> 8), (uint8_t)n};

    add(head, 4);
    add(packet, n);
}

static void add_time(uint32_t timestamp)
{
    const uint8_t record[6] = {'T', 'I', (uint8_t)(timestamp >> 24), (uint8_t)(timestamp >> 16), (uint8_t)(timestamp >> 8), (uint8_t)timestamp};

    add(record, 6);
}

static void expect_outers(size_t n, size_t each)
{
    size_t at;

    for (at = 0; at < n; at += each) {
        memcpy(came + came_n, "OP", 2);
        outer_put(came + came_n + 2, (unsigned)each);
        memcpy(came + came_n + 4, wrote + at, each);
        came_n += 4 + each;
    }
}

/* One record of the file, at a place; its length, or 0 where the file is refused there. */
static size_t expect_record(size_t at, size_t number, uint32_t *timestamp)
{
    const size_t there = input_n - at;
    size_t n;
    struct plain_wrapped a;

    if (there >= 6 && memcmp(input + at, "TI", 2) == 0) {
        *timestamp = (uint32_t)outer_get(input + at + 2) * 65536 + outer_get(input + at + 4);
        return 6;
    }
    n = there < 4 ? 0 : outer_get(input + at + 2);
    if (n < 28 || n > 1500 || there < 4 + n || memcmp(input + at, "IP", 2) != 0)
        return 0;
    a = give(input + at + 4, n, *timestamp, MOST_WROTE);
    expect_outers(a.wrote, 12 + writer.size);
    if (a.number != 0)
        report_n += (size_t)sprintf(report + report_n, "IP %zu %d\n", number, a.number);
    return 4 + n;
}

/* What the file so far must give, in came and in report. */
static void expect_file(size_t size)
{
    size_t at = 0, record = 0, length = 1;
    uint32_t timestamp = 0;
    struct plain_wrapped a;

    fresh(size, 0);
    came_n = report_n = 0;
    while (at < input_n && length > 0) {
        length = expect_record(at, ++record, &timestamp);
        at += length;
    }
    a = give_close(MOST_WROTE);
    if (a.wrote > 0)
        expect_outers(a.wrote, a.wrote);
    report_n += (size_t)sprintf(report + report_n, "END %d\n", length > 0 ? 0 : 15);
}

/* With the word for that size; none, if it is 0. */
static int wraps(size_t size, size_t piece)
{
    char words[64] = ">test.out 2>test.err";

    expect_file(size == 0 ? 1400 : size);
    if (size > 0)
        snprintf(words, sizeof words, "%zu >test.out 2>test.err", size);
    return run_program(words, piece) == 0 && has("test.out", came, came_n) && has("test.err", report, report_n);
}

static int is_report(const char *text)
{
    return report_n == strlen(text) && memcmp(report, text, report_n) == 0;
}

/* Each sort of record, and each line of a report. */
static void program_by_hand(void)
{
    static const uint8_t first[] = {'O', 'P', 0, 76, 0x80, 0xE1, 0, 0, 0, 0, 0, 0, 0x40, 0, 0, 0, 0x45, 7, 0, 40};
    static const uint8_t second[] = {'O', 'P', 0, 76, 0x80, 0xE1, 0, 1, 1, 2, 3, 4, 0x40, 0, 0, 6};
    static const uint8_t third[] = {'O', 'P', 0, 14, 0x80, 0x61, 0, 2, 0xFF, 0xFF, 0xFF, 0xFF, 0x40, 0, 0, 0};
    uint8_t packet[100];

    input_n = 0;
    memcpy(packet, packet_of(40), 40);
    packet[1] = 7;
    add_packet(packet, 40);        /* 1: before the first timestamp */
    add_time(0x01020304);          /* 2 */
    add_packet(packet_of(41), 40); /* 3: says another length */
    add_packet(packet_of(30), 30); /* 4: finishes the first, of which 6 bytes go on */
    packet[0] = 0x65;
    add_packet(packet, 40);        /* 5: not IPv4 */
    add_time(0);
    add_time(0xFFFFFFFF);          /* 7 */
    add_packet(packet_of(60), 60); /* finishes the second; of it 2 go on */
    CHECK(wraps(64, 0) && is_report("IP 3 19\nIP 5 19\nEND 0\n"));
    CHECK(came_n == 80 + 80 + 18 && memcmp(came, first, 20) == 0 && memcmp(came + 80, second, 16) == 0 && memcmp(came + 160, third, 16) == 0);
    CHECK(wraps(64, 1) && wraps(65, 0) && wraps(1400, 5));
    CHECK(wraps(0, 0) && came_n == 4 + 12 + 130 && came[3] == 142);
}

static void program_ends(void)
{
    static const struct {
        const char *bytes;
        size_t n;
    } ends[] = {{"OP\0\34", 4}, {"ip\0\34", 4}, {"PI\0\34", 4}, {"IT", 2}, {"I", 1}, {"T", 1}, {"\n", 1}, {"IJ\0\34", 4}, {"\0\0", 2}, {"TP", 2}, {"TI", 2},
                {"TI\0\0\0", 5}, {"IP", 2}, {"IP\0", 3}, {"IP\5", 3}, {"IP\0\0", 4}, {"IP\0\33", 4}, {"IP\5\335", 4}, {"IP\377\377", 4}, {"IP\0\34", 4},
                {"IP\5\334", 4}, {"II", 2}, {"TT", 2}};
    const size_t whole = input_n;
    size_t i, size;

    for (size = 64; size <= 130; size += 66) { /* with something left to close, and without */
        for (i = 0; i < LEN(ends); i++) {
            input_n = whole;
            add(ends[i].bytes, ends[i].n);
            CHECK(wraps(size, i % 2) && report_n > 7 && memcmp(report + report_n - 7, "END 15\n", 7) == 0);
            add(packet_of(28), 28); /* a packet's bytes behind it, or a timestamp's, and a record */
            add_packet(packet_of(28), 28);
            CHECK(wraps(size, 7 * (i % 3)));
            input_n = whole + ends[i].n;
            add(packet_of(28), 4);
            add_packet(packet_of(150), 150);
            CHECK(wraps(size, 7 * (i % 3)));
        }
        for (input_n = whole; input_n > 0; input_n--) /* cuts */
            CHECK(wraps(size, input_n % 2 ? 0 : 9));
    }
    CHECK(wraps(0, 0) && came_n == 0 && is_report("END 0\n")); /* an empty file */
    add_time(5);
    CHECK(wraps(0, 0) && came_n == 0 && is_report("END 0\n"));
}

/* Whole records of each length, and one behind them. */
static void program_lengths(void)
{
    static const unsigned lengths[] = {0, 1, 4, 26, 27, 28, 29, 1499, 1500, 1501, 1502, 1536, 7168, 65535};
    size_t i;

    for (i = 0; i < LEN(lengths); i++) {
        const int good = lengths[i] >= 28 && lengths[i] <= 1500;

        input_n = 0;
        add_packet(packet_of(lengths[i]), lengths[i]);
        add_packet(packet_of(150), 150);
        CHECK(wraps(64, 0) && is_report(good ? "END 0\n" : "END 15\n") && (came_n > 0) == good);
    }
}

static void add_any_records(size_t bytes)
{
    static uint8_t packet[1600];

    while (input_n < bytes) {
        size_t n = any_packet(packet, 28 + rng_edge(&rng, rng_once_in(&rng, 2) ? 40 : 1472));

        if (n < 28 || n > 1500)
            n = 28;
        add_packet(packet, n);
        if (rng_once_in(&rng, 6))
            add_time((uint32_t)rng_next(&rng));
    }
}

static void program_streams(void)
{
    static const size_t sizes[] = {64, 65, 200, 700, 1399, 1400, 0};
    unsigned round;
    size_t i;

    for (round = 0; round < 70; round++) {
        const size_t size = sizes[round % LEN(sizes)];

        input_n = 0;
        add_any_records(3000 + 65536u * (round % 4));
        CHECK(wraps(size, 0));
        if (round % 6 == 0)
            CHECK(wraps(size, 1 + rng_below(&rng, 60000)));
        input_n -= 1 + rng_below(&rng, 30);
        CHECK(wraps(size, 0));
    }
    input_n = 0; /* nothing but lines, and nothing but timestamps */
    for (i = 0; i < 20000; i++)
        add_packet(packet_of(29), 28);
    CHECK(wraps(64, 0));
    input_n = 0;
    for (i = 0; i < 30000; i++)
        add_time((uint32_t)i);
    add_packet(packet_of(28), 28);
    CHECK(wraps(64, 0));
    for (i = 65530; i < 65545; i++) { /* a mark, a length, a timestamp and a packet on the end of a block */
        input_n = 0;
        while (input_n < i - 3000)
            add_packet(packet_of(100), 100);
        add_packet(packet_of((unsigned)(i - input_n) / 2), (i - input_n) / 2);
        add_packet(packet_of((unsigned)(i - input_n) - 4), i - input_n - 4);
        CHECK(input_n == i);
        add_time((uint32_t)i * 77777);
        add_packet(packet_of(1500), 1500);
        CHECK(wraps(64, 0) && wraps(1400, 0));
    }
}

static void program_words(void)
{
    static const struct {
        const char *words;
        int status;
    } given[] = {{"''", 18}, {"0", 18}, {"63", 18}, {"64", 0}, {"0064", 0}, {"1400", 0}, {"00000000000000000000000001400", 0}, {"1401", 18}, {"65600", 18},
                 {"4294967360", 18}, {"18446744073709551680", 18}, {"99999999999999999999999999999999999999999", 18}, {"'6 4'", 18}, {"' 64'", 18},
                 {"'64 '", 18}, {"+64", 18}, {"-64", 18}, {"64x", 18}, {"0x64", 18}, {"64.", 18}, {"'64\n'", 18}, {"--help", 18}, {"64 64", 2}, {"64 ''", 2},
                 {"63 64", 2}, {"x y z", 2}};
    char words[200];
    size_t i;

    input_n = 0;
    add_packet(packet_of(1500), 1500);
    for (i = 0; i < LEN(given); i++) {
        snprintf(words, sizeof words, "%s >test.out 2>test.err", given[i].words);
        CHECK(run_program(words, 0) == 256 * given[i].status);
        if (given[i].status != 0)
            CHECK(has("test.out", "", 0));
        if (given[i].status == 18)
            CHECK(has("test.err", "wrap: refused with 18\n", 22));
        if (given[i].status == 0) {
            expect_file(strchr(given[i].words, '6') != NULL ? 64 : 1400);
            CHECK(has("test.out", came, came_n) && has("test.err", "END 0\n", 6));
        }
    }
    snprintf(words, sizeof words, "{ %s 63 2>test.err; cat >test.out; } <test.in", program); /* nothing is read */
    CHECK(system(words) == 0 && has("test.out", input, input_n));
}

/* Its input comes slowly, and after half a second it has written this, on the stream of that name. */
static int slowly(const char *prints, const char *stream, const void *written, size_t n)
{
    char command[600];

    snprintf(command, sizeof command, "(%s; sleep 0.5; cp test.%s test.in) | %s 64 >test.out 2>test.err", prints, stream, program);
    return system(command) == 0 && has("test.in", written, n);
}

/* What a record gives is written as soon as it is whole; one that is refused is so by its mark or its length. */
static void program_slow(void)
{
    static const char *const ends[] = {"printf XX", "printf 'TIabcdI '", "printf 'IP\\0\\033'", "printf 'IP\\5\\335'; sleep 0.1",
                                       "printf 'IP\\0'; sleep 0.1; printf '\\033E'"};
    static const char half[] = "printf 'IP\\0'; sleep 0.1; printf '\\034E\\0\\0\\035'; sleep 0.1; printf 'abcdefghijklmnopqrstuvwx'";
    size_t i;

    for (i = 0; i < LEN(ends); i++)
        CHECK(slowly(ends[i], "err", "END 15\n", 7));
    CHECK(slowly(half, "err", "IP 1 19\n", 8) && has("test.err", "IP 1 19\nEND 0\n", 14));
    input_n = 0;
    add_packet(packet_of(64), 64);
    add_packet(packet_of(28), 28);
    expect_file(64); /* a payload, and what a close sends */
    CHECK(run_program(">test.out 2>test.err", 0) == 0 && came_n == 80 + 44);
    CHECK(system("cp test.in test.given") == 0);
    CHECK(slowly("cat test.given", "out", came, 80) && has("test.out", came, came_n));
    remove("test.given");
}

/* What it reads and writes fails. */
static void program_fails(void)
{
    static const char *const outputs[] = {">/dev/full 2>/dev/null", ">&- 2>/dev/null", ">/dev/null 2>/dev/full"};
    char command[600];
    size_t i;

    input_n = 0;
    while (input_n < 200000)
        add_packet(packet_of(28), 28);
    for (i = 0; i < LEN(outputs); i++)
        CHECK(run_program(outputs[i], 0) == 256);
    CHECK(run_program("2>/dev/null | head -c 1 >test.out", 0) == 0 && has("test.out", "O", 1));
    snprintf(command, sizeof command, "(%s <test.in 2>/dev/null; echo $? >test.err) | head -c 1 >test.out", program);
    CHECK(system(command) == 0 && has("test.err", "0\n", 2));
    input_n = 0;
    add_packet(packet_of(28), 28);
    CHECK(run_program(">/dev/full 2>test.err", 0) == 256); /* the close alone; then there is no last line */
    CHECK(has("test.err", "plainwrap: standard output could not be written: No space left on device\n", 73));
    snprintf(command, sizeof command, "%s </ >test.out 2>test.err", program);
    CHECK(system(command) == 256 && has("test.out", "", 0));
    CHECK(has("test.err", "plainwrap: standard input could not be read: Is a directory\n", 60));
    remove("test.in");
    remove("test.out");
    remove("test.err");
}

int main(int argc, char **argv)
{
    fresh_by_hand();
    sizes_by_hand();
    halves_by_hand(0);
    halves_by_hand(1399);
    lengths_by_hand(0);
    lengths_by_hand(1399);
    small_payloads_by_hand();
    exact_payloads_by_hand();
    large_payloads_by_hand();
    offsets_by_hand();
    timestamps_by_hand();
    sequences_by_hand();
    rooms_by_hand();
    large_rooms_by_hand();
    closes_by_hand();
    rests_by_hand();
    nothing_by_hand();
    begins_by_hand();
    model_corners();
    model_sizes();
    promises();
    promise_long_gap();
    if (argc > 1) {
        program = argv[1];
        program_by_hand();
        program_ends();
        program_lengths();
        program_streams();
        program_words();
        program_slow();
        program_fails();
    } else
        printf("no program given: not tested\n");
    return verdict();
}
