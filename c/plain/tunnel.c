#include "tunnel.h"

#include <string.h>

enum {
    FIRST = 0x80,    /* the first byte: version 2, no padding, extension or CSRC */
    MARKER = 0x80,   /* in the second */
    STLTP = 97,      /* the payload type, the rest of it */
    VERSION = 0x40,  /* the ninth: protocol_version 1, no redundancy, one channel */
    LENGTH_IN = 4,   /* a packet's length is known from that many bytes on */
    STORED_HEAD = 4  /* of a stored packet: IP and its length */
};

static unsigned two(const uint8_t *at)
{
    return (unsigned)at[0] << 8 | at[1];
}

static void put_two(uint8_t *to, unsigned value)
{
    to[0] = (uint8_t)(value >> 8);
    to[1] = (uint8_t)value;
}

static int is_outer(const uint8_t *outer, size_t n)
{
    return n >= PLAIN_HEADER_RTP && n <= PLAIN_OUTER && outer[0] == FIRST && (outer[1] & 0x7F) == STLTP;
}

static int begins_packet(const uint8_t *at)
{
    return at[0] >> 4 == 4;
}

static int within_limits(size_t length)
{
    return length >= PLAIN_SHORTEST && length <= PLAIN_PACKET;
}

/* How many bytes the state's part has; 0 where there is none. A length above held leaves none that is over the longest. */
static size_t held_part(const struct plain_tunnel *t)
{
    size_t length;

    if (t->held == 0 || !begins_packet(t->part))
        return 0;
    if (t->held < LENGTH_IN)
        return t->held;
    length = two(t->part + 2);
    return within_limits(length) && length > t->held ? t->held : 0;
}

enum fate { ENDS, GOES_ON, DROPPED };

/* Of a running packet: held bytes of it are in the part, and so many of the payload may be its own. */
static enum fate fate_of(const uint8_t *part, size_t held, const uint8_t *payload, size_t own, int marked)
{
    const size_t total = held + own;
    size_t length = PLAIN_PACKET; /* not known yet: more than is there */

    if (total >= LENGTH_IN) {
        const uint8_t high = held > 2 ? part[2] : payload[2 - held];
        const uint8_t low = held > 3 ? part[3] : payload[3 - held];

        length = (size_t)high << 8 | low;
    }
    if (!within_limits(length))
        return DROPPED;
    if (length == total)
        return ENDS;
    return length > total && !marked ? GOES_ON : DROPPED;
}

static uint8_t *put_head(uint8_t *to, size_t length)
{
    to[0] = 'I';
    to[1] = 'P';
    put_two(to + 2, (unsigned)length);
    return to + STORED_HEAD;
}

/* Stores packet after packet from the marked start on; what is begun at the end becomes the part.
   Answers the end of what is stored. */
static uint8_t *put_packets(struct plain_tunnel *t, const uint8_t *at, size_t n, uint8_t *to, size_t *lost)
{
    t->held = 0;
    while (n > 0) {
        const size_t length = n < LENGTH_IN ? PLAIN_PACKET : two(at + 2);

        if (!begins_packet(at) || !within_limits(length)) {
            *lost += n;
            break;
        }
        if (length > n) {
            memcpy(t->part, at, n);
            t->held = n;
            break;
        }
        to = put_head(to, length);
        memcpy(to, at, length);
        to += length;
        at += length;
        n -= length;
    }
    return to;
}

/* The payload, after the sequence number: from 17 on. */
static void read_payload(struct plain_tunnel *t, size_t held, const uint8_t *outer, size_t n,
                         uint8_t *out, struct plain_unwrapped *answer)
{
    const uint8_t *payload = outer + PLAIN_HEADER_RTP;
    const size_t length = n - PLAIN_HEADER_RTP;
    const int marked = (outer[1] & MARKER) != 0;
    const size_t own = marked ? two(outer + 10) : length; /* what a running packet may have of it */
    uint8_t *to = out;

    if (marked && own >= length) {
        answer->number = 17;
        answer->lost += held + length;
        t->held = 0;
        return;
    }
    if (held == 0)
        answer->lost += own;
    else
        switch (fate_of(t->part, held, payload, own, marked)) {
        case GOES_ON:
            memcpy(t->part + held, payload, own);
            t->held = held + own;
            return;
        case ENDS:
            to = put_head(to, held + own);
            memcpy(to, t->part, held);
            memcpy(to + held, payload, own);
            to += held + own;
            break;
        case DROPPED:
            answer->lost += held + own;
            break;
        }
    to = put_packets(t, payload + own, length - own, to, &answer->lost);
    answer->stored = (size_t)(to - out);
}

struct plain_unwrapped plain_unwrap(struct plain_tunnel *t, const uint8_t *outer, size_t n, uint8_t *out, size_t room)
{
    struct plain_unwrapped answer = {0, 0, 0, 0, 0};
    unsigned sequence, steps;
    size_t held;

    if (room < PLAIN_UNWRAPPED)
        answer.number = 1;
    else if (!is_outer(outer, n))
        answer.number = 16;
    if (answer.number != 0)
        return answer;
    sequence = two(outer + 2);
    steps = t->begun ? (sequence - t->last) & 0xFFFF : 1; /* from the last accepted one */
    if (steps == 0) {
        answer.repeat = 1;
        return answer;
    }
    held = held_part(t);
    if (steps > 1) {
        answer.gap = steps - 1;
        answer.lost = held;
        held = 0;
    }
    t->begun = 1;
    t->last = sequence;
    read_payload(t, held, outer, n, out, &answer);
    return answer;
}

int plain_next_packet(const uint8_t *store, size_t n, size_t at, size_t *length)
{
    size_t own;

    *length = 0;
    if (at >= n)
        return 0;
    store += at;
    n -= at;
    if (n < STORED_HEAD || store[0] != 'I' || store[1] != 'P')
        return 15;
    own = two(store + 2);
    if (!within_limits(own) || own > n - STORED_HEAD)
        return 15;
    *length = own;
    return 0;
}

/* ---- The writer ---- */

void plain_wrapper(struct plain_wrapper *w, size_t size, unsigned first)
{
    memset(w, 0, sizeof *w);
    w->size = size;
    w->next = first;
}

static int is_size(size_t size)
{
    return size >= PLAIN_SIZE_LEAST && size <= PLAIN_SIZE_MOST;
}

/* The total length is the number of bytes, so that the limits of the one are those of the other. */
static int may_be_carried(const uint8_t *packet, size_t n)
{
    return within_limits(n) && begins_packet(packet) && two(packet + 2) == n;
}

static size_t left_over(const struct plain_wrapper *w)
{
    return w->left < w->size ? w->left : 0;
}

/* An outer packet's header; the marker is MARKER, or 0 and the offset too. Answers where the payload goes. */
static uint8_t *put_outer(uint8_t *to, unsigned marker, unsigned sequence, uint32_t timestamp, size_t offset)
{
    to[0] = FIRST;
    to[1] = (uint8_t)(marker | STLTP);
    put_two(to + 2, sequence);
    put_two(to + 4, (unsigned)(timestamp >> 16));
    put_two(to + 6, (unsigned)timestamp);
    to[8] = VERSION;
    to[9] = 0;
    put_two(to + 10, (unsigned)offset);
    return to + PLAIN_HEADER_RTP;
}

/* The payload is not full yet. */
static void keep_waiting(struct plain_wrapper *w, size_t left, const uint8_t *packet, size_t n, uint32_t timestamp)
{
    if (w->begin > left)
        w->begin = left;
    if (left == 0)
        w->timestamp = timestamp;
    memcpy(w->bytes + left, packet, n);
    w->left = left + n;
}

/* The first payload has what is left, and the packet begins in it; the others have nothing but this packet. */
static void put_payloads(struct plain_wrapper *w, size_t left, size_t payloads, const uint8_t *packet, const uint8_t *end,
                         uint32_t timestamp, uint8_t *to)
{
    const size_t size = w->size;
    unsigned sequence = w->next;

    to = put_outer(to, MARKER, sequence++, left > 0 ? w->timestamp : timestamp, w->begin < left ? w->begin : left);
    memcpy(to, w->bytes, left);
    memcpy(to + left, packet, size - left);
    packet += size - left;
    while (--payloads > 0) {
        to = put_outer(to + size, 0, sequence++, timestamp, 0);
        memcpy(to, packet, size);
        packet += size;
    }
    w->next = sequence & 0xFFFF;
    w->left = w->begin = (size_t)(end - packet);
    w->timestamp = timestamp;
    memcpy(w->bytes, packet, w->left);
}

struct plain_wrapped plain_wrap(struct plain_wrapper *w, const uint8_t *packet, size_t n, uint32_t timestamp, uint8_t *out, size_t room)
{
    struct plain_wrapped answer = {0, 0};
    size_t left, payloads, wrote;

    if (!is_size(w->size))
        answer.number = 18;
    else if (!may_be_carried(packet, n))
        answer.number = 19;
    if (answer.number != 0)
        return answer;
    left = left_over(w);
    if (left + n < w->size) {
        keep_waiting(w, left, packet, n, timestamp);
        return answer;
    }
    payloads = (unsigned)(left + n) / (unsigned)w->size;
    wrote = payloads * (PLAIN_HEADER_RTP + w->size);
    if (room < wrote) {
        answer.number = 1;
        return answer;
    }
    put_payloads(w, left, payloads, packet, packet + n, timestamp, out);
    answer.wrote = wrote;
    return answer;
}

struct plain_wrapped plain_close(struct plain_wrapper *w, uint8_t *out, size_t room)
{
    struct plain_wrapped answer = {0, 0};
    const size_t left = left_over(w);
    const int begins = w->begin < left;

    if (!is_size(w->size))
        answer.number = 18;
    else if (left > 0 && room < PLAIN_HEADER_RTP + left)
        answer.number = 1;
    if (answer.number != 0)
        return answer;
    if (left > 0) {
        memcpy(put_outer(out, begins ? MARKER : 0, w->next, w->timestamp, begins ? w->begin : 0), w->bytes, left);
        w->next = (w->next + 1) & 0xFFFF;
        answer.wrote = PLAIN_HEADER_RTP + left;
    }
    w->left = w->begin = 0;
    return answer;
}
