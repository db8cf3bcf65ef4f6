#include "explain.h"

#include "plain.h"

#include <string.h>

enum { HEADER_BITS = 8 * (PLAIN_SEGMENT - PLAIN_PAYLOAD) };

/* ---- The tables ---- */

/* A field's name, and how many bits it has. */
struct field {
    const char *name;
    unsigned bits;
};

enum { EXTENSION = 0 }; /* bits: as many as the chunk's header says */

static const struct field fields[PLAIN_TABLES][PLAIN_ROWS] = {
    [PLAIN_NO_TABLE] = { /* of these the bits are not asked for */
        [PLAIN_LENGTH_FIELD] = {"length", 0},
        [PLAIN_PAYLOAD_FIELD] = {"payload", 0},
        [PLAIN_SPOILED_FIELD] = {"slot spoiled", 0},
    },
    [PLAIN_CHUNK_TABLE] = { /* Table 6.5 */
        {"FIC_chunk_major_protocol_version", 2},
        {"FIC_chunk_minor_protocol_version", 3},
        {"FIC_chunk_header_extension_length", 3},
        {"ensemble_loop_header_extension_length", 3},
        {"MH_service_loop_extension_length", 3},
        {"reserved", 1},
        {"current_next_indicator", 1},
        {"transport_stream_id", 16},
        {"header_extension_byte", EXTENSION},
        {"num_ensembles", 8},
    },
    [PLAIN_ENSEMBLE_TABLE] = { /* Table 6.6, the outer loop up to its services */
        {"ensemble_id", 8},
        {"reserved", 3},
        {"ensemble_protocol_version", 5},
        {"SLT_ensemble_indicator", 1},
        {"GAT_ensemble_indicator", 1},
        {"EAT_ensemble_indicator", 1},
        {"MH_service_signaling_channel_version", 5},
        {"ensemble_loop_header_extension_byte", EXTENSION},
        {"num_MH_services", 8},
    },
    [PLAIN_SERVICE_TABLE] = { /* and its services */
        {"MH_service_id", 16},
        {"reserved", 3},
        {"multi_ensemble_service", 2},
        {"MH_service_status", 2},
        {"SP_indicator", 1},
        {"MH_service_loop_extension_byte", EXTENSION},
    },
    [PLAIN_SEGMENT_TABLE] = { /* Table 6.9 */
        {"FIC_segment_type", 2},
        {"reserved", 1},
        {"wake_up_indicator", 1},
        {"FIC_chunk_major_protocol_version", 2},
        {"current_next_indicator", 1},
        {"error_indicator", 1},
        {"FIC_segment_num", 4},
        {"FIC_last_segment_num", 4},
    },
};

/* The rows that are looked at, of a chunk's header (from EXTENSION_LENGTH on those of the three things, in their order) and of a segment's. */
enum { MAJOR = 0, EXTENSION_LENGTH = 2 };
enum { TYPE = 0, SEGMENT_MAJOR = 3, ERROR = 5, NUMBER = 6, LAST = 7 };

const char *plain_field_name(enum plain_table table, unsigned row)
{
    const char *name = table < PLAIN_TABLES && row < PLAIN_ROWS ? fields[table][row].name : NULL;

    return name != NULL ? name : "";
}

/* The bit at which a row begins that has no extension before it. */
static inline unsigned start_of(enum plain_table table, unsigned row)
{
    unsigned bit = 0;

    while (row > 0)
        bit += fields[table][--row].bits;
    return bit;
}

/* What is in such a row, if it is within one byte. */
static inline unsigned value_of(enum plain_table table, unsigned row, const uint8_t *bytes)
{
    const unsigned bit = start_of(table, row), bits = fields[table][row].bits;

    return bytes[bit / 8] >> (8 - bit % 8 - bits) & ((1u << bits) - 1);
}

/* ---- Explanations ---- */

static inline struct plain_explanation explained(int number, enum plain_table table, unsigned row, size_t bit, size_t value)
{
    const struct plain_explanation e = {number, table, row, bit, value};

    return e;
}

static inline struct plain_explanation nothing(void)
{
    return explained(0, PLAIN_NO_TABLE, PLAIN_NO_FIELD, 0, 0);
}

static inline struct plain_explanation wrong_length(int number, size_t n)
{
    return explained(number, PLAIN_NO_TABLE, PLAIN_LENGTH_FIELD, 0, n);
}

/* A row says what it may not. */
static inline struct plain_explanation wrong_value(int number, enum plain_table table, unsigned row, const uint8_t *bytes)
{
    return explained(number, table, row, start_of(table, row), value_of(table, row, bytes));
}

/* The first field that is not whole, of the thing that ran out. */
static struct plain_explanation cut_field(const uint8_t *chunk, size_t n, const struct plain_ran_out *ran_out)
{
    const enum plain_table table = PLAIN_CHUNK_TABLE + ran_out->thing;
    /* in a chunk too short to tell, no extension is come to */
    const size_t run = n < 2 ? 0 : 8 * value_of(PLAIN_CHUNK_TABLE, EXTENSION_LENGTH + ran_out->thing, chunk);
    size_t at = 8 * ran_out->at;
    unsigned row;

    for (row = 0;; row++) {
        const unsigned bits = fields[table][row].bits;
        const size_t end = at + (bits == EXTENSION ? run : bits);

        if (end > 8 * n)
            return explained(9, table, row, at, n);
        at = end;
    }
}

struct plain_explanation plain_explain_chunk(const uint8_t *chunk, size_t n)
{
    struct plain_ran_out ran_out;

    switch (plain_check(chunk, n, &ran_out)) {
    case 5: return wrong_value(5, PLAIN_CHUNK_TABLE, MAJOR, chunk);
    case 8: return wrong_length(8, n);
    case 9: return cut_field(chunk, n, &ran_out);
    default: return nothing();
    }
}

static inline unsigned in_segment(const uint8_t *segment, unsigned row)
{
    return value_of(PLAIN_SEGMENT_TABLE, row, segment);
}

static inline struct plain_explanation wrong_segment(int number, unsigned row, const uint8_t *segment)
{
    return wrong_value(number, PLAIN_SEGMENT_TABLE, row, segment);
}

struct plain_explanation plain_explain_segment(const uint8_t *segment, size_t n)
{
    if (n != PLAIN_SEGMENT)
        return wrong_length(2, n);
    if (in_segment(segment, TYPE) != 0)
        return wrong_segment(3, TYPE, segment);
    if (in_segment(segment, ERROR) != 0)
        return wrong_segment(4, ERROR, segment);
    if (in_segment(segment, SEGMENT_MAJOR) != 0)
        return wrong_segment(5, SEGMENT_MAJOR, segment);
    if (in_segment(segment, NUMBER) > in_segment(segment, LAST))
        return wrong_segment(6, NUMBER, segment);
    return nothing();
}

/* How many bytes of a payload the slot has in this place, from the first on. */
static size_t same_bytes(const uint8_t *payload, const struct plain_gathered *slot, unsigned number)
{
    const size_t place = (size_t)number * PLAIN_PAYLOAD, left = slot->n > place ? slot->n - place : 0;
    const size_t there = left < PLAIN_PAYLOAD ? left : PLAIN_PAYLOAD;
    size_t i;

    if (there == PLAIN_PAYLOAD && memcmp(payload, slot->bytes + place, PLAIN_PAYLOAD) == 0)
        return PLAIN_PAYLOAD;
    for (i = 0; i < there && payload[i] == slot->bytes[place + i]; i++)
        ;
    return i;
}

struct plain_explanation plain_explain_gathered(const uint8_t *segment, size_t n, const struct plain_gathered *slot)
{
    const struct plain_explanation own = plain_explain_segment(segment, n);
    const uint8_t *payload = segment + HEADER_BITS / 8;
    size_t same;

    if (own.number != 0)
        return own;
    if (slot->spoiled)
        return explained(7, PLAIN_NO_TABLE, PLAIN_SPOILED_FIELD, 0, 0);
    if (slot->held != 0 && slot->last != in_segment(segment, LAST))
        return wrong_segment(7, LAST, segment);
    if ((slot->held >> in_segment(segment, NUMBER) & 1) == 0)
        return nothing();
    same = same_bytes(payload, slot, in_segment(segment, NUMBER));
    return same == PLAIN_PAYLOAD ? nothing() : explained(7, PLAIN_NO_TABLE, PLAIN_PAYLOAD_FIELD, HEADER_BITS + 8 * same, payload[same]);
}
