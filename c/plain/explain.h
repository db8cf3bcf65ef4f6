/* Why a chunk or a segment is refused: the field at fault, its offset in bits, and the value found; in plain C11. */
#ifndef EXPLAIN_H
#define EXPLAIN_H

#include <stddef.h>
#include <stdint.h>

/* A field is a row, from 0, of a table of A/153 Part 3: of 6.5, of 6.6 an ensemble's or a service's, of 6.9. A run of extension bytes is one row. Or it is of no
   table. */
enum plain_table { PLAIN_NO_TABLE, PLAIN_CHUNK_TABLE, PLAIN_ENSEMBLE_TABLE, PLAIN_SERVICE_TABLE, PLAIN_SEGMENT_TABLE, PLAIN_TABLES };

enum { PLAIN_ROWS = 10 }; /* the most of a table */
enum { PLAIN_NO_FIELD, PLAIN_LENGTH_FIELD, PLAIN_PAYLOAD_FIELD, PLAIN_SPOILED_FIELD }; /* of no table */

struct plain_explanation {
    int number; /* the refusal's; 0: there is nothing to explain, and all else is 0 */
    enum plain_table table;
    unsigned row;
    size_t bit;
    size_t value;
};

/* The standard's own name of a field, or what one of no table is called; "" where there is none. */
const char *plain_field_name(enum plain_table table, unsigned row);

/* Why the reader would refuse a chunk: 8, 9, 5, 9. Memory as in plain.h. */
struct plain_explanation plain_explain_chunk(const uint8_t *chunk, size_t n);

/* Why a segment would be refused for its own length or header: 2 to 6. */
struct plain_explanation plain_explain_segment(const uint8_t *segment, size_t n);

/* What the slot of a segment's kind has. Any content is taken: a place that the bytes do not reach, or not whole, differs from any payload. */
struct plain_gathered {
    uint16_t held; /* bit i is place i */
    uint8_t last;
    int spoiled;
    const uint8_t *bytes;
    size_t n;
};

/* The same as of a segment by itself, then why this slot would refuse it: 7. */
struct plain_explanation plain_explain_gathered(const uint8_t *segment, size_t n, const struct plain_gathered *slot);

#endif
