/* Lukasembo for programs in C: the reader and the writer of FIC chunks, what explains their refusals, those of the tunnel, and the reader of the guide table, proved to
 * meet the definitions of this repository.
 *
 * Linking. The archive is target/staticlib/liblukasembo.a, made by c/build. It is for x86-64 (x86-64-v2: processors from about 2009 on) and
 * needs nothing of the C library:
 *
 *     gcc -Iinclude my.c target/staticlib/liblukasembo.a
 *
 * Memory. All of it is the caller's, before, during and after a call: nothing is allocated, kept or freed. No pointer may be null, also where its length
 * is 0; no two of the memories that are lent to one call may overlap. A call may be given bytes of any content and length; it always answers.
 *
 * Threads. There is no state outside the arguments: calls may run at once in any threads, as long as no memory that one writes is used by another.
 *
 * Chunks and segments. A segment is 37 bytes: 2 of header, 35 of payload. Bits of the header, first to last: type 2, reserved 2, major version 2,
 * current_next 1, error 1, segment number 4, last number 4. So seg[0] & 2 is not 0 if it is for this frame, seg[1] >> 4 is its number, from 0, and
 * seg[1] & 15 is the last one's. A chunk is the payloads of segments 0 to the last, in this order; stuffing may follow its records.
 *
 * The writer gives segments, the reader takes a chunk. A segment is not a chunk, but its bytes may be those of one: the reader can't tell, and may list
 * nonsense. From the one to the other:
 *
 *     uint8_t segments[LUKASEMBO_OUTPUT], chunk[LUKASEMBO_CHUNK], buffer[LUKASEMBO_LISTING];
 *     uint64_t written = lukasembo_write(listing, length, LUKASEMBO_NEXT, segments, sizeof segments);
 *     size_t count = lukasembo_segments(written);
 *
 *     for (size_t i = 0; i < count; i++)
 *         memcpy(chunk + i * LUKASEMBO_PAYLOAD, segments + i * LUKASEMBO_SEGMENT + LUKASEMBO_HEADER, LUKASEMBO_PAYLOAD);
 *     uint64_t read = lukasembo_read(chunk, count * LUKASEMBO_PAYLOAD, buffer, sizeof buffer);
 *
 * Segments off the air come in any order, again, and damaged. To check and to gather them is the caller's part here.
 *
 * The listing: records, each with a mark of two letters; fields of one byte, or of two where it says so, the high one first:
 *
 *     54 53 "TS"   transport stream id (2), number of ensembles                                               5 bytes, once
 *     45 4E "EN"   id, flags (4 SLT + 2 GAT + EAT), signaling channel version (0 to 31), number of services   6 bytes, each ensemble of version 0
 *     45 55 "EU"   id, version (1 to 31)                                                                      4 bytes, each of another version
 *     53 56 "SV"   ensemble id, id (2), multi (0 to 3), status (0 to 3), SP (0 or 1)                          8 bytes, each service of an EN
 *
 * The order is the chunk's: TS, then each EN with its SVs right after it, or EU. The number in TS counts both. The ensemble id in an SV is the id of the EN
 * above it, so that a service tells its ensemble wherever its record goes. An EU says: the relay sends an ensemble of a version that this library does not
 * know, and its services are not listed.
 *
 * Explanations. Three calls tell why a chunk, a segment, or a segment beside what was gathered of its kind is refused: the number, the field at fault, its offset in
 * bits and the value found there. They change nothing. The faults of a chunk that came in segments are asked of the chunk:
 *
 *     struct lukasembo_explanation why = lukasembo_explain_chunk(chunk, length);
 *
 *     if (lukasembo_number(why.answer) != LUKASEMBO_ACCEPTED)
 *         printf("%s at bit %zu is %llu\n", lukasembo_field_name(why.answer), lukasembo_bit(why.answer), (unsigned long long)why.value);
 *
 * The tunnel (ATSC A/324, 6.3). Outer packets, of 12 to LUKASEMBO_OUTER bytes, carry inner IPv4 packets end to end, split where they fall. A call takes one
 * outer packet. Lent to it are the reader's state, which keeps the part of an inner packet that goes on in the next outer packet, and an output, to whose
 * start the inner packets go that are whole now. They go there as a store: packet after packet, each as "IP" (49 50), its length (2 bytes, the high one
 * first) and its bytes. Stores laid end to end are a store. Whatever came, each packet that a call stores begins with half byte 4 and has the length that
 * it says itself (bytes 2 and 3), 28 to LUKASEMBO_PACKET. One stream of outer packets has one state from its start to its end:
 *
 *     struct lukasembo_tunnel tunnel = {0}; // a fresh reader
 *     uint8_t output[LUKASEMBO_UNWRAPPED];
 *
 *     while (receive(outer, &length)) {
 *         uint64_t answer = lukasembo_unwrap(&tunnel, outer, length, output, sizeof output);
 *         size_t at = 0, n;
 *
 *         for (; (n = lukasembo_length(lukasembo_next_packet(output, lukasembo_stored(answer), at))) > 0; at += 4 + n)
 *             forward(output + at + 4, n);
 *     }
 *
 * Nothing is lost in silence: the part before and the payload are, in bytes, the packets stored, the part after and lukasembo_lost, for every outer packet
 * but a repeat and one that is refused with 1 or 16.
 *
 * The other way: the tunnel's writer takes inner packets and gives outer packets, all with payloads of one size, 64 to LUKASEMBO_SIZE bytes, chosen once. A
 * payload that is full is sent by the call that fills it; what is fewer waits in the state, until the next packet or the close, which sends it as one shorter outer
 * packet. The outer packets of a call stand end to end at the start of its output, each of 12 + size bytes; that of a close is as long as it wrote. An output
 * of LUKASEMBO_WRAPPED bytes is always enough. A timestamp is that of the call which gave the payload's first byte:
 *
 *     struct lukasembo_wrapper wrapper = lukasembo_wrapper(1400, 0); // nothing is left; the first sequence number is 0
 *     uint8_t output[LUKASEMBO_WRAPPED];
 *
 *     while (receive(packet, &length, &timestamp)) {
 *         size_t wrote = lukasembo_wrote(lukasembo_wrap(&wrapper, packet, length, timestamp, output, sizeof output));
 *
 *         for (size_t at = 0; at < wrote; at += 12 + 1400)
 *             send(output + at, 12 + 1400);
 *     }
 *     send(output, lukasembo_wrote(lukasembo_close(&wrapper, output, sizeof output))); // nothing, if it is 0
 *
 * What the writer gives, closed and read in order by a fresh reader, are the packets that went in; where up to 65,534 outer packets in a row are missing, only those
 * packets are lost that had a byte in them.
 *
 * The guide (ATSC A/153 Part 3, 7.4): who supplies it. A guide access table comes in sections, numbered from 0 to a last number that each of them tells, in any order and
 * again and again. A call takes one section; lent to it is a gathering, which notes the numbers that were read. A section that is read has names, which are
 * parts of the section itself:
 *
 *     struct lukasembo_guide guide = {0}; // an empty gathering
 *
 *     while (receive(section, &length)) {
 *         uint64_t answer = lukasembo_guide(&guide, section, length);
 *
 *         if (lukasembo_new(answer)) // noted, for the first time
 *             for (size_t n = 0; n < lukasembo_guide_names(section, length); n++) {
 *                 struct lukasembo_name name = lukasembo_guide_name(section, length, n);
 *                 fwrite(name.text, 1, name.length, file); // any bytes: they may steer a terminal
 *             }
 *         if (lukasembo_whole(answer)) // every section of the table was read
 *             break;
 *     } */
#ifndef LUKASEMBO_H
#define LUKASEMBO_H

#include <stdbool.h>
#include <stddef.h>
#include <stdint.h>

#ifdef __cplusplus
extern "C" {
#endif

/* The numbers that these calls give: R the reader, W the writer, E an explanation, T the tunnel's reader, S the reader of a store, O the tunnel's writer, G the guide's
 * reader. */
enum lukasembo_number {
    LUKASEMBO_ACCEPTED = 0,
    LUKASEMBO_SHORT_BUFFER = 1,   /* R W T: a listing buffer under LUKASEMBO_LISTING bytes, an output under LUKASEMBO_OUTPUT, LUKASEMBO_UNWRAPPED;
                                   * O: an output shorter than the outer packets that this call finishes */
    LUKASEMBO_OTHER_LENGTH = 2,   /* E: a segment is not LUKASEMBO_SEGMENT bytes */
    LUKASEMBO_OTHER_TYPE = 3,     /* E: its type is not 0 */
    LUKASEMBO_IN_ERROR = 4,       /* E: its error bit is 1 */
    LUKASEMBO_OTHER_MAJOR = 5,    /* R E: the major version is not 0, of a chunk; E: of a segment */
    LUKASEMBO_PAST_LAST = 6,      /* E: a segment's number is above its last number */
    LUKASEMBO_CLASH = 7,          /* E: the slot is spoiled, or has another last number, or other payload in the segment's place */
    LUKASEMBO_TOO_LONG = 8,       /* R E: a chunk over LUKASEMBO_CHUNK bytes */
    LUKASEMBO_ENDS_EARLY = 9,     /* R E: a chunk ends too early; lukasembo_offset tells where it ran out, and an explanation the field */
    LUKASEMBO_BAD_LISTING = 13,   /* W: marks, counts and length do not agree, a field is over its limit, a service's ensemble id is not that of the EN above it, or
                                   * there is an EU */
    LUKASEMBO_TOO_MANY = 14,      /* W: the chunk, 5 + 4 x ensembles + 3 x services bytes, would be over LUKASEMBO_CHUNK */
    LUKASEMBO_BAD_STORE = 15,     /* S: an unknown mark, a record that is cut short, or a length outside the limits */
    LUKASEMBO_FOREIGN_OUTER = 16, /* T: under 12 bytes or over LUKASEMBO_OUTER, not version 2, with padding, extension or CSRC, not payload type 97 */
    LUKASEMBO_BAD_OFFSET = 17,    /* T: a marker, and packet_offset is at or past the payload's end */
    LUKASEMBO_BAD_SIZE = 18,      /* O: a payload size under 64 or over LUKASEMBO_SIZE */
    LUKASEMBO_NOT_CARRIED = 19,   /* O: first half byte not 4, a total length (bytes 2 and 3) outside 28 to LUKASEMBO_PACKET or not the bytes given */
    LUKASEMBO_BAD_SECTION = 20,   /* G: no byte; or, of table_id 0xDC, under 9 bytes, a section_length over 4,093, or one that is not that of the bytes given */
    LUKASEMBO_OTHER_PROTOCOL = 21, /* G: the protocol version is not 0 */
    LUKASEMBO_ABOVE_LAST = 22,    /* G: the section's number is above the last */
    LUKASEMBO_RUNS_OVER = 23      /* G: a count, a name or a descriptor runs past the section's end, or bytes are left over; lukasembo_offset tells where it begins */
};

/* current_next: for the next frame, or for this one */
enum lukasembo_kind { LUKASEMBO_NEXT = 0, LUKASEMBO_THIS = 1 };

enum {
    LUKASEMBO_HEADER = 2,      /* a segment's header */
    LUKASEMBO_PAYLOAD = 35,    /* its payload */
    LUKASEMBO_SEGMENT = 37,    /* a segment */
    LUKASEMBO_CHUNK = 560,     /* the longest chunk: 16 payloads */
    LUKASEMBO_LISTING = 1475,  /* the longest listing of one; no shorter buffer is taken for it */
    LUKASEMBO_TS = 5,          /* a listing's records, by their marks: how long each is */
    LUKASEMBO_EN = 6,
    LUKASEMBO_EU = 4,
    LUKASEMBO_SV = 8,
    LUKASEMBO_OUTPUT = 592,    /* the segments of the longest chunk; no shorter output is taken */
    LUKASEMBO_OUTER = 1500,    /* the longest outer packet */
    LUKASEMBO_PACKET = 1500,   /* the longest inner packet; the shortest is 28 */
    LUKASEMBO_UNWRAPPED = 4096, /* more than one call of the tunnel's reader ever stores; no shorter output is taken for it */
    LUKASEMBO_SIZE = 1400,     /* the longest payload of the tunnel's writer; the shortest, but for that of a close, is 64 */
    LUKASEMBO_WRAPPED = 2824,  /* the most that one call of the tunnel's writer writes; a shorter output may do */
    LUKASEMBO_SECTION = 4096   /* the longest section of the guide */
};

/* An answer is one number; these take it apart. (An explanation's has a form of its own, but for the refusal's number: it stands with its calls, below.) */

/* where it is not LUKASEMBO_ACCEPTED, all else is 0, but LUKASEMBO_ENDS_EARLY and LUKASEMBO_RUNS_OVER have their offset, and LUKASEMBO_BAD_OFFSET a gap and what is
 * lost */
static inline enum lukasembo_number lukasembo_number(uint64_t answer) { return (enum lukasembo_number)(answer & 0xFF); }

/* of the reader: the frame that the list is for, the chunk's minor edition (0 to 7), and the length of the listing; the last is also, of the reader of a
 * store, the length of the packet, or 0 at the end */
static inline enum lukasembo_kind lukasembo_kind(uint64_t answer) { return (enum lukasembo_kind)(answer >> 8 & 1); }
static inline unsigned lukasembo_minor(uint64_t answer) { return (unsigned)(answer >> 9 & 7); }
static inline size_t lukasembo_length(uint64_t answer) { return (size_t)(answer >> 16 & 0xFFFF); }

/* of the reader, with LUKASEMBO_ENDS_EARLY: the offset in the chunk of the first thing that does not fit whole, which is the header (0, also of a chunk of
 * 0 or 1 byte), the fields of an ensemble, or a single service, each with its extension bytes. All before it is there; it is at most the chunk's length.
 * Of the guide's reader, with LUKASEMBO_RUNS_OVER: the offset in the section of the first count, of the first name's length byte or of the first descriptor's tag that
 * does not fit, or of the first byte left over; where no byte of it is there, it is the section's length. With any other number it is 0 */
static inline size_t lukasembo_offset(uint64_t answer) { return (size_t)(answer >> 32); }

/* of the writer: how many segments of LUKASEMBO_SEGMENT bytes */
static inline size_t lukasembo_segments(uint64_t answer) { return (size_t)(answer >> 16); }

/* of the tunnel's reader: whether the outer packet repeats the last accepted one, and then all else is 0; how many outer packets a gap in the sequence
 * numbers left out; how many bytes stand at the start of the output; how many bytes of inner packets this call threw away, of the part and of the payload */
static inline bool lukasembo_repeat(uint64_t answer) { return (answer >> 8 & 1) != 0; }
static inline unsigned lukasembo_gap(uint64_t answer) { return (unsigned)(answer >> 16 & 0xFFFF); }
static inline size_t lukasembo_stored(uint64_t answer) { return (size_t)(answer >> 32 & 0xFFFF); }
static inline size_t lukasembo_lost(uint64_t answer) { return (size_t)(answer >> 48); }

/* of the tunnel's writer: how many bytes stand at the start of the output */
static inline size_t lukasembo_wrote(uint64_t answer) { return (size_t)(answer >> 16 & 0xFFFF); }

/* of the guide's reader: whether the section is another table's, whatever its length; whether it is the guide's and not yet in force. Of both the number is
 * LUKASEMBO_ACCEPTED and nothing changes. lukasembo_repeat is whether its number was noted before. How many sections of its table are missing, of one that was read;
 * else 0: so lukasembo_whole asks whether it was read, now or before, and none is missing, and lukasembo_new whether it was read, and not before */
static inline bool lukasembo_not_ours(uint64_t answer) { return (answer >> 9 & 1) != 0; }
static inline bool lukasembo_not_yet(uint64_t answer) { return (answer >> 10 & 1) != 0; }
static inline unsigned lukasembo_missing(uint64_t answer) { return (unsigned)(answer >> 16 & 0xFFFF); }
static inline bool lukasembo_whole(uint64_t answer) { return (answer & 0xFFFF06FF) == 0; }
static inline bool lukasembo_new(uint64_t answer) { return (answer & 0x07FF) == 0; }

/* Reads a chunk, of any minor edition, with its stuffing or without. Its listing goes to the start of the buffer and bytes past it stay; a refusal
 * writes nothing. Refusals, in the order of the checks: 1, 8, 9, 5, 9, then for each ensemble 9, 9. */
uint64_t lukasembo_read(const uint8_t *chunk, size_t chunk_length, uint8_t *buffer, size_t buffer_length);

/* Writes the segments of a whole listing, as a chunk of minor edition 0, for this frame (true, LUKASEMBO_THIS) or the next (false, LUKASEMBO_NEXT). They
 * go to the start of the output and bytes past them stay; a refusal writes nothing. Refusals, in the order of the checks: 1, 13, 14. A listing
 * with EU is refused with 13, and so is one with a service whose ensemble id is not that of the EN above it.
 * The compiler makes 0 or 1 of what is given for a bool, so that a segment's seg[0] & 2 is a kind as it stands. (The function itself has a u8 there,
 * which x86-64 passes in the same way.) */
uint64_t lukasembo_write(const uint8_t *listing, size_t listing_length, bool kind, uint8_t *output, size_t output_length);

/* An explanation: the answer has, in bits 0 to 7, the number of the refusal that is explained (lukasembo_number; LUKASEMBO_ACCEPTED where there is nothing to
 * explain, and then all of it is 0), in bits 8 to 15 the field, and in bits 32 to 63 its offset in bits; the value found stands by itself. */
struct lukasembo_explanation {
    uint64_t answer, value;
};

/* The field: a row of a table of A/153 Part 3, rows from 0 and a run of extension bytes one row, counted from these; or no row of a table. */
enum lukasembo_field {
    LUKASEMBO_NO_FIELD = 0,       /* nothing to explain */
    LUKASEMBO_LENGTH_FIELD = 1,   /* with 2 and 8: the offset is 0, the value the byte count */
    LUKASEMBO_PAYLOAD_FIELD = 2,  /* with 7: the offset, in the segment, of the first payload byte that differs, and the segment's byte */
    LUKASEMBO_SPOILED = 3,        /* with 7: the slot was spoiled before; offset and value are 0 */
    LUKASEMBO_CHUNK_FIELD = 0x10,    /* Table 6.5: 0x10 + 0 to 9 */
    LUKASEMBO_ENSEMBLE_FIELD = 0x20, /* Table 6.6, an ensemble: 0x20 + 0 to 8 */
    LUKASEMBO_SERVICE_FIELD = 0x30,  /* Table 6.6, a service: 0x30 + 0 to 5 */
    LUKASEMBO_SEGMENT_FIELD = 0x40   /* Table 6.9: 0x40 + 0 to 7 */
};
static inline unsigned lukasembo_field(uint64_t answer) { return (unsigned)(answer >> 8 & 0xFF); }
static inline size_t lukasembo_bit(uint64_t answer) { return (size_t)(answer >> 32); }

/* The field's name: the standard's own, or "length", "payload" or "slot spoiled"; "" where there is nothing to explain. */
static inline const char *lukasembo_field_name(uint64_t answer)
{
    static const char *const names[][10] = {
        {"", "length", "payload", "slot spoiled"},
        {"FIC_chunk_major_protocol_version", "FIC_chunk_minor_protocol_version", "FIC_chunk_header_extension_length", "ensemble_loop_header_extension_length",
         "MH_service_loop_extension_length", "reserved", "current_next_indicator", "transport_stream_id", "header_extension_byte", "num_ensembles"},
        {"ensemble_id", "reserved", "ensemble_protocol_version", "SLT_ensemble_indicator", "GAT_ensemble_indicator", "EAT_ensemble_indicator",
         "MH_service_signaling_channel_version", "ensemble_loop_header_extension_byte", "num_MH_services"},
        {"MH_service_id", "reserved", "multi_ensemble_service", "MH_service_status", "SP_indicator", "MH_service_loop_extension_byte"},
        {"FIC_segment_type", "reserved", "wake_up_indicator", "FIC_chunk_major_protocol_version", "current_next_indicator", "error_indicator", "FIC_segment_num",
         "FIC_last_segment_num"}
    };
    const unsigned table = lukasembo_field(answer) >> 4, row = lukasembo_field(answer) & 15;
    const char *name = table < sizeof names / sizeof *names && row < sizeof *names / sizeof **names ? names[table][row] : NULL;

    return name != NULL ? name : "";
}

/* Explains why the reader would refuse a chunk, its buffer long enough: 8, 9, 5, 9, in the reader's order. */
struct lukasembo_explanation lukasembo_explain_chunk(const uint8_t *chunk, size_t chunk_length);

/* Explains why a segment would be refused for its own length or header: 2, 3, 4, 5, 6. */
struct lukasembo_explanation lukasembo_explain_segment(const uint8_t *segment, size_t segment_length);

/* The same, then why the slot of its kind would refuse it: 7. The slot's numbers are one number: bits 0 to 15 the places held, bit n for segment n; 16 to 23 the
 * last number; 24 to 63 not 0: it is spoiled. Its bytes are 16 places of LUKASEMBO_PAYLOAD; where there are fewer, what is missing differs from any byte. */
struct lukasembo_explanation lukasembo_explain_gathered(const uint8_t *segment, size_t segment_length, uint64_t slot, const uint8_t *bytes, size_t bytes_length);

/* The state of the tunnel's reader. All zeros is a fresh one, which takes any sequence number. Any other content is a state too: it holds the first bytes of
 * the part, as many as the numbers say or all, if these begin with half byte 4 and, from four bytes on, have a length (bytes 2 and 3) that is within the
 * limits and more than is held; else it holds none. */
struct lukasembo_tunnel {
    uint64_t numbers; /* bits 0 to 15 how many bytes of the part are held, 16 to 31 the last accepted sequence number, 32 to 63 not 0: there is one */
    uint8_t part[LUKASEMBO_PACKET];
};

/* The same with the numbers by value: their new value is in what comes back, and the part is lent in place, LUKASEMBO_PACKET bytes. */
struct lukasembo_step {
    uint64_t answer, numbers;
};
struct lukasembo_step lukasembo_unwrap_step(uint64_t numbers, uint8_t *part, const uint8_t *outer, size_t outer_length, uint8_t *output, size_t output_length);

/* Reads an outer packet. The packets that are whole now go to the start of the output, as a store, and bytes past them stay. Refusals, in the order of the
 * checks: 1, 16, 17; they write nothing. 1, 16 and a repeat leave the state as it was. Every other call, refused with 17 too, accepts the sequence number,
 * and of the part changes no byte behind those that are held afterwards. */
static inline uint64_t lukasembo_unwrap(struct lukasembo_tunnel *state, const uint8_t *outer, size_t outer_length, uint8_t *output, size_t output_length)
{
    const struct lukasembo_step step = lukasembo_unwrap_step(state->numbers, state->part, outer, outer_length, output, output_length);

    state->numbers = step.numbers;
    return step.answer;
}

/* The state of the tunnel's writer. Any content is a state: if as many bytes are left as a payload has, or more, nothing is; a packet that is said to begin at or
 * behind the end of what is left does not. */
struct lukasembo_wrapper {
    uint8_t left[LUKASEMBO_SIZE]; /* first, since it is moved faster from an even place */
    uint64_t numbers; /* bits 0 to 15 the payload size, 16 to 31 the next sequence number, 32 to 47 how many bytes are left, 48 to 63 where a packet begins in them */
    uint32_t timestamp; /* of the first of them */
};

/* A fresh one, with this payload size and this first sequence number. A size of more than 65,535 is as bad as 65,535. */
static inline struct lukasembo_wrapper lukasembo_wrapper(size_t size, uint16_t first)
{
    const struct lukasembo_wrapper fresh = {{0}, (size < 0xFFFF ? size : 0xFFFF) | (uint64_t)first << 16, 0};

    return fresh;
}

/* The calls with the numbers by value: their new value is in what comes back, with the new timestamp in bits 32 to 63 of the answer; what is left is lent in place,
 * LUKASEMBO_SIZE bytes. */
struct lukasembo_step lukasembo_wrap_step(uint64_t numbers, uint32_t since, uint8_t *left, const uint8_t *packet, size_t packet_length, uint32_t timestamp, uint8_t *output, size_t output_length);
struct lukasembo_step lukasembo_close_step(uint64_t numbers, uint32_t since, const uint8_t *left, uint8_t *output, size_t output_length);

static inline uint64_t lukasembo_keep(struct lukasembo_wrapper *state, struct lukasembo_step step)
{
    state->numbers = step.numbers;
    state->timestamp = (uint32_t)(step.answer >> 32);
    return step.answer & 0xFFFFFFFF;
}

/* Takes an inner packet. The outer packets that it fills go to the start of the output, and bytes past them stay. Refusals, in the order of the checks: 18, 19, 1;
 * they change nothing. */
static inline uint64_t lukasembo_wrap(struct lukasembo_wrapper *state, const uint8_t *packet, size_t packet_length, uint32_t timestamp, uint8_t *output, size_t output_length)
{
    return lukasembo_keep(state, lukasembo_wrap_step(state->numbers, state->timestamp, state->left, packet, packet_length, timestamp, output, output_length));
}

/* Sends what is left, if anything is, as one outer packet of 12 bytes and that. Refusals: 18, 1; they change nothing. Writing may go on after it. */
static inline uint64_t lukasembo_close(struct lukasembo_wrapper *state, uint8_t *output, size_t output_length)
{
    return lukasembo_keep(state, lukasembo_close_step(state->numbers, state->timestamp, state->left, output, output_length));
}

/* The next packet of a store, at this place: it is at store + at + 4, and its length is lukasembo_length; the next place is at + 4 + that length. Length 0 is
 * the end of the store, and so is a place past it; or it is refused with 15. What the packet itself says is not looked at. */
uint64_t lukasembo_next_packet(const uint8_t *store, size_t store_length, size_t at);

/* The guide's gathering. All zeros is an empty one. Any other content is a gathering too: a version that no section has is another one than any section's, and bits
 * above the last number mean nothing. */
struct lukasembo_guide {
    uint64_t numbers;  /* bits 0 to 7 the version, 8 to 15 the last number; the others are disregarded */
    uint64_t noted[4]; /* section n was read: bit n % 64 of word n / 64 */
};

/* The same with the numbers by value: their new value is in what comes back, and the four words are lent in place. */
struct lukasembo_step lukasembo_guide_step(uint64_t numbers, uint64_t *noted, const uint8_t *section, size_t section_length);

/* Takes a section of a guide access table. Of another version or last number than the gathering's, it empties that first. Refusals, in the order of the checks: 20 for
 * no byte at all, then what is another table's is not ours; 20, 21, then what is not yet in force; 22, 23. They change nothing, nor does a section that is not ours or
 * not yet in force. */
static inline uint64_t lukasembo_guide(struct lukasembo_guide *state, const uint8_t *section, size_t section_length)
{
    const struct lukasembo_step step = lukasembo_guide_step(state->numbers, state->noted, section, section_length);

    state->numbers = step.numbers;
    return step.answer;
}

/* How many names a section has: 0 to 255; none where it was not or would not be read. */
size_t lukasembo_guide_names(const uint8_t *section, size_t section_length);

/* Where the n-th name stands in its section, n from 0: bits 0 to 15 the offset, 0 where there is none, and above them the length. */
uint64_t lukasembo_name_place(const uint8_t *section, size_t section_length, size_t n);

/* The n-th name, a part of the section that was lent; null where there is none. An empty name is not null. Each call goes through the section anew. */
struct lukasembo_name {
    const uint8_t *text;
    size_t length;
};
static inline struct lukasembo_name lukasembo_guide_name(const uint8_t *section, size_t section_length, size_t n)
{
    const uint64_t place = lukasembo_name_place(section, section_length, n);
    const struct lukasembo_name name = {(place & 0xFFFF) ? section + (place & 0xFFFF) : NULL, (size_t)(place >> 16)};

    return name;
}

#ifdef __cplusplus
}
#endif
#endif
