/* What a chunk, given in hex, lists; then that list written for the next frame, and read back: example [HEX]
   Exit status: 0 all of it done, 1 the chunk or its list refused, 2 words other than these. */
#include "lukasembo.h"

#include <stdio.h>
#include <string.h>

/* Prints an ensemble and its services; answers where the next one's record is. */
static const uint8_t *show_ensemble(const uint8_t *at)
{
    unsigned services;

    if (memcmp(at, "EU", 2) == 0) {
        printf("  ensemble %u: of version %u, which is not known; its services are not listed\n", at[2], at[3]);
        return at + LUKASEMBO_EU;
    }
    printf("  ensemble %u: SLT %d, GAT %d, EAT %d, signaling channel version %d\n", at[2], at[3] >> 2, at[3] >> 1 & 1, at[3] & 1, at[4]);
    for (services = at[5], at += LUKASEMBO_EN; services > 0; services--, at += LUKASEMBO_SV)
        printf("    service %u of ensemble %u: multi %d, status %d, SP %d\n", at[3] * 256u + at[4], at[2], at[5], at[6], at[7]);
    return at;
}

/* Reads a chunk and prints what it lists; answers the listing's length, or 0 where the chunk is refused. */
static size_t show(const uint8_t *chunk, size_t length, uint8_t listing[LUKASEMBO_LISTING])
{
    const uint64_t answer = lukasembo_read(chunk, length, listing, LUKASEMBO_LISTING);
    const uint8_t *at = listing;
    unsigned ensembles;

    if (lukasembo_number(answer) != LUKASEMBO_ACCEPTED) {
        printf("refused, number %d", (int)lukasembo_number(answer));
        if (lukasembo_number(answer) == LUKASEMBO_ENDS_EARLY)
            printf(" at %zu", lukasembo_offset(answer));
        printf("\n");
        return 0;
    }
    printf("for %s frame, minor edition %u\n", lukasembo_kind(answer) == LUKASEMBO_THIS ? "this" : "the next", lukasembo_minor(answer));
    printf("transport stream %u\n", at[2] * 256u + at[3]);
    for (ensembles = at[4], at += LUKASEMBO_TS; ensembles > 0; ensembles--)
        at = show_ensemble(at);
    return lukasembo_length(answer);
}

int main(int argc, char **argv)
{
    const char *hex = argc > 1 ? argv[1] : "0003012301" "05E08301" "0A01E6";
    uint8_t chunk[LUKASEMBO_CHUNK + 1], listing[LUKASEMBO_LISTING], segments[LUKASEMBO_OUTPUT];
    size_t n = 0, length, count, i;
    uint64_t answer;
    unsigned byte;

    /* of a chunk that is too long, as much as is refused for it */
    for (; n < sizeof chunk && strspn(hex, "0123456789abcdefABCDEF") >= 2 && sscanf(hex, "%2x", &byte) == 1; hex += 2)
        chunk[n++] = (uint8_t)byte;
    if (argc > 2 || (*hex != '\0' && n < sizeof chunk)) {
        fprintf(stderr, "usage: c/example [CHUNK IN HEX]\n");
        return 2;
    }
    length = show(chunk, n, listing);
    if (length == 0)
        return 1;

    answer = lukasembo_write(listing, length, LUKASEMBO_NEXT, segments, sizeof segments);
    if (lukasembo_number(answer) != LUKASEMBO_ACCEPTED) {
        printf("not written, as not all ensembles are known: refused, number %d\n", (int)lukasembo_number(answer));
        return 1;
    }
    count = lukasembo_segments(answer);
    for (i = 0; i < count; i++)
        memcpy(chunk + i * LUKASEMBO_PAYLOAD, segments + i * LUKASEMBO_SEGMENT + LUKASEMBO_HEADER, LUKASEMBO_PAYLOAD);
    printf("written for the next frame, segments: %zu; their payloads read back:\n", count);
    return show(chunk, count * LUKASEMBO_PAYLOAD, listing) == length ? 0 : 1;
}
