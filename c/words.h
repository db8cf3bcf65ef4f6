/* The words that the makers of files take, a record that they write, and how they end. */
#ifndef WORDS_H
#define WORDS_H

#include <stdint.h>
#include <stdio.h>
#include <stdlib.h>
#include <string.h>

struct words {
    uint64_t seed;
    unsigned long count;
    const char *what;
    int cut, unknown;
};

/* Whether it is one of these, which stand with | between them. */
static inline int is_one_of(const char *word, const char *these)
{
    const size_t n = strlen(word);

    for (; these != NULL; these = strchr(these, '|'), these += these != NULL)
        if (strncmp(these, word, n) == 0 && (these[n] == '|' || these[n] == '\0'))
            return 1;
    return 0;
}

/* Reads them; 0 and a line on standard error where there are others. The count's word is given, and what there is to make. */
static inline int read_words(int argc, char **argv, const char *name, const char *count, const char *whats, struct words *to)
{
    int i;

    for (i = 1; i < argc; i++)
        if (strcmp(argv[i], "--cut") == 0)
            to->cut = 1;
        else if (strcmp(argv[i], "--unknown") == 0)
            to->unknown = 1;
        else if (i + 1 < argc && strcmp(argv[i], "--seed") == 0)
            to->seed = strtoull(argv[++i], NULL, 10);
        else if (i + 1 < argc && strcmp(argv[i], count) == 0)
            to->count = strtoul(argv[++i], NULL, 10);
        else if (i + 1 < argc && strcmp(argv[i], "--what") == 0)
            to->what = argv[++i];
        else
            break;
    if (i == argc && !(to->cut && to->unknown) && is_one_of(to->what, whats))
        return 1;
    fprintf(stderr, "usage: %s [--seed N] [%s M] [--what %s] [--cut | --unknown]\n", name, count, whats);
    return 0;
}

/* A record with its length behind its mark, at most so many bytes of it, to standard output. */
static inline void put_marked(const char *mark, const uint8_t *bytes, size_t n, size_t most)
{
    const uint8_t head[4] = {(uint8_t)mark[0], (uint8_t)mark[1], (uint8_t)(n >> 8), (uint8_t)n};

    fwrite(head, 1, most < sizeof head ? most : sizeof head, stdout);
    if (most > sizeof head)
        fwrite(bytes, 1, most - sizeof head < n ? most - sizeof head : n, stdout);
}

/* The exit status, once all is written; a file that could not be opened is none. */
static inline int all_written(const char *name, FILE *f)
{
    if (f != NULL && fflush(f) == 0 && !ferror(f))
        return 0;
    fprintf(stderr, "%s: the file can't be written\n", name);
    return 2;
}

#endif
