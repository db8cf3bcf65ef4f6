#define _DEFAULT_SOURCE

#include "lent.h"

#include <stdlib.h>
#include <string.h>
#include <sys/mman.h>
#include <time.h>
#include <unistd.h>

enum { TELL_AFTER = 3 }; /* seconds from one line of progress to the next */

uint8_t pattern[PATTERNS + BUFFER_ROOM + 2 * GUARD];
uint64_t calls, limit, seed;
int plant;
volatile sig_atomic_t at_work = -1;

static uint64_t next_plant = PLANT_EVERY;
static const char *keep = ".";

/* ---- Memories ---- */

void lent_new(struct lent *lent, size_t most)
{
    const size_t page = (size_t)sysconf(_SC_PAGESIZE), size = (most + 4 * GUARD + page - 1) / page * page;
    uint8_t *p = mmap(NULL, size + 2 * page, PROT_READ | PROT_WRITE, MAP_PRIVATE | MAP_ANONYMOUS, -1, 0);

    if (p == MAP_FAILED || mprotect(p, page, PROT_NONE) != 0 || mprotect(p + page + size, page, PROT_NONE) != 0) {
        fprintf(stderr, "harness: no memory\n");
        exit(2);
    }
    lent->region = p + page;
    lent->size = size;
}

struct spot any_spot(unsigned random)
{
    const struct spot spot = {(uint8_t)((random & 3) == 3 ? AT_END : random & 3), (uint8_t)(random >> 2 & (GUARD - 1))};

    return spot;
}

const char *place_name(struct spot spot)
{
    static const char *const name[PLACES] = {"between guard bytes", "at the start of its page", "at the end of its page"};

    return name[spot.place];
}

static void lay(struct lent *lent, struct spot spot, size_t n)
{
    lent->at = lent->region + (spot.place == AT_START ? 0 : spot.place == AT_END ? lent->size - n : GUARD + (size_t)spot.shift);
    lent->before = spot.place == AT_START ? 0 : GUARD;
    lent->after = spot.place == AT_END ? 0 : GUARD;
}

void lent_lay(struct lent *lent, struct spot spot, const uint8_t *bytes, size_t n)
{
    lay(lent, spot, n);
    memcpy(lent->at - lent->before, pattern, lent->before);
    if (n > 0)
        memcpy(lent->at, bytes, n);
    memcpy(lent->at + n, pattern + lent->before, lent->after);
}

void lent_fill(struct lent *lent, struct spot spot, size_t from, size_t n)
{
    lay(lent, spot, n);
    memcpy(lent->at - lent->before, pattern + from, lent->before + n + lent->after);
}

int lent_watched(const struct lent *lent, size_t n)
{
    return memcmp(lent->at - lent->before, pattern, lent->before) == 0 && memcmp(lent->at + n, pattern + lent->before, lent->after) == 0;
}

int lent_same(const struct lent *lent, const uint8_t *bytes, size_t n)
{
    return lent_watched(lent, n) && (n == 0 || memcmp(lent->at, bytes, n) == 0);
}

size_t same(const uint8_t *a, const uint8_t *b, size_t n)
{
    size_t i;

    if (memcmp(a, b, n) == 0)
        return n;
    for (i = 0; a[i] == b[i]; i++)
        ;
    return i;
}

long lent_differ(const struct lent *a, const struct lent *b, size_t n)
{
    const size_t all = a->before + n + a->after, i = same(a->at - a->before, b->at - b->before, all);

    return i < all ? (long)i - (long)a->before : NOWHERE;
}

long lent_changed(const struct lent *lent, size_t from, size_t n, size_t written)
{
    const size_t all = lent->before + n + lent->after;
    size_t i = same(lent->at - lent->before, pattern + from, lent->before);

    if (i == lent->before)
        i += written + same(lent->at + written, pattern + from + i + written, all - i - written);
    return i < all ? (long)i - (long)lent->before : NOWHERE;
}

/* ---- The report ---- */

void print_hex(const uint8_t *from, size_t n)
{
    const size_t most = 4096;
    size_t i;

    for (i = 0; i < n && i < most; i++)
        printf("%02x", from[i]);
    if (n > most)
        printf("... (%zu bytes)", n);
    printf("\n");
}

void put_number(FILE *f, uint64_t x)
{
    int i;

    for (i = 56; i >= 0; i -= 8)
        putc((int)(x >> i & 0xFF), f);
}

uint64_t get_number(FILE *f)
{
    uint64_t x = 0;
    int i;

    for (i = 0; i < 8; i++)
        x = x << 8 | (uint64_t)(getc(f) & 0xFF);
    return x;
}

void put_spots(FILE *f, const struct spot *spot, size_t n)
{
    for (; n > 0; n--, spot++) {
        putc(spot->place, f);
        putc(spot->shift, f);
    }
}

int get_spots(FILE *f, struct spot *spot, size_t n)
{
    for (; n > 0; n--, spot++) {
        const int place = getc(f), shift = getc(f);

        if (place < 0 || place >= PLACES || shift < 0 || shift >= GUARD)
            return 0;
        spot->place = (uint8_t)place;
        spot->shift = (uint8_t)shift;
    }
    return 1;
}

void print_difference(const char *wrong, int planted)
{
    printf("\nA DIFFERENCE at call %llu: %s\n", (unsigned long long)calls, wrong); /* 0 in a replay */
    if (planted != 0)
        printf("(planted: %s)\n", planted == 1 + OURS ? "ours" : "plain");
    print_call();
}

void keep_call(void)
{
    char name[4096];
    FILE *f;

    snprintf(name, sizeof name, "%s/failure-seed-%llu-%s-%llu.bin", keep, (unsigned long long)seed, kept_word, (unsigned long long)calls);
    f = fopen(name, "wb");
    if (f == NULL) {
        printf("%s can't be written\n", name);
        return;
    }
    fwrite(kept_mark, 1, 4, f);
    put_call(f);
    if (fclose(f) == 0)
        printf("it is kept: c/harness --replay %s\n", name);
}

FILE *open_kept(const char *name)
{
    FILE *f = fopen(name, "rb");
    char mark[4];

    if (f == NULL || (fread(mark, 1, 4, f) == 4 && memcmp(mark, kept_mark, 4) == 0))
        return f;
    fclose(f);
    return NULL;
}

int not_kept(const char *name, FILE *f)
{
    fprintf(stderr, "harness: %s is not a call to replay\n", name);
    if (f != NULL)
        fclose(f);
    return 2;
}

/* A call that touches what was not lent to it, or breaks off. */
static void on_signal(int sig)
{
    printf("\nA DIFFERENCE at call %llu: signal %d in %s\n", (unsigned long long)calls, sig,
           at_work == OURS ? "ours" : at_work == PLAIN ? "plain" : "the harness");
    if (at_work >= 0) {
        print_call();
        if (calls > 0) /* it is 0 in a replay */
            keep_call();
    }
    fflush(stdout);
    _exit(1);
}

static void watch_signals(void)
{
    static const int signals[] = {SIGSEGV, SIGBUS, SIGILL, SIGFPE, SIGABRT};
    static uint8_t other_stack[65536];
    stack_t stack;
    struct sigaction action;
    size_t i;

    memset(&stack, 0, sizeof stack);
    stack.ss_sp = other_stack;
    stack.ss_size = sizeof other_stack;
    sigaltstack(&stack, NULL);
    memset(&action, 0, sizeof action);
    action.sa_handler = on_signal;
    action.sa_flags = SA_ONSTACK;
    for (i = 0; i < sizeof signals / sizeof *signals; i++)
        sigaction(signals[i], &action, NULL);
}

/* ---- The run ---- */

static void print_grouped(FILE *f, uint64_t x)
{
    if (x >= 1000) {
        print_grouped(f, x / 1000);
        fprintf(f, ",%03u", (unsigned)(x % 1000));
    } else
        fprintf(f, "%u", (unsigned)x);
}

static void tell(void)
{
    static time_t told;
    const time_t at = time(NULL);

    if (told == 0)
        told = at;
    if (at - told < TELL_AFTER)
        return;
    told = at;
    fprintf(stderr, "harness: calls ");
    print_grouped(stderr, calls);
    fprintf(stderr, " of ");
    print_grouped(stderr, limit);
    fprintf(stderr, "\n");
}

size_t any_room(struct rng *r, size_t enough)
{
    const unsigned d = rng_below(r, 64);

    if (d < 2)
        return enough - 1;
    if (d == 2)
        return 0;
    if (d == 3)
        return rng_below(r, (unsigned)enough);
    if (d == 4 && rng_once_in(r, 64))
        return LONG + rng_below(r, 2048);
    if (d < 16)
        return enough + 1 + rng_below(r, d < 8 ? 4 : 300);
    return enough;
}

int next_call(void)
{
    if (calls == limit)
        return 0;
    calls++;
    if (calls % 10000 == 0)
        tell();
    return 1;
}

int plant_due(void)
{
    return plant != 0 && calls >= next_plant;
}

void plant_done(void)
{
    next_plant += PLANT_EVERY;
}

int harness(int argc, char **argv, uint64_t by_default, int (*all)(void), int (*replay)(const char *name))
{
    const char *file = NULL;
    struct rng r = {1};
    int i;

    limit = by_default;
    seed = 1;
    for (i = 1; i + 1 < argc; i += 2)
        if (strcmp(argv[i], "--seed") == 0)
            seed = strtoull(argv[i + 1], NULL, 10);
        else if (strcmp(argv[i], "--calls") == 0)
            limit = strtoull(argv[i + 1], NULL, 10);
        else if (strcmp(argv[i], "--replay") == 0)
            file = argv[i + 1];
        else if (strcmp(argv[i], "--keep") == 0)
            keep = argv[i + 1];
        else if (strcmp(argv[i], "--plant") == 0 && strcmp(argv[i + 1], "ours") == 0)
            plant = 1 + OURS;
        else if (strcmp(argv[i], "--plant") == 0 && strcmp(argv[i + 1], "plain") == 0)
            plant = 1 + PLAIN;
        else
            break;
    if (i != argc) {
        fprintf(stderr, "usage: harness [--seed N] [--calls M] [--plant ours|plain] [--keep FOLDER] | --replay FILE\n");
        return 2;
    }
    rng_fill(&r, pattern, sizeof pattern);
    watch_signals();
    return file != NULL ? replay(file) : all();
}
