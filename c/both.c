#include "both.h"

#include <stdlib.h>
#include <string.h>

enum { AT_WORDS = (uint8_t)~7u }; /* the bits of a shift to where words and structs may stand */

/* What is wrong, or null, and where: a memory, and the byte from its start, or NOWHERE. */
struct fault {
    const char *what;
    int memory;
    long at;
};

struct rng rng;
struct lent lent[SIDES][MEMORIES];
struct call now;
struct result result[SIDES];
uint64_t phase_end;

/* How long a state is, or its memory, as a side has it. */
static size_t state_bytes(int side)
{
    return about.bytes == 0 ? (size_t)now.other : side == OURS ? about.bytes : about.plain_bytes;
}

/* ---- The report ---- */

static void print_results(void)
{
    static const char *const who[SIDES] = {"ours", "plain"};
    int side;

    for (side = 0; side < SIDES; side++) {
        print_answer(who[side], result[side].answer);
        if (has_state())
            print_numbers("", result[side].numbers);
    }
}

void print_call(void)
{
    printf("phase %s; ", about.phase[now.phase].name);
    print_given();
    if (has_state()) {
        print_numbers("state", now.numbers);
        printf("%-6s ", about.memory);
        print_hex(now.memory, state_bytes(OURS));
    }
    printf("input  ");
    print_hex(now.input, now.n);
}

/* Ten bytes, five numbers of 8 bytes (big-endian), the state's memory, the input. */
void put_call(FILE *f)
{
    putc(now.phase, f);
    putc(now.sort, f);
    putc(now.planted, f);
    putc(now.how, f);
    put_spots(f, now.spot, MEMORIES);
    put_number(f, now.pattern);
    put_number(f, now.room);
    put_number(f, now.other);
    put_number(f, now.numbers);
    put_number(f, now.n);
    fwrite(now.memory, 1, state_bytes(OURS), f);
    fwrite(now.input, 1, now.n, f);
}

static const uint8_t *bytes_of(int side, int memory)
{
    return memory == STATE ? result[side].memory : lent[side][memory].at;
}

static void report(const struct fault *fault)
{
    print_difference(fault->what, now.planted);
    if (now.known)
        print_answer("wanted", now.want);
    print_results();
    if (fault->at != NOWHERE)
        printf("byte %ld from the start of the %s: ours %02x, plain %02x\n", fault->at, fault->memory == STATE ? about.memory : "output",
               bytes_of(OURS, fault->memory)[fault->at], bytes_of(PLAIN, fault->memory)[fault->at]);
}

/* ---- One call ---- */

static void lay_all(void)
{
    struct spot spot = now.spot[STATE];
    int side;

    for (side = 0; side < SIDES; side++)
        lent_lay(&lent[side][INPUT], now.spot[INPUT], now.input, now.n);
    if (!has_state())
        return;
    for (side = 0; side < SIDES; side++)
        lent_fill(&lent[side][BUFFER], now.spot[BUFFER], now.pattern, now.room);
    if (about.words)
        spot.shift &= AT_WORDS;
    lent_lay(&lent[OURS][STATE], spot, now.memory, state_bytes(OURS));
    spot.shift &= AT_WORDS;
    lent_lay(&lent[PLAIN][STATE], spot, plain_state(), state_bytes(PLAIN));
}

int flip(uint8_t *byte)
{
    *byte ^= 1;
    return 1;
}

int add_one(uint64_t *number, unsigned bit)
{
    *number += UINT64_C(1) << bit;
    return 1;
}

static struct fault compare_memories(void)
{
    const struct lent *out = lent[OURS] + BUFFER;
    const size_t written = written_by(result[OURS].answer), n = state_bytes(OURS), i = same(result[OURS].memory, result[PLAIN].memory, n);
    struct fault fault = {NULL, BUFFER, NOWHERE};

    if (i < n) {
        fault = (struct fault){"the states' memories differ", STATE, (long)i};
        return fault;
    }
    if (!lent_watched(&lent[OURS][STATE], n) || !lent_watched(&lent[PLAIN][STATE], state_bytes(PLAIN)))
        fault.what = "a byte around the state is changed";
    else if ((fault.at = lent_differ(out, &lent[PLAIN][BUFFER], now.room)) != NOWHERE)
        fault.what = fault.at < 0 || fault.at >= (long)now.room ? "the bytes around the outputs differ" : "the outputs differ";
    else if (written > now.room)
        fault.what = "both answer more than the output holds";
    else if ((fault.at = lent_changed(out, now.pattern, now.room, written)) != NOWHERE)
        fault.what = "both changed a byte that should stay";
    return fault;
}

static struct fault compare(void)
{
    const uint64_t a = result[OURS].answer;
    struct fault fault = {NULL, BUFFER, NOWHERE};
    int side;

    if (a != result[PLAIN].answer)
        fault.what = "the answers differ";
    else if (has_state() && result[OURS].numbers != result[PLAIN].numbers)
        fault.what = "the states' numbers differ";
    else if (has_state())
        fault = compare_memories();
    if (fault.what != NULL)
        return fault;
    for (side = 0; side < SIDES; side++)
        if (!lent_same(&lent[side][INPUT], now.input, now.n))
            fault.what = side == OURS ? "ours changed its input" : "plain changed its input";
    if (fault.what == NULL && now.known && now.want != a)
        fault.what = "both answer other than wanted";
    if (fault.what == NULL && now.known && memcmp(lent[OURS][BUFFER].at, now.want_bytes, written_by(a)) != 0)
        fault.what = "both write other than wanted";
    if (fault.what == NULL)
        fault.what = rules();
    return fault;
}

static struct fault run(void)
{
    lay_all();
    at_work = OURS;
    call_ours(&result[OURS]);
    at_work = PLAIN;
    call_plain(&result[PLAIN]);
    at_work = -1;
    if (now.planted != 0)
        make_wrong(now.planted - 1, now.how);
    else if (plant_due() && make_wrong(plant - 1, (unsigned)(seed % about.wrongs))) {
        now.planted = (uint8_t)plant;
        now.how = (uint8_t)(seed % about.wrongs);
        plant_done();
    }
    return compare();
}

/* Both sides, once; what is left in the state is the next call's. */
static void hold_both(void)
{
    const uint64_t x = rng_next(&rng);
    struct fault fault;
    int m;

    for (m = 0; m < MEMORIES; m++)
        now.spot[m] = any_spot((unsigned)(x >> 10 * m));
    now.pattern = (size_t)(x >> 48) % PATTERNS;
    now.planted = 0;
    fault = run();
    if (fault.what != NULL) {
        report(&fault);
        keep_call();
        exit(1);
    }
    count();
    if (has_state()) {
        now.numbers = result[OURS].numbers;
        memcpy(now.memory, result[OURS].memory, state_bytes(OURS));
    }
}

int hold(void)
{
    const int held = calls < phase_end && next_call();

    if (held)
        hold_both();
    now.known = 0;
    return held;
}

/* ---- All ---- */

void print_seen(const char *what, uint64_t count)
{
    printf("%-48s %11llu\n", what, (unsigned long long)count);
}

static int run_all(void)
{
    uint64_t share = 0;

    rng.state = seed;
    printf("seed %llu\n", (unsigned long long)seed);
    for (now.phase = 0; now.phase < about.phases; now.phase++) {
        const uint64_t from = calls;

        share += about.phase[now.phase].share;
        phase_end = limit * share / 1000;
        now.sort = 0;
        while (calls < phase_end)
            hold_some(now.phase);
        printf("%-18s %llu\n", about.phase[now.phase].name, (unsigned long long)(calls - from));
    }
    print_table();
    printf("%s %llu calls: no difference\n", kept_word, (unsigned long long)calls);
    if (plant != 0)
        printf("the plant was not found, or no call came for it\n");
    return plant != 0 ? 2 : 0;
}

int get_call(const char *name)
{
    static uint8_t input[BUFFER_ROOM];
    FILE *f = open_kept(name);
    uint8_t head[4];

    if (f == NULL || fread(head, 1, sizeof head, f) != sizeof head || !get_spots(f, now.spot, MEMORIES))
        return not_kept(name, f);
    now.phase = head[0];
    now.sort = head[1];
    now.planted = head[2];
    now.how = head[3];
    now.pattern = (size_t)get_number(f);
    now.room = (size_t)get_number(f);
    now.other = get_number(f);
    now.numbers = get_number(f);
    now.n = (size_t)get_number(f);
    now.input = input;
    if (now.phase >= about.phases || now.sort >= about.sorts || now.planted > SIDES || now.how >= about.wrongs || now.pattern >= PATTERNS
        || now.room > BUFFER_ROOM || now.n > sizeof input || state_bytes(OURS) > MEMORY_MOST
        || fread(now.memory, 1, state_bytes(OURS), f) != state_bytes(OURS) || fread(input, 1, now.n, f) != now.n || getc(f) != EOF)
        return not_kept(name, f);
    fclose(f);
    return 0;
}

int replay_call(void)
{
    const struct fault fault = run();

    if (fault.what != NULL)
        report(&fault);
    else {
        print_call();
        print_results();
    }
    printf("%s\n", fault.what != NULL ? "a difference" : "no difference");
    return fault.what != NULL;
}

int replay_kept(const char *name)
{
    const int status = get_call(name);

    return status != 0 ? status : replay_call();
}

int both(int argc, char **argv, uint64_t by_default, int (*replay)(const char *name))
{
    int side;

    for (side = 0; side < SIDES; side++) {
        lent_new(&lent[side][STATE], about.plain_bytes);
        lent_new(&lent[side][INPUT], BUFFER_ROOM);
        lent_new(&lent[side][BUFFER], BUFFER_ROOM);
    }
    return harness(argc, argv, by_default, run_all, replay);
}
