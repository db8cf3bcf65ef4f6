/* Gives the same gatherings and sections to both readers of the guide, and compares every answer, every bit of the gathering, and every name: how many there are,
   where each is and how long. The section has to stay as it was.
   harness_guide [--seed N] [--calls M] [--plant ours|plain] [--keep FOLDER], or harness_guide --replay FILE
   The input of a difference is written to the folder. How far it has come goes to standard error. */
#include "both.h"
#include "guide.h"
#include "lukasembo.h"
#include "sections.h"

#include <string.h>

/* A section, given 1 where its gathering is the header's struct; how many names it has; one of them, whose number the call is given. */
enum { SECTION, NAMES, NAME, SORTS };

enum { IN_ORDER, RAN_OUT, HEADERS, LOOPS, LENGTHS, GATHERINGS, PHASES };
static const struct phase phases[PHASES] = {
    {"in order", 350}, {"ran out", 150}, {"headers damaged", 120}, {"loops damaged", 120}, {"lengths", 80}, {"gatherings", 180}
};

/* How a result is made wrong; the seed says which. */
enum { MISSING, AGAIN, REFUSAL, OFFSET, VERSION, UPPER_BITS, NOTED, WATCHED, SECTION_BYTE, NAME_COUNT, NAME_PLACE, NAME_LENGTH, WRONGS };

enum { WORDS = 4 }; /* of a gathering */

const struct about about = {phases, PHASES, SORTS, WRONGS, "noted", WORDS * sizeof(uint64_t), sizeof(struct plain_guide), 1};
const char kept_mark[5] = "LKG1", kept_word[] = "guide";

/* What an answer has beside its number. */
enum { REPEAT = 1 << 8, NOT_OURS = 1 << 9, NOT_YET = 1 << 10 };

static struct section section;
static struct tables tables;
static struct plain_guide_answer plain_answer; /* of the section at work */

static struct {
    uint64_t number[256], sections, noted, repeats, whole, not_ours, not_yet, emptied, upper, above, none_of_it;
    uint64_t counts, names, empty_names, no_name, most, longest;
} seen;

/* ---- One call ---- */

int has_state(void)
{
    return now.sort == SECTION;
}

static unsigned version_in(uint64_t numbers)
{
    return (unsigned)(numbers & 0xFF);
}

static unsigned last_in(uint64_t numbers)
{
    return (unsigned)(numbers >> 8 & 0xFF);
}

void print_numbers(const char *who, uint64_t numbers)
{
    printf("%-6s %016llx  version %u, last %u\n", who, (unsigned long long)numbers, version_in(numbers), last_in(numbers));
}

void print_answer(const char *who, uint64_t a)
{
    printf("%-6s %016llx  ", who, (unsigned long long)a);
    if (now.sort == NAMES)
        printf("names %llu\n", (unsigned long long)a);
    else if (now.sort == NAME)
        printf("at %u, length %llu\n", (unsigned)(a & 0xFFFF), (unsigned long long)(a >> 16));
    else
        printf("number %u%s%s%s, missing %u, offset %zu\n", (unsigned)lukasembo_number(a), lukasembo_repeat(a) ? ", repeat" : "",
               lukasembo_not_ours(a) ? ", not ours" : "", lukasembo_not_yet(a) ? ", not yet" : "", lukasembo_missing(a), lukasembo_offset(a));
}

void print_given(void)
{
    printf("section %zu bytes, %s; ", now.n, place_name(now.spot[INPUT]));
    if (now.sort == SECTION)
        printf("gathering %s\n", now.other == 0 ? place_name(now.spot[STATE]) : "as a struct");
    else if (now.sort == NAMES)
        printf("its names\n");
    else
        printf("name %llu\n", (unsigned long long)now.other);
}

const void *plain_state(void)
{
    static struct plain_guide g;

    g.version = (uint8_t)version_in(now.numbers);
    g.last = (uint8_t)last_in(now.numbers);
    memcpy(g.noted, now.memory, sizeof g.noted);
    return &g;
}

static void section_ours(struct result *to, const uint8_t *input)
{
    struct lukasembo_guide guide = {now.numbers, {0}};
    struct lukasembo_step step;

    to->memory = lent[OURS][STATE].at;
    if (now.other == 0) {
        step = lukasembo_guide_step(now.numbers, (uint64_t *)to->memory, input, now.n);
        to->answer = step.answer;
        to->numbers = step.numbers;
        return;
    }
    memcpy(guide.noted, to->memory, sizeof guide.noted);
    to->answer = lukasembo_guide(&guide, input, now.n);
    to->numbers = guide.numbers;
    memcpy(to->memory, guide.noted, sizeof guide.noted);
}

void call_ours(struct result *to)
{
    const uint8_t *input = lent[OURS][INPUT].at;
    struct lukasembo_name name;

    switch (now.sort) {
    case SECTION: section_ours(to, input); break;
    case NAMES: to->answer = lukasembo_guide_names(input, now.n); break;
    default:
        name = lukasembo_guide_name(input, now.n, (size_t)now.other);
        to->answer = (name.text != NULL ? (uint64_t)(name.text - input) : 0) | (uint64_t)name.length << 16;
        break;
    }
}

static int is_read(enum plain_guide_sort sort)
{
    return sort == PLAIN_NOTED || sort == PLAIN_REPEAT;
}

static void section_plain(struct result *to, const uint8_t *input)
{
    struct plain_guide *g = (struct plain_guide *)lent[PLAIN][STATE].at;
    const struct plain_guide_answer a = plain_answer = plain_guide(g, input, now.n);

    to->memory = (uint8_t *)g->noted;
    to->answer = a.number | (uint64_t)a.missing << 16 | (uint64_t)a.at << 32;
    to->answer |= a.sort == PLAIN_REPEAT ? REPEAT : a.sort == PLAIN_NOT_OURS ? NOT_OURS : a.sort == PLAIN_NOT_YET ? NOT_YET : 0;
    /* of numbers it has only two bytes: the others go where the section is read */
    to->numbers = (is_read(a.sort) ? 0 : now.numbers & ~(uint64_t)0xFFFF) | g->version | (uint64_t)g->last << 8;
}

/* By one pass, where the section is read. */
static uint64_t plain_count(const uint8_t *input)
{
    struct plain_guide empty = {0, 0, {0}};
    struct plain_names names;
    struct plain_name name;
    uint64_t count = 0;

    if (plain_guide(&empty, input, now.n).sort != PLAIN_NOTED)
        return 0;
    for (names = plain_guide_names(input, now.n); plain_guide_next(&names, &name); count++)
        ;
    return count;
}

void call_plain(struct result *to)
{
    const uint8_t *input = lent[PLAIN][INPUT].at;
    struct plain_name name;

    switch (now.sort) {
    case SECTION: section_plain(to, input); break;
    case NAMES: to->answer = plain_count(input); break;
    default:
        name = plain_guide_name(input, now.n, (size_t)now.other);
        to->answer = (uint64_t)(name.text - input) | (uint64_t)name.length << 16;
        break;
    }
}

int make_wrong(int side, unsigned how)
{
    struct result *r = &result[side];

    if (how == SECTION_BYTE)
        return now.n > 0 && flip(lent[side][INPUT].at + now.n - 1);
    if (now.sort != (how == NAME_COUNT ? NAMES : how > NAME_COUNT ? NAME : SECTION))
        return 0;
    switch (how) {
    case MISSING: return is_read(plain_answer.sort) && add_one(&r->answer, 16);
    case AGAIN: return plain_answer.sort == PLAIN_NOTED && add_one(&r->answer, 8);
    case REFUSAL: return add_one(&r->answer, 0);
    case OFFSET: return lukasembo_offset(r->answer) > 0 && add_one(&r->answer, 32);
    case VERSION: return add_one(&r->numbers, 0);
    case UPPER_BITS: return add_one(&r->numbers, 16);
    case NOTED: return flip(r->memory + about.bytes - 1);
    case WATCHED: return lent[side][STATE].before > 0 && flip(lent[side][STATE].at - 1);
    case NAME_COUNT: return add_one(&r->answer, 0);
    case NAME_PLACE: return r->answer > 0 && add_one(&r->answer, 0);
    default: return add_one(&r->answer, 16);
    }
}

size_t written_by(uint64_t a)
{
    (void)a;
    return 0;
}

/* ---- What holds for every call ---- */

enum { IN_LOOPS = 0xFF }; /* no answer */

/* By the order of the checks: the answer, but where the loops decide. */
static uint64_t answer_due(void)
{
    const uint8_t *s = now.input;

    if (now.n == 0)
        return LUKASEMBO_BAD_SECTION;
    if (s[0] != SECTION_TABLE)
        return NOT_OURS;
    if (now.n < SECTION_SHORTEST || now.n > SECTION_LONGEST || (s[1] & 15u) << 8 != ((now.n - 3) & 0xF00) || s[2] != ((now.n - 3) & 0xFF))
        return LUKASEMBO_BAD_SECTION;
    if (s[3] != 0)
        return LUKASEMBO_OTHER_PROTOCOL;
    if (s[5] % 2 == 0)
        return NOT_YET;
    return s[6] > s[7] ? LUKASEMBO_ABOVE_LAST : IN_LOOPS;
}

static int has_bit(const uint8_t *words, unsigned number)
{
    uint64_t word;

    memcpy(&word, words + number / 64 * sizeof word, sizeof word);
    return word >> number % 64 & 1;
}

/* Whether the section was to be read into a gathering of this version and last number. */
static int goes_on(void)
{
    return version_in(now.numbers) == (now.input[5] >> 1 & 31u) && last_in(now.numbers) == now.input[7];
}

/* Whether a section that was read left the gathering and the answer that it should, one number after the other. */
static int is_gathered(const struct result *r)
{
    const unsigned number = now.input[6], last = now.input[7];
    const int kept = goes_on();
    unsigned missing = 0, i;

    for (i = 0; i < SECTION_NUMBERS; i++) {
        if (has_bit(r->memory, i) != (i == number || (kept && has_bit(now.memory, i))))
            return 0;
        missing += i <= last && !has_bit(r->memory, i);
    }
    return r->numbers == ((now.input[5] >> 1 & 31u) | (uint64_t)last << 8)
           && r->answer == ((uint64_t)missing << 16 | (kept && has_bit(now.memory, number) ? REPEAT : 0));
}

/* Whether the header's functions say of ours what plain's answer has. */
static int is_told(uint64_t a)
{
    const struct plain_guide_answer *p = &plain_answer;

    return lukasembo_number(a) == p->number && lukasembo_missing(a) == p->missing && lukasembo_offset(a) == p->at
           && lukasembo_not_ours(a) == (p->sort == PLAIN_NOT_OURS) && lukasembo_not_yet(a) == (p->sort == PLAIN_NOT_YET)
           && lukasembo_repeat(a) == (p->sort == PLAIN_REPEAT) && lukasembo_new(a) == (p->sort == PLAIN_NOTED)
           && lukasembo_whole(a) == (is_read(p->sort) && p->missing == 0);
}

const char *rules(void)
{
    const struct result *r = &result[OURS];
    const uint64_t a = r->answer, due = answer_due();

    if (now.sort == NAMES)
        return a > (due == IN_LOOPS ? now.input[SECTION_LOOPS] : 0u) ? "both count more names than they may" : NULL;
    if (now.sort == NAME)
        return (a & 0xFFFF) + (a >> 16) > now.n || (a > 0 && (a & 0xFFFF) <= SECTION_SHORTEST) ? "both have a name that is not in the section" : NULL;
    if (!is_told(a))
        return "the header's functions say something else of ours than plain does";
    if (due == IN_LOOPS && is_read(plain_answer.sort))
        return is_gathered(r) ? NULL : "both gather what they may not";
    if (due != IN_LOOPS ? a != due : lukasembo_offset(a) < SECTION_SHORTEST || lukasembo_offset(a) > now.n)
        return "both answer what they may not";
    return r->numbers != now.numbers || memcmp(r->memory, now.memory, about.bytes) != 0 ? "both change the gathering" : NULL;
}

static void count_section(uint64_t a)
{
    seen.sections++;
    seen.number[lukasembo_number(a)]++;
    seen.noted += lukasembo_new(a);
    seen.repeats += lukasembo_repeat(a);
    seen.whole += lukasembo_whole(a) && lukasembo_new(a);
    seen.not_ours += lukasembo_not_ours(a);
    seen.not_yet += lukasembo_not_yet(a);
    seen.none_of_it += lukasembo_offset(a) > 0 && lukasembo_offset(a) == now.n;
    seen.upper += now.numbers >> 16 != 0;
    seen.above += last_in(now.numbers) < SECTION_NUMBERS - 1 && has_bit(now.memory, last_in(now.numbers) + 1);
    if (is_read(plain_answer.sort)) {
        seen.emptied += !goes_on();
        seen.longest = now.n > seen.longest ? now.n : seen.longest;
    }
}

void count(void)
{
    const uint64_t a = result[OURS].answer;

    switch (now.sort) {
    case NAMES:
        seen.counts++;
        seen.most = a > seen.most ? a : seen.most;
        break;
    case NAME: ++*(a == 0 ? &seen.no_name : a >> 16 == 0 ? &seen.empty_names : &seen.names); break;
    default: count_section(a); break;
    }
}

/* ---- What the phases give ---- */

/* Whether it was held. */
static int hold_next(int sort, const uint8_t *bytes, size_t n, uint64_t other)
{
    now.sort = sort;
    now.input = now.want_bytes = bytes;
    now.n = n;
    now.other = other;
    return hold();
}

static void want(uint64_t answer)
{
    now.known = 1;
    now.want = answer;
}

/* A number that no name has: the first such, the greatest, one whose low bits are those of a name's number, or any. */
static uint64_t past(uint64_t count)
{
    const uint64_t any = rng_next(&rng), below = count > 0 ? any % count : 0;

    switch (any >> 60) {
    case 0: case 1: case 2: case 3: return count;
    case 4: case 5: return SIZE_MAX;
    case 6: return SECTION_NUMBERS + below;
    case 7: return (UINT64_C(1) << 16) + below;
    case 8: return (UINT64_C(1) << 32) + below;
    case 9: return (UINT64_C(1) << 63) + below;
    case 10: return SECTION_MOST > count ? SECTION_MOST : SECTION_NUMBERS;
    default: return count + 1 + any % 300;
    }
}

/* The names of a section: how many, and all or a few of them, and one past the last. Of a section as it was made all is known. */
static void hold_names(const uint8_t *bytes, size_t n, const struct section *made)
{
    uint64_t count, few, i;

    if (made != NULL)
        want(made->names);
    if (!hold_next(NAMES, bytes, n, 0))
        return;
    count = result[OURS].answer;
    few = count <= 8 || rng_once_in(&rng, 32) ? count : 4;
    for (i = 0; i < few; i++) {
        const uint64_t which = few == count ? i : rng_below(&rng, (unsigned)count);

        if (made != NULL)
            want(section_place(made, (size_t)which));
        hold_next(NAME, bytes, n, which);
    }
    want(0);
    hold_next(NAME, bytes, n, past(count));
}

/* A section, and its names once in a few times. */
static void hold_section(const uint8_t *bytes, size_t n)
{
    hold_next(SECTION, bytes, n, rng_once_in(&rng, 8));
    if (rng_once_in(&rng, 6))
        hold_names(bytes, n, NULL);
}

/* The next section of the tables. */
static void make_next(void)
{
    section_any(&rng, &section);
    tables_next(&rng, &tables, &section);
}

/* ---- The phases: what each holds again and again, until it has had its share ---- */

/* Tables of which all is known, from an empty gathering on. */
static void in_order(void)
{
    static uint8_t noted[SECTION_NUMBERS];
    unsigned turn, version = 0, last = 0, missing = 1;

    memset(noted, 0, sizeof noted);
    memset(now.memory, 0, about.bytes);
    now.numbers = 0;
    for (turn = 0; turn < 600; turn++) {
        int repeat;

        make_next();
        if (tables.version != version || tables.last != last) {
            memset(noted, 0, sizeof noted);
            version = tables.version;
            last = tables.last;
            missing = last + 1;
        }
        repeat = noted[section.bytes[6]];
        noted[section.bytes[6]] = 1;
        missing -= !repeat;
        want((uint64_t)missing << 16 | (repeat ? REPEAT : 0));
        hold_next(SECTION, section.bytes, section.n, rng_once_in(&rng, 8));
        if (rng_once_in(&rng, 3))
            hold_names(section.bytes, section.n, &section);
        if (rng_once_in(&rng, 8)) { /* and one that is not read */
            section_damage(&rng, &section, rng_below(&rng, 4));
            hold_next(SECTION, section.bytes, section.n, 0);
        }
    }
}

/* Its first n bytes, or bytes behind it, with a section_length that says so, and where that runs over. */
static void hold_cut(size_t n)
{
    const size_t whole = section.start[section.things];

    section.n = n;
    section_mend(&section);
    if (n > SECTION_LONGEST)
        want(LUKASEMBO_BAD_SECTION);
    else if (n != whole)
        want(LUKASEMBO_RUNS_OVER | (uint64_t)section_runs_over(&section, n) << 32);
    hold_section(section.bytes, n);
}

/* A section cut to each of its lengths, if they are not too many, or about where a thing begins; and with bytes behind it. */
static void ran_out(void)
{
    size_t whole, i;

    make_next();
    whole = section.n;
    section_pad(&rng, &section, whole + 8);
    if (whole < 100)
        for (i = SECTION_SHORTEST; i < whole; i++)
            hold_cut(i);
    else
        for (i = 0; i < 60; i++) {
            const size_t at = section.start[rng_edge(&rng, (unsigned)section.things)] + rng_below(&rng, 4);

            hold_cut(at > SECTION_SHORTEST ? at - 1 : SECTION_SHORTEST);
        }
    for (i = 0; i < 3; i++)
        hold_cut(whole + 1 + rng_edge(&rng, 6));
    hold_cut(whole);
}

/* Every bit up to the loops' first count and with it turned over in its turn; then one damage after another out of these. */
static void damaged(const uint8_t *damages, unsigned count, int bits)
{
    static unsigned next;
    unsigned turn, times;

    make_next();
    for (turn = 0; bits && turn < 8; turn++, next++) {
        const unsigned at = next / 8 % SECTION_SHORTEST, bit = 1u << next % 8;

        section.bytes[at] ^= (uint8_t)bit;
        hold_section(section.bytes, section.n);
        section.bytes[at] ^= (uint8_t)bit;
    }
    for (times = 1 + rng_below(&rng, 3); times > 0; times--) {
        section_damage(&rng, &section, damages[rng_below(&rng, count)]);
        hold_section(section.bytes, section.n);
    }
}

/* A section with every length from 0 to 4,200, which its section_length says or not; and with lengths of which the low bits are those that it says. */
static void lengths(void)
{
    static uint8_t bytes[BUFFER_ROOM];
    static size_t next;
    unsigned turn;

    make_next();
    section_pad(&rng, &section, 4200);
    if (rng_once_in(&rng, 4))
        section.bytes[0] = (uint8_t)rng_next(&rng);
    for (turn = 0; turn < 20; turn++, next++) {
        section.n = next % 4201;
        if (turn % 4 > 0)
            section_mend(&section);
        hold_section(section.bytes, section.n);
    }
    section.n = section.start[section.things];
    section_mend(&section);
    memcpy(bytes, section.bytes, section.n);
    hold_section(bytes, section.n + (rng_once_in(&rng, 4) ? LONG : 4096 * (1 + rng_below(&rng, 15))));
}

/* A gathering for a section, that calls need not make: version, last number and words are any, or about those of the section. */
static void disturb(void)
{
    const uint64_t x = rng_next(&rng);
    uint64_t word;
    size_t i;

    now.numbers = (section.bytes[5] >> 1 & 31u) | (uint64_t)section.bytes[7] << 8 | ((x & 1) != 0 ? x >> 16 << 16 : 0);
    switch (x >> 1 & 15) {
    case 0: now.numbers ^= x >> 8 & 0xFF; break;
    case 1: now.numbers ^= (x >> 8 & 7) << 5; break; /* a version whose low five bits are the section's */
    case 2: now.numbers ^= UINT64_C(1) << (x >> 8 & 15); break;
    case 3: now.numbers = x; break;
    default: break;
    }
    for (i = 0; i < WORDS; i++) {
        const uint64_t any = rng_next(&rng), bit = UINT64_C(1) << (any & 63);

        switch (any >> 6 & 7) {
        case 0: word = 0; break;
        case 1: word = ~UINT64_C(0); break;
        case 2: word = bit; break;
        case 3: word = ~bit; break;
        default: word = rng_next(&rng); break;
        }
        memcpy(now.memory + i * sizeof word, &word, sizeof word);
    }
}

/* A section for gatherings that calls need not make, and again for what is then left; at times it is damaged. */
static void gatherings(void)
{
    unsigned turn;

    make_next();
    if (rng_once_in(&rng, 8))
        section_damage(&rng, &section, rng_below(&rng, SECTION_DAMAGES));
    for (turn = 0; turn < 8; turn++) {
        disturb();
        hold_section(section.bytes, section.n);
        if (rng_once_in(&rng, 4))
            hold_section(section.bytes, section.n);
    }
}

/* ---- All ---- */

void hold_some(int phase)
{
    static const uint8_t header[] = {0, 1, 2, 3, 4, 5, 9}, loops[] = {6, 6, 7, 8, 9, 10, 11, 11};

    switch (phase) {
    case IN_ORDER: in_order(); break;
    case RAN_OUT: ran_out(); break;
    case HEADERS: damaged(header, sizeof header, 1); break;
    case LOOPS: damaged(loops, sizeof loops, 0); break;
    case LENGTHS: lengths(); break;
    default: gatherings(); break;
    }
}

void print_table(void)
{
    print_seen("sections", seen.sections);
    print_seen("  noted", seen.noted);
    print_seen("  repeats", seen.repeats);
    print_seen("  not ours", seen.not_ours);
    print_seen("  not yet", seen.not_yet);
    print_seen("  20", seen.number[20]);
    print_seen("  21", seen.number[21]);
    print_seen("  22", seen.number[22]);
    print_seen("  23", seen.number[23]);
    print_seen("  23, and no byte of what does not fit is there", seen.none_of_it);
    print_seen("tables that became whole", seen.whole);
    print_seen("gatherings that were emptied first", seen.emptied);
    print_seen("gatherings with a bit that is disregarded", seen.upper);
    print_seen("gatherings with the bit above the last number", seen.above);
    print_seen("the longest section that was read, in bytes", seen.longest);
    print_seen("counts of names", seen.counts);
    print_seen("  the most", seen.most);
    print_seen("names", seen.names);
    print_seen("empty names", seen.empty_names);
    print_seen("numbers that no name has", seen.no_name);
}

int main(int argc, char **argv)
{
    return both(argc, argv, 1500000, replay_kept);
}
