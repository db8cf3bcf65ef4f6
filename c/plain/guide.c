#include "guide.h"

enum {
    GAT_MH = 0xDC,      /* the table_id */
    SHORTEST = 9,       /* up to the number of providers */
    LENGTH_MOST = 4093, /* of section_length */
    LENGTH_END = 3      /* it counts the bytes from here on */
};

/* ---- One thing after the other ---- */

/* Each answers whether what is at the place fits. If so the place is behind it; if not, it is that of the first thing that does not. */

static inline int step_name(struct plain_names *w, struct plain_name *name)
{
    const uint8_t *at = w->at;

    if (at == w->end || at[0] >= w->end - at)
        return 0;
    name->text = at + 1;
    name->length = at[0];
    w->at = at + 1 + at[0];
    return 1;
}

/* A count, and so many descriptors. */
static inline int step_descriptors(struct plain_names *w)
{
    const uint8_t *at = w->at, *const end = w->end;
    unsigned count;

    if (at == end)
        return 0;
    for (count = *at++; count > 0; count--) {
        if (end - at < 2 || at[1] > end - at - 2)
            break;
        at += 2 + at[1];
    }
    w->at = at;
    return count == 0;
}

/* Also 0 behind the last provider; then none is left. */
static inline int step_provider(struct plain_names *w, struct plain_name *name)
{
    if (w->left == 0 || !step_name(w, name) || !step_descriptors(w))
        return 0;
    w->left--;
    return 1;
}

static inline struct plain_names first_provider(const uint8_t *section, size_t length)
{
    const struct plain_names w = {section + SHORTEST, section + length, section[SHORTEST - 1]};

    return w;
}

struct plain_names plain_guide_names(const uint8_t *section, size_t length)
{
    return first_provider(section, length);
}

int plain_guide_next(struct plain_names *names, struct plain_name *name)
{
    return step_provider(names, name);
}

/* ---- A section ---- */

static inline struct plain_guide_answer answer(enum plain_guide_sort sort, unsigned number, size_t at)
{
    const struct plain_guide_answer a = {sort, number, 0, (unsigned)at};

    return a;
}

/* Whether section_length is allowed and that of the bytes given. */
static inline int has_length(const uint8_t *section, size_t length)
{
    const unsigned own = (section[1] & 0x0Fu) << 8 | section[2];

    return own <= LENGTH_MOST && own + LENGTH_END == length;
}

/* The answer by the section alone, which is noted where it is not otherwise. *nth becomes the n-th name if it is come to, also where the section is refused behind it. */
static inline struct plain_guide_answer look(const uint8_t *section, size_t length, size_t n, struct plain_name *nth)
{
    struct plain_names w;
    struct plain_name name;
    size_t i;

    if (length == 0)
        return answer(PLAIN_REFUSED, 20, 0);
    if (section[0] != GAT_MH)
        return answer(PLAIN_NOT_OURS, 0, 0);
    if (length < SHORTEST || !has_length(section, length))
        return answer(PLAIN_REFUSED, 20, 0);
    if (section[3] != 0)
        return answer(PLAIN_REFUSED, 21, 0);
    if ((section[5] & 1) == 0)
        return answer(PLAIN_NOT_YET, 0, 0);
    if (section[6] > section[7])
        return answer(PLAIN_REFUSED, 22, 0);
    w = first_provider(section, length);
    for (i = 0; step_provider(&w, &name); i++)
        if (i == n)
            *nth = name;
    if (w.left > 0 || !step_descriptors(&w) || w.at != w.end)
        return answer(PLAIN_REFUSED, 23, (size_t)(w.at - section));
    return answer(PLAIN_NOTED, 0, 0);
}

struct plain_name plain_guide_name(const uint8_t *section, size_t length, size_t n)
{
    const struct plain_name none = {section, 0};
    struct plain_name nth = none;

    return look(section, length, n, &nth).sort == PLAIN_NOTED ? nth : none;
}

/* ---- The gathering ---- */

static void empty(struct plain_guide *g, uint8_t version, uint8_t last)
{
    g->version = version;
    g->last = last;
    g->noted[0] = g->noted[1] = g->noted[2] = g->noted[3] = 0;
}

/* Whether it is noted only now. */
static int note(struct plain_guide *g, unsigned number)
{
    uint64_t *word = &g->noted[number / 64];
    const uint64_t bit = (uint64_t)1 << number % 64;
    const int is_new = (*word & bit) == 0;

    *word |= bit;
    return is_new;
}

static unsigned missing(const struct plain_guide *g)
{
    const unsigned whole = g->last / 64u; /* words that are counted whole */
    unsigned count = (unsigned)__builtin_popcountll(g->noted[whole] << (63 - g->last % 64)), i;

    for (i = 0; i < whole; i++)
        count += (unsigned)__builtin_popcountll(g->noted[i]);
    return g->last + 1u - count;
}

struct plain_guide_answer plain_guide(struct plain_guide *gathering, const uint8_t *section, size_t length)
{
    struct plain_name none;
    struct plain_guide_answer a = look(section, length, PLAIN_NAMES, &none);

    if (a.sort == PLAIN_NOTED) {
        const uint8_t version = section[5] >> 1 & 0x1F, number = section[6], last = section[7];

        if (gathering->version != version || gathering->last != last)
            empty(gathering, version, last);
        if (!note(gathering, number))
            a.sort = PLAIN_REPEAT;
        a.missing = missing(gathering);
    }
    return a;
}
