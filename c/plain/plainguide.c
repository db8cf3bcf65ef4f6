/* The program guide: sections on standard input, lines on standard output. */
#define _POSIX_C_SOURCE 200809L

#include "guide.h"
#include "program.h"

enum { LINES = 64 + 10 * PLAIN_NAMES + 4 * PLAIN_SECTION }; /* more than one record ever prints */

static struct plain_guide gathering;

/* Bytes 20 to 7E as they are, but the backslash twice; any other as \x and two digits. */
static void put_escaped(struct output *out, const struct plain_name *name)
{
    static const char digits[] = "0123456789abcdef";
    uint8_t *to = out->bytes + out->used;
    size_t i;

    for (i = 0; i < name->length; i++) {
        const uint8_t byte = name->text[i];

        if (byte >= 0x20 && byte <= 0x7E) {
            if (byte == '\\')
                *to++ = '\\';
            *to++ = byte;
        } else {
            to[0] = '\\';
            to[1] = 'x';
            to[2] = (uint8_t)digits[byte >> 4];
            to[3] = (uint8_t)digits[byte & 15];
            to += 4;
        }
    }
    out->used = (size_t)(to - out->bytes);
}

static void put_names(struct output *out, const uint8_t *section, size_t length)
{
    struct plain_names names = plain_guide_names(section, length);
    struct plain_name name;
    unsigned i;

    for (i = 0; plain_guide_next(&names, &name); i++) {
        put_text(out, "name ");
        put_number(out, i, name.length > 0 ? ' ' : '\n');
        if (name.length > 0) {
            put_escaped(out, &name);
            put_text(out, "\n");
        }
    }
}

static void do_section(struct output *to, const uint8_t *section, size_t length)
{
    const struct plain_guide_answer a = plain_guide(&gathering, section, length);

    switch (a.sort) {
    case PLAIN_NOTED:
        put_text(to, "SE 0 missing ");
        put_number(to, a.missing, '\n');
        put_names(to, section, length);
        break;
    case PLAIN_REPEAT:
        put_text(to, "SE 0 repeat missing ");
        put_number(to, a.missing, '\n');
        break;
    case PLAIN_NOT_OURS:
        put_text(to, "SE not ours\n");
        break;
    case PLAIN_NOT_YET:
        put_text(to, "SE not yet\n");
        break;
    case PLAIN_REFUSED:
        put_refused(to, "SE ", a.number, 23, a.at);
        break;
    }
}

static size_t take(struct output *out, const uint8_t *in, size_t n)
{
    const size_t size = record_at(in, n, "SE");

    if (size != 0 && size != UNKNOWN)
        do_section(out, in + HEAD, size - HEAD);
    return size;
}

int main(int argc, char **argv)
{
    static const struct program guide = {"plainguide", LINES, take};

    (void)argv;
    return run_program(&guide, argc);
}
