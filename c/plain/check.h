/* For the tests: checks that are counted, and programs run on given bytes. */
#ifndef CHECK_H
#define CHECK_H

#include <stdint.h>
#include <stdio.h>
#include <stdlib.h>
#include <string.h>

#define LEN(a) (sizeof(a) / sizeof *(a))
#define CHECK(c) check((c) != 0, #c, __LINE__)

static unsigned long differ, checked;

static inline void check(int good, const char *what, int line)
{
    checked++;
    if (!good && differ++ < 20)
        printf("line %d differs: %s\n", line, what);
}

/* Prints "ok" or how many differ; the exit status. */
static inline int verdict(void)
{
    if (differ != 0) {
        printf("%lu of %lu checks differ\n", differ, checked);
        return 1;
    }
    printf("ok\n");
    return 0;
}

static inline int all(const uint8_t *p, size_t n, uint8_t value)
{
    return n == 0 || (p[0] == value && memcmp(p, p + 1, n - 1) == 0);
}

/* The program under test, and its input so far. */
static const char *program;
static uint8_t input[700000];
static size_t input_n;

static inline void add(const void *bytes, size_t n)
{
    memcpy(input + input_n, bytes, n);
    input_n += n;
}

/* Runs it on its input, given in pieces of that many bytes (0: a file), with these words behind it. Answers its status. */
static inline int run_program(const char *words, size_t piece)
{
    char command[600];
    FILE *f;
    size_t at, n;

    if (piece == 0) {
        f = fopen("test.in", "wb");
        if (f == NULL || fwrite(input, 1, input_n, f) != input_n || fclose(f) != 0)
            return -1;
        snprintf(command, sizeof command, "%s <test.in %s", program, words);
        return system(command);
    }
    snprintf(command, sizeof command, "%s %s", program, words);
    f = popen(command, "w");
    if (f == NULL)
        return -1;
    setvbuf(f, NULL, _IONBF, 0);
    for (at = 0; at < input_n; at += n) {
        n = input_n - at < piece ? input_n - at : piece;
        if (fwrite(input + at, 1, n, f) != n)
            break;
    }
    return pclose(f);
}

/* Whether a file has these bytes; there may be 4,000,000. */
static inline int has(const char *file, const void *want, size_t n)
{
    static char got[4000001];
    FILE *f = fopen(file, "rb");
    size_t came;

    if (f == NULL)
        return 0;
    came = fread(got, 1, sizeof got, f);
    fclose(f);
    return came == n && memcmp(got, want, n) == 0;
}

/* Runs a command with the program in it; whether the status, the output and standard error are these. */
static inline int does(const char *command, int status, const char *out, const char *err)
{
    char line[600];

    snprintf(line, sizeof line, command, program);
    return system(line) == status && has("test.out", out, strlen(out)) && has("test.err", err, strlen(err));
}

/* Whether it does so, and this, behind its name, is what it says on standard error. */
static inline int says(const char *command, int status, const char *name, const char *what)
{
    char line[200];

    snprintf(line, sizeof line, "%s: %s\n", name, what);
    return does(command, status, "", line);
}

/* Of a program that prints lines: what it reads and writes fails, and it has a word. What it has for the file of its last input begins with S. */
static inline void check_failures(const char *name)
{
    CHECK(says(": >test.out; %s <test.in >/dev/full 2>test.err", 0, name, "standard output could not be written: No space left on device"));
    CHECK(does("(%s <test.in 2>test.err; echo $? >>test.err) | head -c 1 >test.out", 0, "S", "0\n"));
    CHECK(says("%s </ >test.out 2>test.err", 0, name, "standard input could not be read: Is a directory"));
    CHECK(says("%s word <test.in >test.out 2>test.err", 512, name, "takes no words; put < before a file's name"));
    remove("test.in");
    remove("test.out");
    remove("test.err");
}

#endif
