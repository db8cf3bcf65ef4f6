/* What the harnesses of the tunnel, of the guide and of explanations share: a call with a state, which is given to both sides, compared, told, kept and run again. */
#ifndef BOTH_H
#define BOTH_H

#include "lent.h"

enum { STATE, INPUT, BUFFER, MEMORIES };
enum { MEMORY_MOST = BUFFER_ROOM }; /* bytes of a state's memory */

struct call {
    int phase;
    int sort;        /* which of the harness's calls it is */
    uint8_t planted; /* 0, or 1 + the side whose result was made wrong */
    uint8_t how;
    struct spot spot[MEMORIES];
    size_t pattern; /* where in the pattern the buffer's bytes begin */
    size_t n, room;
    uint64_t numbers, other; /* the state's, and what else the call is given */
    uint8_t memory[MEMORY_MOST];
    const uint8_t *input;
    int known; /* 1: the answer is, and what it writes */
    uint64_t want;
    const uint8_t *want_bytes;
};

struct result {
    uint64_t answer, numbers;
    uint8_t *memory;
};

extern struct rng rng;
extern struct lent lent[SIDES][MEMORIES];

/* The call at work, and what came of it. Its state is the next call's. */
extern struct call now;
extern struct result result[SIDES];
extern uint64_t phase_end; /* the number of calls at which the phase has had its share */

/* ---- Of the harness ---- */

struct phase {
    const char *name;
    unsigned share; /* of 1,000 calls */
};

extern const struct about {
    const struct phase *phase;
    int phases, sorts;
    unsigned wrongs;           /* ways in which a result is made wrong */
    const char *memory;        /* what the state's memory is called */
    size_t bytes, plain_bytes; /* how long it is (0: as long as the call's other says), and the state as the plain side has it (then, at the most) */
    int words;                 /* 1: it is numbers of 8 bytes, and stands where these may */
} about;

int has_state(void);                                /* whether the call at work has one */
void print_given(void);                             /* what the call at work is given, but for its input's bytes */
void print_answer(const char *who, uint64_t answer);
void print_numbers(const char *who, uint64_t numbers);
const void *plain_state(void);                      /* the state as the plain side has it */
void call_ours(struct result *to);
void call_plain(struct result *to);                 /* in the form of ours */
int make_wrong(int side, unsigned how);             /* one side's result, where it can be */
size_t written_by(uint64_t answer);                 /* bytes at the start of the output */
const char *rules(void);                            /* what both do alike and may not do; null if nothing */
void count(void);                                   /* what is seen of the call */
void hold_some(int phase);                          /* what a phase holds again and again, until it has had its share */
void print_table(void);                             /* of what was seen */

/* ---- For it ---- */

/* Changes what it is given, for make_wrong; 1. */
int flip(uint8_t *byte);
int add_one(uint64_t *number, unsigned bit);

/* The call that now has, but for its memories' places, if the phase has not had its share. Whether it was held. */
int hold(void);

void print_seen(const char *what, uint64_t count);

/* A kept call into now; 0, or the exit status where the file has none. */
int get_call(const char *name);

/* Runs it again; the exit status. */
int replay_call(void);

/* The two, one behind the other. */
int replay_kept(const char *name);

/* Of main: so many calls by default; how a file is replayed. */
int both(int argc, char **argv, uint64_t by_default, int (*replay)(const char *name));

#endif
