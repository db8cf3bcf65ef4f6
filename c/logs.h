/* Logs from a generator, record by record to standard output. */
#ifndef LOGS_H
#define LOGS_H

#include "random.h"

extern unsigned long logs_left; /* segments still to write; what is more is left out */

/* The segments of a chunk of one kind or of both, in any order, and a boundary behind them as a rule. One chunk in five is refused when it is complete. So many times
   there may be repeats, segments that are refused, a clash, a boundary in the midst and a piece lost. */
void logs_gathering(struct rng *r, unsigned extras);

/* A chunk of each kind, of one segment or of 183 services, and a boundary. */
void logs_pair(struct rng *r, int longest);

/* One list of 16 segments, then repeats of its pieces in turn, until there are enough. */
void logs_repeats(struct rng *r);

/* A record that is cut short. */
void logs_cut(struct rng *r);

#endif
