/* How calls are timed: in rounds, of each of which a batch of calls is a part. */
#ifndef CLOCK_H
#define CLOCK_H

enum { ROUNDS = 11 };

#define BATCH_SECONDS 0.002    /* the least that a batch takes */

/* The processor time that the program has taken. */
double seconds(void);

/* The middle one of so many times as there are rounds; it puts them in order. */
double median(double *times);

#endif
