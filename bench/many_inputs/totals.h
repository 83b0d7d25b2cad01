/* What the processes count and report together. */
#ifndef TOTALS_H
#define TOTALS_H

#include <stdint.h>

enum { MOST_KEYS = 256 };

struct tally {
    char key[48];
    uint64_t count;
};

/* Stands in memory that the processes share; `number` is that of the input that is tried. */
struct totals {
    uint64_t number, slowest;
    double most_seconds;
    struct tally tallies[MOST_KEYS];
};

extern struct totals *totals;

/* Reports go to the output with which the process begins; from then on the output is a file in memory. */
void begin_totals(void);

void put_totals(void);

/* Counts one more of what these words say. */
__attribute__((format(printf, 1, 2))) void tally(const char *format, ...);

/* Reports what is wrong with the input that is tried. */
__attribute__((format(printf, 1, 2))) void fault(const char *format, ...);

__attribute__((format(printf, 1, 2))) void report(const char *format, ...);

enum { LOST = 99 };

/* Ends the process with LOST where the machine lets it down. */
void need(int holds, const char *what);

#endif
