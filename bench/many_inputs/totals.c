/* Counts and reports. */
#define _GNU_SOURCE
#include "totals.h"

#include <errno.h>
#include <stdarg.h>
#include <stdio.h>
#include <string.h>
#include <sys/mman.h>
#include <unistd.h>

struct totals *totals;

static int report_to = STDOUT_FILENO;

void report(const char *format, ...)
{
    va_list given;
    va_start(given, format);
    vdprintf(report_to, format, given);
    va_end(given);
}

void need(int holds, const char *what)
{
    if (holds)
        return;
    report("lost at input %llu: %s: %s\n", totals != NULL ? (unsigned long long)totals->number : 0, what, strerror(errno));
    _exit(LOST);
}

void tally(const char *format, ...)
{
    char key[sizeof totals->tallies[0].key];
    va_list given;
    va_start(given, format);
    vsnprintf(key, sizeof key, format, given);
    va_end(given);
    for (size_t at = 0; at < MOST_KEYS; at++) {
        struct tally *tally = &totals->tallies[at];
        if (tally->key[0] == '\0')
            strcpy(tally->key, key);
        if (strcmp(tally->key, key) == 0) {
            tally->count++;
            return;
        }
    }
    need(0, "too many keys");
}

void fault(const char *format, ...)
{
    char line[512];
    va_list given;
    va_start(given, format);
    vsnprintf(line, sizeof line, format, given);
    va_end(given);
    tally("faults");
    report("fault input %llu: %s\n", (unsigned long long)totals->number, line);
}

void begin_totals(void)
{
    void *shared = mmap(NULL, sizeof *totals, PROT_READ | PROT_WRITE, MAP_SHARED | MAP_ANONYMOUS, -1, 0);
    need(shared != MAP_FAILED, "mmap");
    totals = shared;
    report_to = dup(STDOUT_FILENO);
    need(report_to >= 0 && dup2(memfd_create("output", 0), STDOUT_FILENO) == STDOUT_FILENO, "output");
}

void put_totals(void)
{
    for (size_t at = 0; at < MOST_KEYS && totals->tallies[at].key[0] != '\0'; at++)
        report("count %llu %s\n", (unsigned long long)totals->tallies[at].count, totals->tallies[at].key);
    report("slowest %.3f %llu\n", totals->most_seconds, (unsigned long long)totals->slowest);
}
