/* Calls the program's main with words of one's own, counts its requests for memory, and limits what it gets. */
#define _GNU_SOURCE
#include "call.h"

#include <stdlib.h>
#include <string.h>
#include <sys/resource.h>
#include <sys/time.h>
#include <time.h>
#include <unistd.h>

#include "totals.h"

/* The program's main, under another name. */
int demacro_main(int count, char **words);

/* What the program asks for, in place of the functions of the kit and of C with such names. */
unsigned long rattle_arg_count(void);
long rattle_arg(unsigned long number, char *to, unsigned long room);
void *counted_malloc(size_t size);
void *counted_realloc(void *old, size_t size);
void counted_free(void *block);

const struct refusal NOTHING_REFUSED = { -1, -1 };

/* The words that the program asks for, in place of those with which the process began. */
static char *given_words[MOST_WORDS + 2];
static size_t given_count;

unsigned long rattle_arg_count(void) { return given_count; }

long rattle_arg(unsigned long number, char *to, unsigned long room)
{
    if (number >= given_count)
        return -1;
    size_t length = strlen(given_words[number]);
    if (length > room)
        return -2;
    memcpy(to, given_words[number], length);
    return (long)length;
}

/* The calls for memory, of which one may be refused. */
static long blocks, requests_left;

static int is_refused(void) { return requests_left >= 0 && requests_left-- == 0; }

void *counted_malloc(size_t size)
{
    void *block = is_refused() ? NULL : malloc(size);
    blocks += block != NULL;
    return block;
}

void *counted_realloc(void *old, size_t size)
{
    void *block = is_refused() ? NULL : realloc(old, size);
    blocks += block != NULL && old == NULL;
    return block;
}

void counted_free(void *block)
{
    blocks -= block != NULL;
    free(block);
}

void read_whole(int from, struct text *to)
{
    char bytes[4096];
    ssize_t length;
    to->length = 0;
    while ((length = read(from, bytes, sizeof bytes)) > 0)
        add_bytes(to, bytes, (size_t)length);
    need(length == 0, "read");
    add_bytes(to, "", 1);
    to->length--;
}

static void limit_file_size(long size)
{
    struct rlimit limit = { size < 0 ? RLIM_INFINITY : (rlim_t)size, RLIM_INFINITY };
    need(setrlimit(RLIMIT_FSIZE, &limit) == 0, "setrlimit");
}

/* A call that takes longer ends the process: of the processor's time so much, and much more where it waits. */
static void limit_time(time_t processor_seconds, unsigned seconds)
{
    struct itimerval limit = { { 0, 0 }, { processor_seconds, 0 } };
    need(setitimer(ITIMER_PROF, &limit, NULL) == 0, "setitimer");
    alarm(seconds);
}

static double seconds(void)
{
    struct timespec time;
    clock_gettime(CLOCK_PROCESS_CPUTIME_ID, &time);
    return (double)time.tv_sec + (double)time.tv_nsec * 1e-9;
}

static void note_time(double taken)
{
    if (taken <= totals->most_seconds)
        return;
    totals->most_seconds = taken;
    totals->slowest = totals->number;
}

static void give_words(const struct input *input)
{
    static char name[] = "demacro";
    given_words[0] = name;
    for (size_t number = 0; number < input->word_count; number++)
        given_words[number + 1] = (char *)input->words[number];
    given_count = input->word_count + 1;
    given_words[given_count] = NULL;
}

void call(const struct input *input, struct refusal refused, struct end *end)
{
    double begin = seconds();
    give_words(input);
    long blocks_before = blocks;
    need(ftruncate(STDOUT_FILENO, 0) == 0 && lseek(STDOUT_FILENO, 0, SEEK_SET) == 0, "output");
    limit_file_size(refused.file_size);
    requests_left = refused.request;
    limit_time(PROCESSOR_SECONDS, SECONDS);
    end->status = demacro_main((int)given_count, given_words);
    limit_time(0, 0);
    requests_left = -1;
    limit_file_size(-1);
    end->kept_blocks = blocks - blocks_before;
    need(lseek(STDOUT_FILENO, 0, SEEK_SET) == 0, "output");
    read_whole(STDOUT_FILENO, &end->output);
    note_time(seconds() - begin);
}
