/* Calls of the program's main. */
#ifndef CALL_H
#define CALL_H

#include "inputs.h"

enum { PROCESSOR_SECONDS = 30, SECONDS = 3600 };

/* How a call ended: its status, what it put, and how many blocks of memory it kept. */
struct end {
    int status;
    struct text output;
    long kept_blocks;
};

/* What is refused in a call: the request for memory with this number, and files longer than this; -1 where nothing is. */
struct refusal {
    long request;
    long file_size;
};

extern const struct refusal NOTHING_REFUSED;

/* Calls the program with the words of an input over the folder as it is. */
void call(const struct input *input, struct refusal refused, struct end *end);

/* Reads a file; a zero stands behind what it has. */
void read_whole(int from, struct text *to);

#endif
