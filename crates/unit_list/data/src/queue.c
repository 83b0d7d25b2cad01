#include "config.h"
#include "bits.h"

#ifndef QUEUE_SIZE
#define QUEUE_SIZE 16
#endif

#if QUEUE_SIZE <= 0 || (QUEUE_SIZE & (QUEUE_SIZE - 1)) != 0
#error "the size of the queue is no power of two"
#endif

#define NEXT(i) (((i) + 1) & (QUEUE_SIZE - 1))

static int items[QUEUE_SIZE];
static int first, last;

INLINE int queue_is_full(void) { return NEXT(last) == first; }

int queue_put(int item)
{
    if (queue_is_full())
        return 0;
    items[last] = item;
    last = NEXT(last);
    return 1;
}

int queue_take(int *item)
{
    if (first == last)
        return 0;
    *item = items[first];
    first = NEXT(first);
    return 1;
}
