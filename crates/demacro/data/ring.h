#ifndef RING_H
#define RING_H

#define RING_SIZE 16
#define RING_MASK (RING_SIZE - 1)
#define RING_NEXT(i) (((i) + 1) & RING_MASK)
#define RING_IS_EMPTY(r) ((r)->head == (r)->tail)
#define RING_BIT(n) (1u << (n))
#define RING_OVERFLOWN RING_BIT(0)
#define MAX(a, b) ((a) > (b) ? (a) : (b))

struct ring {
    int slots[RING_SIZE];
    int head;
    int tail;
    unsigned int flags;
};

void ring_put(struct ring *ring, int value);
int ring_get(struct ring *ring);

#endif
