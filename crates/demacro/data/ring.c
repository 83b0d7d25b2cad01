#include "ring.h"

void ring_put(struct ring *ring, int value)
{
    int next = RING_NEXT(ring->tail);
    if (next == ring->head) {
        ring->flags |= RING_OVERFLOWN;
        return;
    }
    ring->slots[ring->tail] = value;
    ring->tail = next;
}

int ring_get(struct ring *ring)
{
    int value = ring->slots[ring->head];
    ring->head = RING_NEXT(ring->head);
    return value;
}
