#include <stdio.h>
#include "ring.h"

#define SHOW(c) putchar(c)

static struct ring ring;

int main(void)
{
    int most = 0;
    int c;
    while ((c = getchar()) != EOF) {
        ring_put(&ring, c);
    }
    while (!RING_IS_EMPTY(&ring)) {
        most = MAX(most, ring_get(&ring));
    }
    SHOW(most);
    SHOW('\n');
    return ring.flags == RING_OVERFLOWN;
}
