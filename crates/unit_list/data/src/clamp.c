#include "minmax.h"
#include "minmax.h"

#define LOWEST (-128)
#define HIGHEST 127
#define LIMITED(x) CLAMP((x), LOWEST, HIGHEST)

int clamp(int x) { return LIMITED(x); }
int distance(int a, int b) { return ABS(a - b); }

void order(int *a, int *b)
{
    if (MIN(*a, *b) != *a)
        SWAP(int, *a, *b);
}

#undef HIGHEST
#define HIGHEST 255
int clamp_wide(int x) { return LIMITED(x); }
