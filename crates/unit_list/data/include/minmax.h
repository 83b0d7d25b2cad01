#ifndef MINMAX_H
#define MINMAX_H

#define MIN(a, b) ((a) < (b) ? (a) : (b))
#define MAX(a, b) ((a) > (b) ? (a) : (b))
#define CLAMP(x, low, high) MIN(MAX(x, low), high)
#define ABS(x) ((x) < 0 ? -(x) : (x))
#define SWAP(type, a, b) do { type swap_ = (a); (a) = (b); (b) = swap_; } while (0)
#define COUNT_OF(array) (sizeof (array) / sizeof ((array)[0]))

#endif /* MINMAX_H */
