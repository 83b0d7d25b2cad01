#include <pixel.h>
#include "minmax.h"

static pixel blend(pixel a, pixel b)
{
    return PIXEL((RED(a) + RED(b)) / 2, (GREEN(a) + GREEN(b)) / 2, (BLUE(a) + BLUE(b)) / 2);
}

pixel pixel_fade(pixel from, pixel to, int steps)
{
    while (steps-- > 0)
        from = blend(from, to);
    return from;
}

int pixel_brightness(pixel p)
{
    return (int)MAX(MAX(RED(p), GREEN(p)), BLUE(p));
}

pixel pixel_black(void) { return BLACK; }
