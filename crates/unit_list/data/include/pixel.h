#ifndef PIXEL_H
#define PIXEL_H

#include "config.h"
#include "bits.h"

#if HAVE_WIDE_PIXELS
typedef unsigned long pixel;
#define PIXEL_BITS 16
#elif defined SMALL_PIXELS
typedef unsigned short pixel;
#define PIXEL_BITS 4
#else
typedef unsigned int pixel;
#define PIXEL_BITS 8
#endif

#define RED(p) FIELD_GET(p, 2 * PIXEL_BITS, PIXEL_BITS)
#define GREEN(p) FIELD_GET(p, PIXEL_BITS, PIXEL_BITS)
#define BLUE(p) FIELD_GET(p, 0, PIXEL_BITS)
#define PIXEL(r, g, b) \
    FIELD_SET(FIELD_SET(FIELD_SET((pixel)0, 0, PIXEL_BITS, b), PIXEL_BITS, PIXEL_BITS, g), 2 * PIXEL_BITS, PIXEL_BITS, r)

#define BLACK PIXEL(0u, 0u, 0u)
#define WHITE PIXEL(MASK(PIXEL_BITS), MASK(PIXEL_BITS), MASK(PIXEL_BITS))

#endif
