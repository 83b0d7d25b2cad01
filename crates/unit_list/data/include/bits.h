#pragma once

/* One bit, a run of bits, and a field of a word. */
#define BIT(n) (1u << (n))
#define MASK(width) (BIT(width) - 1u)
#define FIELD_MASK(shift, width) (MASK(width) << (shift))
#define FIELD_GET(word, shift, width) (((word) >> (shift)) & MASK(width))
#define FIELD_SET(word, shift, width, value) \
    (((word) & ~FIELD_MASK(shift, width)) | (((value) & MASK(width)) << (shift)))

#define SET_FLAG(word, flag) ((word) |= (flag))
#define CLEAR_FLAG(word, flag) ((word) &= ~(flag))
#define HAS_FLAG(word, flag) (((word) & (flag)) != 0)
