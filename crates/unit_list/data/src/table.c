#include "minmax.h"
#include "text.h"

/* A table that is written once and read three times. */
#define COLOURS(COLOUR) \
    COLOUR(RED, 0xff0000) \
    COLOUR(GREEN, 0x00ff00) \
    COLOUR(BLUE, 0x0000ff)

#define AS_NUMBER(name, value) JOIN(COLOUR_, name),
#define AS_TEXT(name, value) STRING(name),
#define AS_VALUE(name, value) value,

enum colour { COLOURS(AS_NUMBER) COLOUR_COUNT };
static const char *const colour_names[] = { COLOURS(AS_TEXT) };
static const int colour_values[] = { COLOURS(AS_VALUE) };

int colour_value(const char *name)
{
    int i;
    for (i = 0; i < (int)COUNT_OF(colour_names); i++)
        if (text_equal(colour_names[i], name))
            return colour_values[i];
    return -1;
}
