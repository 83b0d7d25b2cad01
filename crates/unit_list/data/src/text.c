#include "text.h"

int text_length(const char *text)
{
    int length = 0;
    while (text[length] != '\0')
        length++;
    return length;
}

int text_equal(const char *a, const char *b)
{
    while (*a && TO_LOWER(*a) == TO_LOWER(*b))
        a++, b++;
    return TO_LOWER(*a) == TO_LOWER(*b);
}

int UNIQUE(text_number_)(const char *text)
{
    int number = 0;
    for (; IS_DIGIT(*text); text++)
        number = number * 10 + (*text - '0');
    return IS_LETTER(*text) ? -1 : number;
}

static const char *const names[] = { STRING(a "quoted" word), STRING_OF(UNIQUE(name_)), EMPTY STRING('\n' "\\"), HERE };
const char *text_name(int n) { return names[n]; }
