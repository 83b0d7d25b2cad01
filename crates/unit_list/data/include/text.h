#ifndef TEXT_H
#define TEXT_H

#define STRING(x) #x
#define STRING_OF(x) STRING(x)
#define JOIN(a, b) a ## b
#define JOIN_OF(a, b) JOIN(a, b)
#define UNIQUE(prefix) JOIN_OF(prefix, __LINE__)
#define HERE __FILE__ ":" STRING_OF(__LINE__)

#define IS_DIGIT(c) ((c) >= '0' && (c) <= '9')
#define IS_UPPER(c) ((c) >= 'A' && (c) <= 'Z')
#define IS_LOWER(c) ((c) >= 'a' && (c) <= 'z')
#define IS_LETTER(c) (IS_UPPER(c) || IS_LOWER(c))
#define TO_LOWER(c) (IS_UPPER(c) ? (c) - 'A' + 'a' : (c))
#define EMPTY ""

int text_length(const char *text);
int text_equal(const char *a, const char *b);

#endif
