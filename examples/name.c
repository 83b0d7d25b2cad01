#include <string.h>
#define LONG(s) (strlen(s) > 8)
int is_long(const char *name) { return LONG(name); }
