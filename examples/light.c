#include "light.h"
#if BRIGHT
unsigned int light = RED | BIT(3);
#else
unsigned int light = RED;
#endif
