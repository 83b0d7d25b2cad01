#include <a.h> // none
int x = 0x1e+1;
