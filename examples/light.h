#ifndef LIGHT_H
#define LIGHT_H
#define BIT(n) (1u << (n))
#define RED BIT(2)
#ifndef BRIGHT
#define BRIGHT 0
#endif
#endif
