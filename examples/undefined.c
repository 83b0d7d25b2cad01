#include <stdio.h>

#define LAST(table, count) ((table)[(count)])

int main(void)
{
    int table[3] = {4, 5, 6};
    putchar('0' + LAST(table, 3));
    putchar('\n');
    return 0;
}
