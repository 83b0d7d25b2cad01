#include <stdio.h>
#define SAY(c) putchar(c)
int turn;
int next(void) { return turn = turn + 1; }
int main(void) {
    SAY('0' + next()) + SAY('a' + next());
    SAY('\n');
    return turn;
}
