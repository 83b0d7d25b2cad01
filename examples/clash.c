#define SQ(x) ((x)*(x))
int main(void) {
    int i = 3;
    return SQ(i++);
}
