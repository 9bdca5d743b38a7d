/* loop.v in C. */
#include <stdio.h>

int main(void)
{
    long long turns;
    long long x = 1;
    if (scanf("%lld", &turns) != 1) {
        return 1;
    }
    for (long long i = 0; i < turns; i++) {
        x = (x * 31 + i) % 65521;
    }
    printf("%lld\n", x);
    return 0;
}
