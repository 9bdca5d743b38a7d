/* valve.v in C. */
#include <stdio.h>
#include <stdlib.h>

struct valve {
    long long turns;
    long long sum;
};

static void start(struct valve *v)
{
    v->turns = v->turns + 1;
}

static void stop(struct valve *v, long long amount)
{
    v->sum = (v->sum + amount) % 65521;
}

int main(void)
{
    long long turns;
    struct valve *v = calloc(1, sizeof *v);
    if (v == NULL || scanf("%lld", &turns) != 1) {
        return 1;
    }
    for (long long i = 0; i < turns; i++) {
        start(v);
        stop(v, i);
    }
    printf("%lld\n", v->sum + v->turns);
    free(v);
    return 0;
}
