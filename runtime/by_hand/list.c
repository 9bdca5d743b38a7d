/* list.v in C. */
#include <stdio.h>
#include <stdlib.h>

struct cell {
    long long number;
    struct cell *rest;
};

static struct cell *push(long long number, struct cell *rest)
{
    struct cell *c = malloc(sizeof *c);
    if (c == NULL) {
        exit(4);
    }
    c->number = number;
    c->rest = rest;
    return c;
}

static long long drop(long long sum, struct cell *all)
{
    while (all != NULL) {
        struct cell *rest = all->rest;
        sum = (sum * 31 + all->number) % 65521;
        free(all);
        all = rest;
    }
    return sum;
}

int main(void)
{
    long long turns;
    long long sum = 1;
    long long i = 0;
    if (scanf("%lld", &turns) != 1) {
        return 1;
    }
    while (i < turns) {
        struct cell *all = NULL;
        for (int cells = 0; cells < 100; cells++) {
            all = push(i++, all);
        }
        sum = drop(sum, all);
    }
    printf("%lld\n", sum);
    return 0;
}
