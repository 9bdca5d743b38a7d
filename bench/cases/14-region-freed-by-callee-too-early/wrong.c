#include "region.h"
static void finish(/*@only@*/ struct region *r) TAKES(1);
static void finish(/*@only@*/ struct region *r) TAKER {
    r->nodes = 1;
    region_drop(r);
}
int work(void) {
    struct region *r = region_make();
    struct node *n = region_node(r, 7);
    finish(r);
    report(n->value); /* fault */
    return 0;
}
