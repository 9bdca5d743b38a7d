#include "region.h"
int work(void) {
    struct region *r = region_make();
    struct node *n = region_node(r, 7);
    region_drop(r);
    report(n->value); /* fault */
    return 0;
}
