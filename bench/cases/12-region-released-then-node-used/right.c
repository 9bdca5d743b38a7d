#include "region.h"
int work(void) {
    struct region *r = region_make();
    struct node *n = region_node(r, 7);
    report(n->value);
    region_drop(r);
    return 0;
}
