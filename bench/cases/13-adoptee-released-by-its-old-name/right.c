#include "region.h"
int work(void) {
    struct region *r = region_make();
    struct node *x = node_make(7);
    x->value = 1;
    region_adopt(r, x);
    region_drop(r);
    return 0;
}
