#include "region.hpp"
static void finish(region &r COMES(unconsumed) STAYS(consumed)) LOSES(r) {
    r.make(1);
    r.drop();
}
int work() {
    region r;
    guarded n = r.make(7);
    report(r.value(n));
    finish(r);
    return 0;
}
