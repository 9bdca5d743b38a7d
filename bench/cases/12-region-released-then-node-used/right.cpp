#include "region.hpp"
int work() {
    region r;
    guarded n = r.make(7);
    report(r.value(n));
    r.drop();
    return 0;
}
