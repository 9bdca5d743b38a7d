#include "region.hpp"
int work() {
    region r;
    guarded n = r.make(7);
    r.drop();
    report(r.value(n));  // fault
    return 0;
}
