#include "region.hpp"
int work() {
    region r;
    guarded n = r.make(1);
    guarded m = n;
    r.open(n);
    report(r.opened_value());
    report(r.value(m));  // fault
    r.close();
    r.drop();
    return 0;
}
