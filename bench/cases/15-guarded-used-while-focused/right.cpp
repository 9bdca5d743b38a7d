#include "region.hpp"
int work() {
    region r;
    guarded n = r.make(1);
    guarded m = n;
    r.open(n);
    report(r.opened_value());
    r.close();
    report(r.value(m));
    r.drop();
    return 0;
}
