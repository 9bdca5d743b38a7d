#include "region.hpp"
int work() {
    region r;
    guarded n = r.make(1);
    guarded m = r.make(2);
    report(r.value(m));
    r.open(n);
    report(r.opened_value());
    report(r.value(m));
    r.close();
    r.drop();
    return 0;
}
