#include "region.hpp"
int work() {
    region r;
    node x(7);
    x.set_value(1);
    r.adopt(x);
    r.drop();
    return 0;
}
