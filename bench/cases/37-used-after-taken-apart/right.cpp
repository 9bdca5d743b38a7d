#include "sensor.hpp"
int work() {
    sensor s(20);
    sensor part;
    box b;
    b.own(s);
    b.set_size(1);
    report(b.size());
    b.open(part);
    part.drop();
    return 0;
}
