#include "sensor.hpp"
int work() {
    sensor s(20);
    sensor part;
    box b;
    b.own(s);
    b.set_size(1);
    b.open(part);
    report(b.size());  // fault
    part.drop();
    return 0;
}
