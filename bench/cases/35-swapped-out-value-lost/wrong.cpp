#include "sensor.hpp"
int work() {
    sensor s(20);
    sensor fresh(21);
    sensor old;
    box b;
    b.own(s);
    b.swap(fresh, old);
    old.set_last(1);
    b.drop();
    return 0;  // fault
}
