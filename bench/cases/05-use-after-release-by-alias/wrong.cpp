#include "sensor.hpp"
int work() {
    sensor s(20);
    s.set_last(1);
    sensor &t = s;
    s.drop();
    report(t.last());  // fault
    return 0;
}
