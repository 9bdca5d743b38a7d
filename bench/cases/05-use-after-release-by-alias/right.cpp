#include "sensor.hpp"
int work() {
    sensor s(20);
    s.set_last(1);
    sensor &t = s;
    report(t.last());
    s.drop();
    return 0;
}
