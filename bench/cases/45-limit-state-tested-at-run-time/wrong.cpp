#include "sensor.hpp"
int work() {
    sensor s(20);
    if (ask() > 0) {
        s.on();
    }
    if (s.is_on()) {
        report(1);
    }
    report(s.value());  // fault
    s.off();
    s.drop();
    return 0;
}
