#include "sensor.hpp"
int work() {
    sensor s(20);
    s.on();
    if (ask() > 0) {
        report(s.value());
        s.off();
    }
    report(s.value());  // fault
    s.off();
    s.drop();
    return 0;
}
