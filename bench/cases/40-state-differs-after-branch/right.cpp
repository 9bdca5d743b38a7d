#include "sensor.hpp"
int work() {
    sensor s(20);
    s.on();
    if (ask() > 0) {
        report(s.value());
    }
    report(s.value());
    s.off();
    s.drop();
    return 0;
}
