#include "sensor.hpp"
int work() {
    sensor s(20);
    if (ask() > 0) {
        s.set_last(1);
        s.drop();
    } else {
        s.drop();
        report(0);
    }
    return 0;
}
