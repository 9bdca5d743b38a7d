#include "sensor.hpp"
int work() {
    sensor s(0);
    while (ask() < 9) {
        sensor t(1);
        if (ask() == 7) {
            t.drop();
            return 1;  // fault
        }
        t.drop();
    }
    s.drop();
    return 0;
}
