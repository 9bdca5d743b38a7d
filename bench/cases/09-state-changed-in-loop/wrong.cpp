#include "sensor.hpp"
int work() {
    sensor s(20);
    int i = 0;
    s.on();
    while (i < 3) {
        report(s.value());  // fault
        s.off();
        i = i + 1;
    }
    s.off();
    s.drop();
    return 0;
}
