#include "sensor.hpp"
int work() {
    sensor s(20);
    int i = 0;
    s.on();
    while (i < 3) {
        report(s.value());
        s.off();
        s.on();
        i = i + 1;
    }
    s.off();
    s.drop();
    return 0;
}
