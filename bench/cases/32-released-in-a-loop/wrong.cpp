#include "sensor.hpp"
int work() {
    sensor s(20);
    s.set_last(1);
    int i = 0;
    while (i < 3) {
        report(s.last());  // fault
        i = i + 1;
        s.drop();
    }
    return 0;
}
