#include "sensor.hpp"
int work() {
    sensor s(20);
    report(s.value());  // fault
    s.off();
    s.drop();
    return 0;
}
