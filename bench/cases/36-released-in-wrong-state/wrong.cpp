#include "sensor.hpp"
int work() {
    sensor s(20);
    s.on();
    report(s.value());
    s.drop();  // fault
    return 0;
}
