#include "sensor.hpp"
static void measure(sensor &s COMES(unknown) STAYS(unknown)) NEEDS(s) WITHOUT(s.power) {
    s.on();
    report(s.value());
    s.off();
}
int work() {
    sensor s(20);
    measure(s);
    s.drop();
    return 0;
}
