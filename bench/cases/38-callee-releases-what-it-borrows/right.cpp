#include "sensor.hpp"
static void show(sensor &s COMES(unknown) STAYS(unknown)) NEEDS(s) WITHOUT(s.power) {
    s.set_last(1);
}
int work() {
    sensor s(20);
    show(s);
    s.drop();
    return 0;
}
