#include "sensor.hpp"
static void pair(sensor &a COMES(unknown) STAYS(consumed), sensor &b COMES(unknown) STAYS(consumed)) WITHOUT(a.power, b.power) LOSES(a, b) {
    a.drop();
    b.drop();
}
int work() {
    sensor s(20);
    sensor t(21);
    pair(s, t);
    return 0;
}
