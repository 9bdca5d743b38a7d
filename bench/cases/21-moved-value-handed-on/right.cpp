#include "sensor.hpp"
static void consume(sensor &s COMES(unknown) STAYS(consumed)) WITHOUT(s.power) LOSES(s) {
    s.drop();
}
int work() {
    sensor s(20);
    consume(s);
    return 0;
}
