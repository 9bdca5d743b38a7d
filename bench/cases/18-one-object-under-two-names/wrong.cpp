#include "sensor.hpp"
static void move(sensor &a COMES(unknown) STAYS(unknown), sensor &b COMES(unknown) STAYS(unknown)) NEEDS(a, b) {
    b.set_last(a.last());
    a.set_last(0);
}
int work() {
    sensor s(20);
    sensor t(21);
    move(s, s);  // fault
    s.drop();
    t.drop();
    return 0;
}
