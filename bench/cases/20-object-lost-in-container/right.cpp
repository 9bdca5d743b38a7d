#include "sensor.hpp"
int work() {
    sensor s(20);
    box b;
    b.own(s);
    b.set_size(1);
    b.drop();
    return 0;
}
