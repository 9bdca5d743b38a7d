#include "sensor.hpp"
int work() {
    sensor s(20);
    s.set_last(1);
    s.drop();
    return 0;
}
