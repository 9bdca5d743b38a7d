#include "sensor.hpp"
int work() {
    sensor s(20);
    s.drop();
    s.assign(21);
    s.drop();
    return 0;
}
