#include "sensor.hpp"
int work() {
    sensor s(20);
    s.assign(21);  // fault
    s.drop();
    return 0;
}
