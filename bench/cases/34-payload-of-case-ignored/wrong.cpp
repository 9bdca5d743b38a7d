#include "sensor.hpp"
int work() {
    search s;
    if (s.found()) {
        report(1);
    } else {
        report(0);
    }
    return 0;  // fault
}
