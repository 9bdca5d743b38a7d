#include "sensor.hpp"
int work() {
    search s;
    if (s.found()) {
        s.drop();
        report(1);
    } else {
        report(0);
    }
    return 0;
}
