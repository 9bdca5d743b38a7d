#include "sensor.hpp"
int work() {
    sensor s(20);
    int n = ask();
    if (n > 0) {
        s.drop();
    }
    if (n <= 0) {
        s.drop();
    }
    return 0;
}
