#include "sensor.hpp"
int work() {
    sensor s(20);
    int n = 0;
    while (n < 3) {
        n = ask();
        if (n > 0) {
            s.on();
        } else {
            s.off();
        }
    }
    s.set_last(1);
    s.off();
    s.drop();
    return 0;
}
