#include "sensor.hpp"
int work() {
    int i = 0;
    while (i < 3) {
        sensor s(i);
        i = i + 1;
        if (ask() > 1) {
            s.drop();
            continue;
        }
        s.drop();
    }
    return 0;
}
