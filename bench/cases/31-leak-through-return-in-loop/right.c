#include "sensor.h"
int work(void) {
    struct sensor *s = sensor_make(0);
    while (ask() < 9) {
        struct sensor *t = sensor_make(1);
        if (ask() == 7) {
            sensor_drop(t);
            sensor_drop(s);
            return 1;
        }
        sensor_drop(t);
    }
    sensor_drop(s);
    return 0;
}
