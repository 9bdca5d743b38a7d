#include "sensor.h"
int work(void) {
    struct sensor *s = sensor_make(20);
    if (ask() > 0) {
        s->last = 1;
        sensor_drop(s);
    } else {
        report(0);
        sensor_drop(s);
    }
    return 0;
}
