#include "sensor.h"
int work(void) {
    struct sensor *s = sensor_make(20);
    sensor_drop(s);
    s = sensor_make(21);
    sensor_drop(s);
    return 0;
}
