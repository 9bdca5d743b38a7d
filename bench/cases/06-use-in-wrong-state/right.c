#include "sensor.h"
int work(void) {
    struct sensor *s = sensor_make(20);
    sensor_on(s);
    report(sensor_value(s));
    sensor_off(s);
    sensor_drop(s);
    return 0;
}
