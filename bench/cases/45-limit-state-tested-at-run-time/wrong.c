#include "sensor.h"
int work(void) {
    struct sensor *s = sensor_make(20);
    if (ask() > 0) {
        sensor_on(s);
    }
    if (sensor_is_on(s)) {
        report(1);
    }
    report(sensor_value(s)); /* fault */
    sensor_off(s);
    sensor_drop(s);
    return 0;
}
