#include "sensor.h"
int work(void) {
    struct sensor *s = sensor_make(20);
    sensor_on(s);
    if (ask() > 0) {
        report(sensor_value(s));
        sensor_off(s);
    }
    report(sensor_value(s)); /* fault */
    sensor_off(s);
    sensor_drop(s);
    return 0;
}
