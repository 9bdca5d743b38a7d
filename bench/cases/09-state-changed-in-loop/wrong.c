#include "sensor.h"
int work(void) {
    struct sensor *s = sensor_make(20);
    int i = 0;
    sensor_on(s);
    while (i < 3) {
        report(sensor_value(s)); /* fault */
        sensor_off(s);
        i = i + 1;
    }
    sensor_off(s);
    sensor_drop(s);
    return 0;
}
