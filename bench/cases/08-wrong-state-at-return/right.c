#include "sensor.h"
static void measure(/*@off@*/ struct sensor *s) /*@ensures off s@*/ {
    sensor_on(s);
    report(sensor_value(s));
    sensor_off(s);
}
int work(void) {
    struct sensor *s = sensor_make(20);
    measure(s);
    sensor_drop(s);
    return 0;
}
