#include "sensor.h"
int work(void) {
    struct sensor *s = sensor_make(20);
    int n = 0;
    while (n < 3) {
        n = ask();
        if (n > 0) {
            sensor_on(s);
        } else {
            sensor_off(s);
        }
    }
    report(sensor_value(s)); /* fault */
    sensor_off(s);
    sensor_drop(s);
    return 0;
}
