#include "sensor.h"
int work(void) {
    struct sensor *s = sensor_make(20);
    int n = 0;
    while (n < 3) {
        n = ask();
        if (n > 0) {
            sensor_on(s);
        } else {
            sensor_off(s);
        }
    }
    s->last = 1;
    sensor_off(s);
    sensor_drop(s);
    return 0;
}
