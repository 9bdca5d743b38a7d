#include "sensor.h"
int work(void) {
    struct sensor *s = sensor_make(20);
    s = sensor_make(21); /* fault */
    sensor_drop(s);
    return 0;
}
