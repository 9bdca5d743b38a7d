#include "sensor.h"
int work(void) {
    struct sensor *s = sensor_make(20);
    s->last = 1;
    return 0; /* fault */
}
