#include "sensor.h"
int work(void) {
    struct sensor *s = sensor_make(20);
    s->last = 1;
    struct sensor *t = s;
    sensor_drop(s);
    report(t->last); /* fault */
    return 0;
}
