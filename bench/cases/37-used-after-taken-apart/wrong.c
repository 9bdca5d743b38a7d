#include "sensor.h"
int work(void) {
    struct box *b = box_make(sensor_make(20));
    struct sensor *s;
    b->size = 1;
    s = box_open(b);
    report(b->size); /* fault */
    sensor_drop(s);
    return 0;
}
