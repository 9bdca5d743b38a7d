#include "sensor.h"
int work(void) {
    struct box *b = box_make(sensor_make(20));
    struct sensor *s;
    b->size = 1;
    report(b->size);
    s = box_open(b);
    sensor_drop(s);
    return 0;
}
