#include "sensor.h"
int work(void) {
    struct box *b = box_make(sensor_make(20));
    struct sensor *old = box_swap(b, sensor_make(21));
    old->last = 1;
    box_drop(b);
    return 0; /* fault */
}
