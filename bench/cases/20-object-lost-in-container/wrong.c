#include "sensor.h"
int work(void) {
    struct sensor *s = sensor_make(20);
    struct box *b = box_make(s);
    b->size = 1;
    return 0; /* fault */
}
