#include "sensor.h"
static void show(struct sensor *s) {
    s->last = 1;
}
int work(void) {
    struct sensor *s = sensor_make(20);
    show(s);
    sensor_drop(s);
    return 0;
}
