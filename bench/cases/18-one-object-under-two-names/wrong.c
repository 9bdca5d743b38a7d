#include "sensor.h"
static void move(/*@unique@*/ struct sensor *a, struct sensor *b) {
    b->last = a->last;
    a->last = 0;
}
int work(void) {
    struct sensor *s = sensor_make(20);
    struct sensor *t = sensor_make(21);
    move(s, s); /* fault */
    sensor_drop(s);
    sensor_drop(t);
    return 0;
}
