#include "sensor.h"
static void pair(/*@only@*/ struct sensor *a, /*@only@*/ struct sensor *b) TAKES(1) TAKES_TOO(2);
static void pair(/*@only@*/ struct sensor *a, /*@only@*/ struct sensor *b) TAKER TAKER {
    ASSUME_OFF(a);
    ASSUME_OFF(b);
    sensor_drop(a);
    sensor_drop(b);
}
int work(void) {
    struct sensor *s = sensor_make(20);
    struct sensor *t = sensor_make(21);
    pair(s, t);
    return 0;
}
