#include "sensor.h"
static void consume(/*@only@*/ struct sensor *s) TAKES(1);
static void consume(/*@only@*/ struct sensor *s) TAKER {
    ASSUME_OFF(s);
    sensor_drop(s);
}
int work(void) {
    struct sensor *s = sensor_make(20);
    consume(s);
    consume(s); /* fault */
    return 0;
}
