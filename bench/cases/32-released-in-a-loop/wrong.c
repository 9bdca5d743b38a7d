#include "sensor.h"
int work(void) {
    struct sensor *s = sensor_make(20);
    s->last = 1;
    int i = 0;
    while (i < 3) {
        report(s->last); /* fault */
        i = i + 1;
        sensor_drop(s);
    }
    return 0;
}
