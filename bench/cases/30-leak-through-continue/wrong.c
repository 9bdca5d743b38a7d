#include "sensor.h"
int work(void) {
    int i = 0;
    while (i < 3) {
        struct sensor *s = sensor_make(i);
        i = i + 1;
        if (ask() > 1) {
            continue; /* fault */
        }
        sensor_drop(s);
    }
    return 0;
}
