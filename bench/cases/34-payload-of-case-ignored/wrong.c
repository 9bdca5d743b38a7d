#include "sensor.h"
int work(void) {
    struct sensor *s = sensor_find();
    if (s != NULL) {
        report(1);
    } else {
        report(0);
    }
    return 0; /* fault */
}
