#include "sensor.h"
int work(void) {
    struct sensor *s = sensor_find();
    if (s != NULL) {
        report(1);
        sensor_drop(s);
    } else {
        report(0);
    }
    return 0;
}
