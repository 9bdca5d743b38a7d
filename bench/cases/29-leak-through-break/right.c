#include "sensor.h"
int work(void) {
    int i = 0;
    while (i < 3) {
        struct sensor *s = sensor_make(i);
        i = i + 1;
        if (ask() > 1) {
            sensor_drop(s);
            break;
        }
        sensor_drop(s);
    }
    return 0;
}
