#include "sensor.h"
int work(void) {
    struct sensor *s = sensor_make(20);
    int n = ask();
    if (n > 0) {
        sensor_drop(s);
    }
    if (n <= 1) {
        sensor_drop(s); /* fault */
    }
    return 0;
}
