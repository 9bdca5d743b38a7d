#include "sensor.h"
int work(void) {
    struct sensor *s = sensor_share();
    sensor_on(s);
    report(sensor_value(s));
    sensor_off(s);
    sensor_give_back(s);
    return 0;
}
