#include "sensor.hpp"
int work() {
    loan s;
    s.on();
    report(s.value());
    s.off();
    s.give_back();
    return 0;
}
