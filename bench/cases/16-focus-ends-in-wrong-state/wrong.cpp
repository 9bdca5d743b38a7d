#include "sensor.hpp"
int work() {
    loan s;
    s.on();
    report(s.value());
    s.give_back();  // fault
    return 0;
}
