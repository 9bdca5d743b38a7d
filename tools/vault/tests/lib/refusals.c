/* Calls of pump.v's library that aren't permitted, and one in which the run ends: prints why each of them gave false. The process goes on. */

#include <stdio.h>

#include "pump.h"

static void tell(bool came_back)
{
    puts(came_back ? "came back" : pump_refused());
}

int main(void)
{
    struct pump_pump first = {0}, second = {0}, none = {0};
    bool is_faster = false, came_back = false;
    long long average = 0;
    tell(pump_install(1, true, &first));
    pump_begin();
    tell(pump_stop(none));
    tell(pump_install(1, true, &first));
    tell(pump_install(2, true, &second));
    tell(pump_is_faster(first, first, &is_faster));
    tell(pump_stop(first));
    tell(pump_remove(second));
    tell(pump_remove(second));
    tell(pump_install(3, true, &second));
    tell(pump_remove((struct pump_pump) {second.handle & 0xffffffff}));
    came_back = pump_start(first);
    tell(came_back);
    if (came_back && pump_refused() != NULL) {
        puts("a call that came back tells a reason");
    }
    tell(pump_turn(first));
    tell(pump_average(first, &average));
    tell(pump_remove(second));
    tell(pump_install(4, false, &second));
    tell(pump_start(second));
    tell(pump_average(second, &average));
    tell(pump_stop(first));
    return 0;
}
