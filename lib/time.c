/* The externals of time.v: a clock that is never set back, in milliseconds from some moment before the program began, and
 * sleep. Sleep goes on after a signal until its time is over; for a number below 1 it returns at once. */

#define _POSIX_C_SOURCE 200809L

#include <errno.h>
#include <time.h>

#include "common.h"
#include "lib_host.h"

long long lib_host_milliseconds(void)
{
    return lib_milliseconds();
}

void lib_host_sleep(long long milliseconds)
{
    struct timespec left = {.tv_sec = (time_t) (milliseconds / 1000), .tv_nsec = (long) (milliseconds % 1000) * 1000000};
    if (milliseconds > 0) {
        while (nanosleep(&left, &left) != 0 && errno == EINTR) {
        }
    }
}
