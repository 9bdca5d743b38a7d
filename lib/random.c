/* The externals of random.v, over `getrandom`: numbers of 64 bits, and numbers below a bound, each of them as likely as
 * another. A bound below 1 gives EINVAL. */

#define _POSIX_C_SOURCE 200809L

#include <errno.h>
#include <stdbool.h>
#include <stdint.h>
#include <string.h>
#include <sys/random.h>
#include <sys/types.h>

#include "common.h"
#include "lib_host.h"

/* Fills all bytes of a number; false with `errno` if that fails. */
static bool fill_number(uint64_t *number)
{
    unsigned char bytes[sizeof *number];
    size_t count = 0;
    while (count < sizeof bytes) {
        ssize_t more = getrandom(bytes + count, sizeof bytes - count, 0);
        if (more < 0 && errno != EINTR) {
            return false;
        }
        count += more > 0 ? (size_t) more : 0;
    }
    memcpy(number, bytes, sizeof bytes);
    return true;
}

static struct lib_chance no_random(int error)
{
    struct lib_chance chance = {.which = lib_chance_NoRandom};
    chance.NoRandom.value_0 = error;
    return chance;
}

static struct lib_chance random_of(uint64_t bits)
{
    struct lib_chance chance = {.which = lib_chance_Random};
    memcpy(&chance.Random.value_0, &bits, sizeof bits);
    return chance;
}

struct lib_chance lib_host_random_number(void)
{
    uint64_t bits;
    return fill_number(&bits) ? random_of(bits) : no_random(lib_error());
}

/* Numbers from the last whole multiple of the bound on are drawn again: they would favour small remainders. */
struct lib_chance lib_host_random_below(long long bound)
{
    uint64_t size = (uint64_t) bound;
    uint64_t bits;
    if (bound < 1) {
        return no_random(EINVAL);
    }
    do {
        if (!fill_number(&bits)) {
            return no_random(lib_error());
        }
    } while (bits >= UINT64_MAX - UINT64_MAX % size);
    return random_of(bits % size);
}
