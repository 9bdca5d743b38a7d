/* What the C files of lib/ share. Each program with an interface of lib/ is compiled with it. */

#define _POSIX_C_SOURCE 200809L

#include "common.h"

#include <errno.h>
#include <limits.h>
#include <stdio.h>
#include <time.h>

#include "lib_host.h"
#include "vault_host.h"

/* The words of the command line, kept before `main` begins. */
static char **words;
static int word_count;

__attribute__((constructor)) static void keep_words(int count, char **arguments)
{
    words = arguments;
    word_count = count;
}

/* What a program prints is seen line by line, also through a pipe. */
void lib_host_begin(void)
{
    setvbuf(stdout, NULL, _IOLBF, 0);
}

const char *lib_word(long long word)
{
    errno = EINVAL;
    return word < 1 || word >= word_count ? NULL : words[word];
}

int lib_error(void)
{
    return errno != 0 ? errno : EIO;
}

/* No system with POSIX's monotonic clock fails here; on another one the run ends. */
long long lib_milliseconds(void)
{
    struct timespec now;
    if (clock_gettime(CLOCK_MONOTONIC, &now) != 0) {
        vault_stop(VAULT_NO_ANSWER, "answers ended");
    }
    return (long long) now.tv_sec * 1000 + now.tv_nsec / 1000000;
}

long long lib_deadline(long long wait)
{
    return wait < 0 ? -1 : lib_milliseconds() + (wait < INT_MAX ? wait : INT_MAX);
}

int lib_left(long long deadline)
{
    long long left = deadline < 0 ? -1 : deadline - lib_milliseconds();
    return deadline >= 0 && left < 0 ? 0 : (int) left;
}
