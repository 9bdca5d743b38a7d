/* Faults for the C files of lib/, linked with `--wrap`. With VAULT_FAULTS=signals each second call is interrupted by a signal, and
 * the others move up to 7 bytes; with VAULT_FAULTS=random there are no random numbers. With VAULT_FAULTS=NAME:N the call of NAME
 * with this number, from 1, fails, with the error that stands below, and with NAME:N:ERROR with that one. */

#define _POSIX_C_SOURCE 200809L

#include <errno.h>
#include <poll.h>
#include <stdbool.h>
#include <stdlib.h>
#include <string.h>
#include <sys/socket.h>
#include <sys/types.h>
#include <time.h>

enum { SHORT = 7 };

static unsigned calls;

static bool has_fault(const char *name)
{
    const char *chosen = getenv("VAULT_FAULTS");
    return chosen != NULL && strcmp(chosen, name) == 0;
}

static bool is_interrupted(void)
{
    if (!has_fault("signals")) {
        return false;
    }
    errno = EINTR;
    return calls++ % 2 == 0;
}

/* Whether this call of a function is the one that fails. */
static bool fails(const char *name, int error)
{
    static long long number;
    const char *chosen = getenv("VAULT_FAULTS");
    size_t length = strlen(name);
    char *end;
    if (chosen == NULL || strncmp(chosen, name, length) != 0 || chosen[length] != ':') {
        return false;
    }
    if (++number != strtoll(chosen + length + 1, &end, 10)) {
        return false;
    }
    errno = *end == ':' ? atoi(end + 1) : error;
    return true;
}

static size_t shortened(size_t size)
{
    return has_fault("signals") && size > SHORT ? SHORT : size;
}

ssize_t __real_read(int descriptor, void *bytes, size_t size);
ssize_t __wrap_read(int descriptor, void *bytes, size_t size)
{
    return fails("read", EIO) || is_interrupted() ? -1 : __real_read(descriptor, bytes, shortened(size));
}

ssize_t __real_write(int descriptor, const void *bytes, size_t size);
ssize_t __wrap_write(int descriptor, const void *bytes, size_t size)
{
    return fails("write", ENOSPC) || is_interrupted() ? -1 : __real_write(descriptor, bytes, shortened(size));
}

ssize_t __real_recv(int descriptor, void *bytes, size_t size, int flags);
ssize_t __wrap_recv(int descriptor, void *bytes, size_t size, int flags)
{
    return fails("recv", ECONNRESET) || is_interrupted() ? -1 : __real_recv(descriptor, bytes, shortened(size), flags);
}

ssize_t __real_send(int descriptor, const void *bytes, size_t size, int flags);
ssize_t __wrap_send(int descriptor, const void *bytes, size_t size, int flags)
{
    return fails("send", EPIPE) || is_interrupted() ? -1 : __real_send(descriptor, bytes, shortened(size), flags);
}

int __real_poll(struct pollfd *waiting, nfds_t count, int wait);
int __wrap_poll(struct pollfd *waiting, nfds_t count, int wait)
{
    return fails("poll", ENOMEM) || is_interrupted() ? -1 : __real_poll(waiting, count, wait);
}

int __real_socket(int family, int type, int protocol);
int __wrap_socket(int family, int type, int protocol)
{
    return fails("socket", EMFILE) ? -1 : __real_socket(family, type, protocol);
}

int __real_listen(int descriptor, int backlog);
int __wrap_listen(int descriptor, int backlog)
{
    return fails("listen", EADDRINUSE) ? -1 : __real_listen(descriptor, backlog);
}

int __real_accept(int descriptor, struct sockaddr *address, socklen_t *size);
int __wrap_accept(int descriptor, struct sockaddr *address, socklen_t *size)
{
    return fails("accept", EMFILE) || is_interrupted() ? -1 : __real_accept(descriptor, address, size);
}

/* The descriptor is closed, also if that fails. */
int __real_close(int descriptor);
int __wrap_close(int descriptor)
{
    int result = __real_close(descriptor);
    return fails("close", EIO) || is_interrupted() ? -1 : result;
}

void *__real_malloc(size_t size);
void *__wrap_malloc(size_t size)
{
    return fails("malloc", ENOMEM) ? NULL : __real_malloc(size);
}

void *__real_calloc(size_t count, size_t size);
void *__wrap_calloc(size_t count, size_t size)
{
    return fails("calloc", ENOMEM) ? NULL : __real_calloc(count, size);
}

ssize_t __real_getrandom(void *bytes, size_t size, unsigned flags);
ssize_t __wrap_getrandom(void *bytes, size_t size, unsigned flags)
{
    if (has_fault("random")) {
        errno = ENOSYS;
        return -1;
    }
    return is_interrupted() ? -1 : __real_getrandom(bytes, shortened(size), flags);
}

int __real_nanosleep(const struct timespec *wanted, struct timespec *left);
int __wrap_nanosleep(const struct timespec *wanted, struct timespec *left)
{
    if (is_interrupted()) {
        *left = *wanted;
        return -1;
    }
    return __real_nanosleep(wanted, left);
}
