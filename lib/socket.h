/* Sockets of socket.v, for the C files that move bytes to and from them. */

#ifndef LIB_SOCKET_H
#define LIB_SOCKET_H

#include <stdbool.h>
#include <stddef.h>
#include <sys/types.h>

struct lib_sock {
    int descriptor;
};

/* Receives at least one byte and up to `size`: their number, 0 at the end of the stream, -1 with `errno`, which is EAGAIN if
 * none came within `wait` milliseconds. A negative wait has no end. */
ssize_t lib_socket_receive(struct lib_sock *sock, unsigned char *bytes, size_t size, long long wait);

/* Sends all of these bytes; false with `errno`, which is ETIMEDOUT if the peer took not all within `wait` milliseconds. */
bool lib_socket_send(struct lib_sock *sock, const unsigned char *bytes, size_t count, long long wait);

#endif
