/* The host of echo.v on sockets of 127.0.0.1, over the prototypes of `vault bind host echo.c`. The port is a number of standard input. */

#define _POSIX_C_SOURCE 200809L

#include "echo_host.h"

#include <arpa/inet.h>
#include <errno.h>
#include <poll.h>
#include <stdlib.h>
#include <sys/socket.h>
#include <unistd.h>

enum { LONGEST_WAIT = 10000 /* milliseconds */ };

struct echo_sock {
    int descriptor;
};

/* A socket of the host's; null if the system gave none. */
static struct echo_sock *sock_of(int descriptor)
{
    struct echo_sock *made = descriptor < 0 ? NULL : malloc(sizeof *made);
    if (made != NULL) {
        made->descriptor = descriptor;
    }
    return made;
}

void echo_host_begin(void) {}

struct echo_sock *echo_host_socket(void)
{
    return sock_of(socket(AF_INET, SOCK_STREAM, 0));
}

struct echo_status echo_host_bind(struct echo_sock *s, long long port)
{
    struct echo_status status = {echo_status_Error, {EINVAL}};
    struct sockaddr_in address = {.sin_family = AF_INET, .sin_port = htons((uint16_t) port), .sin_addr = {htonl(INADDR_LOOPBACK)}};
    int on = 1;
    if (port < 0 || port > 65535) {
        return status;
    }
    setsockopt(s->descriptor, SOL_SOCKET, SO_REUSEADDR, &on, sizeof on);
    if (bind(s->descriptor, (struct sockaddr *) &address, sizeof address) == 0) {
        status.which = echo_status_Ok;
    } else {
        status.Error.value_0 = errno;
    }
    return status;
}

void echo_host_listen(struct echo_sock *s, long long backlog)
{
    listen(s->descriptor, (int) backlog);
}

struct echo_arrival echo_host_accept(struct echo_sock *s)
{
    struct echo_arrival arrival = {echo_arrival_Nobody, {NULL}};
    struct pollfd waiting = {s->descriptor, POLLIN, 0};
    if (poll(&waiting, 1, LONGEST_WAIT) == 1) {
        arrival.Peer.value_0 = sock_of(accept(s->descriptor, NULL, NULL));
    }
    if (arrival.Peer.value_0 != NULL) {
        arrival.which = echo_arrival_Peer;
    }
    return arrival;
}

struct echo_received echo_host_receive(struct echo_sock *s)
{
    struct echo_received received = {echo_received_End, {0}};
    unsigned char byte;
    if (recv(s->descriptor, &byte, 1, 0) == 1) {
        received.which = echo_received_Byte;
        received.Byte.value_0 = byte;
    }
    return received;
}

void echo_host_send(struct echo_sock *s, long long byte)
{
    unsigned char sent = (unsigned char) byte;
    send(s->descriptor, &sent, 1, MSG_NOSIGNAL);
}

void echo_host_close(struct echo_sock *s)
{
    close(s->descriptor);
    free(s);
}
