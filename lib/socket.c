/* The externals of socket.v: TCP on 127.0.0.1, and on no other address. Waits are in milliseconds; a negative one has no end.
 * Each call goes on after a signal. Port 0 has the system choose one, which `port_of` tells. */

#define _POSIX_C_SOURCE 200809L

#include "socket.h"

#include <arpa/inet.h>
#include <errno.h>
#include <fcntl.h>
#include <netinet/in.h>
#include <poll.h>
#include <stdlib.h>
#include <sys/socket.h>
#include <unistd.h>

#include "common.h"
#include "lib_host.h"

enum { MOST_PORTS = 65536 };

/* ---- bytes */

/* Waits until a descriptor is ready for these events: true; false with `errno`, EAGAIN once the deadline is over. */
static bool wait_ready(int descriptor, short events, long long deadline)
{
    struct pollfd waiting = {.fd = descriptor, .events = events};
    int ready;
    do {
        ready = poll(&waiting, 1, lib_left(deadline));
    } while (ready < 0 && errno == EINTR);
    if (ready == 0) {
        errno = EAGAIN;
    }
    return ready > 0;
}

/* Whether a call that failed is tried again: after a signal at once, and if nothing was ready once it is. */
static bool is_tried_again(int descriptor, short events, long long deadline)
{
    return errno == EINTR || (errno == EAGAIN && wait_ready(descriptor, events, deadline));
}

ssize_t lib_socket_receive(struct lib_sock *sock, unsigned char *bytes, size_t size, long long wait)
{
    long long deadline = lib_deadline(wait);
    ssize_t count;
    do {
        count = recv(sock->descriptor, bytes, size, MSG_DONTWAIT);
    } while (count < 0 && is_tried_again(sock->descriptor, POLLIN, deadline));
    return count;
}

bool lib_socket_send(struct lib_sock *sock, const unsigned char *bytes, size_t count, long long wait)
{
    long long deadline = lib_deadline(wait);
    while (count > 0) {
        ssize_t sent = send(sock->descriptor, bytes, count, MSG_DONTWAIT | MSG_NOSIGNAL);
        if (sent < 0 && !is_tried_again(sock->descriptor, POLLOUT, deadline)) {
            errno = errno == EAGAIN ? ETIMEDOUT : errno;
            return false;
        }
        if (sent > 0) {
            bytes += sent;
            count -= (size_t) sent;
        }
    }
    return true;
}

/* ---- sockets */

/* A socket of the host's; null with `errno` if the descriptor is -1 or there is no memory. */
static struct lib_sock *sock_of(int descriptor)
{
    struct lib_sock *made = descriptor < 0 ? NULL : malloc(sizeof *made);
    if (made != NULL) {
        made->descriptor = descriptor;
    } else if (descriptor >= 0) {
        close(descriptor);
        errno = ENOMEM;
    }
    return made;
}

struct lib_made_socket lib_host_socket(void)
{
    struct lib_made_socket made = {.which = lib_made_socket_NoSocket};
    struct lib_sock *sock = sock_of(socket(AF_INET, SOCK_STREAM, 0));
    if (sock == NULL) {
        made.NoSocket.value_0 = lib_error();
        return made;
    }
    made.which = lib_made_socket_Socket;
    made.Socket.value_0 = sock;
    return made;
}

struct lib_bound lib_host_bind(struct lib_sock *sock, long long port)
{
    struct lib_bound bound = {.which = lib_bound_Bound};
    struct sockaddr_in address = {.sin_family = AF_INET, .sin_addr = {htonl(INADDR_LOOPBACK)}};
    int on = 1;
    bool is_port = port >= 0 && port < MOST_PORTS;
    address.sin_port = htons((uint16_t) port);
    setsockopt(sock->descriptor, SOL_SOCKET, SO_REUSEADDR, &on, sizeof on);
    errno = EINVAL;
    if (!is_port || bind(sock->descriptor, (struct sockaddr *) &address, sizeof address) != 0) {
        bound.which = lib_bound_NotBound;
        bound.NotBound.value_0 = lib_error();
    }
    return bound;
}

/* Accepting doesn't block, also if a peer that was ready is gone. */
struct lib_heard lib_host_listen(struct lib_sock *sock, long long backlog)
{
    struct lib_heard heard = {.which = lib_heard_Listening};
    int most = backlog > 0 && backlog < SOMAXCONN ? (int) backlog : SOMAXCONN;
    int flags = fcntl(sock->descriptor, F_GETFL);
    if (flags < 0 || fcntl(sock->descriptor, F_SETFL, flags | O_NONBLOCK) != 0 || listen(sock->descriptor, most) != 0) {
        heard.which = lib_heard_NotListening;
        heard.NotListening.value_0 = lib_error();
    }
    return heard;
}

long long lib_host_port_of(struct lib_sock *sock)
{
    struct sockaddr_in address = {.sin_port = 0};
    socklen_t size = sizeof address;
    getsockname(sock->descriptor, (struct sockaddr *) &address, &size);
    return ntohs(address.sin_port);
}

/* A peer that was gone before it was accepted is none. */
struct lib_arrival lib_host_accept(struct lib_sock *sock, long long wait)
{
    struct lib_arrival arrival = {.which = lib_arrival_Nobody};
    long long deadline = lib_deadline(wait);
    int descriptor;
    do {
        descriptor = accept(sock->descriptor, NULL, NULL);
    } while (descriptor < 0 && (errno == ECONNABORTED || is_tried_again(sock->descriptor, POLLIN, deadline)));
    arrival.Peer.value_0 = sock_of(descriptor);
    if (arrival.Peer.value_0 != NULL) {
        arrival.which = lib_arrival_Peer;
    } else if (errno != EAGAIN) {
        arrival.which = lib_arrival_NotAccepted;
        arrival.NotAccepted.value_0 = lib_error();
    }
    return arrival;
}

struct lib_received lib_host_receive(struct lib_sock *sock, long long wait)
{
    struct lib_received received = {.which = lib_received_End};
    unsigned char byte;
    ssize_t count = lib_socket_receive(sock, &byte, 1, wait);
    if (count > 0) {
        received.which = lib_received_Byte;
        received.Byte.value_0 = byte;
    } else if (count < 0 && errno == EAGAIN) {
        received.which = lib_received_Silent;
    } else if (count < 0) {
        received.which = lib_received_NotReceived;
        received.NotReceived.value_0 = lib_error();
    }
    return received;
}

struct lib_sent lib_host_send(struct lib_sock *sock, long long byte, long long wait)
{
    struct lib_sent sent = {.which = lib_sent_Sent};
    unsigned char one = (unsigned char) (byte & 255);
    if (!lib_socket_send(sock, &one, 1, wait)) {
        sent.which = lib_sent_NotSent;
        sent.NotSent.value_0 = lib_error();
    }
    return sent;
}

void lib_host_close_socket(struct lib_sock *sock)
{
    close(sock->descriptor);
    free(sock);
}
