/* A host that carries out the externals of ../examples/echo.v on sockets of 127.0.0.1, and of no other address. It waits for
 * nothing longer than VAULT_WAIT seconds, or 10; it has up to 64 sockets at one time. */

#define _POSIX_C_SOURCE 200809L

#include <arpa/inet.h>
#include <errno.h>
#include <netinet/in.h>
#include <poll.h>
#include <stdio.h>
#include <stdlib.h>
#include <string.h>
#include <sys/socket.h>
#include <sys/time.h>
#include <unistd.h>

#include "vault_host.h"

enum { MOST_SOCKETS = 64, BUFFER_BYTES = 4096 };

/* A socket, and what was received and isn't read yet, and what is still to be sent. */
struct connection {
    long long object; /* the number of its object; 0 where this place is free */
    int descriptor;
    size_t received;
    size_t read;
    size_t unsent;
    char in[BUFFER_BYTES];
    char out[BUFFER_BYTES];
};

static struct connection connections[MOST_SOCKETS];
static int wait_seconds = 10;

/* ---- answers: each value of these types keeps the clause of its external */

enum arrival { PEER, NOBODY };

struct status {
    enum { OK, ERROR } which;
    int code;
};

struct received {
    enum { BYTE, END } which;
    unsigned char byte;
};

/* The answer that is read. */
static long long numbers[2];
static int number_count;
static int numbers_read;

static void answer(int count, long long first, long long second)
{
    numbers[0] = first;
    numbers[1] = second;
    number_count = count;
    numbers_read = 0;
}

static void answer_nothing(void)
{
    answer(0, 0, 0);
}

static void answer_status(struct status status)
{
    answer(status.which == ERROR ? 2 : 1, status.which, status.code);
}

static void answer_arrival(enum arrival arrival)
{
    answer(1, arrival, 0);
}

static void answer_received(struct received received)
{
    answer(received.which == BYTE ? 2 : 1, received.which, received.byte);
}

/* ---- sockets */

static struct connection *connection_of(long long object)
{
    for (int i = 0; i < MOST_SOCKETS; i++) {
        if (connections[i].object == object) {
            return &connections[i];
        }
    }
    return NULL;
}

/* Gives a descriptor to an object. Where there is no place for it, it is closed. */
static bool keep(long long object, int descriptor)
{
    struct connection *place = connection_of(0);
    struct timeval wait = {wait_seconds, 0};
    if (descriptor < 0) {
        return false;
    }
    if (place == NULL) {
        close(descriptor);
        return false;
    }
    setsockopt(descriptor, SOL_SOCKET, SO_RCVTIMEO, &wait, sizeof wait);
    setsockopt(descriptor, SOL_SOCKET, SO_SNDTIMEO, &wait, sizeof wait);
    place->object = object;
    place->descriptor = descriptor;
    place->received = place->read = place->unsent = 0;
    return true;
}

static struct status bind_socket(int descriptor, long long port)
{
    struct status ok = {OK, 0};
    struct status error = {ERROR, EINVAL};
    struct sockaddr_in address = {0};
    int on = 1;
    if (port < 0 || port > 65535) {
        return error;
    }
    address.sin_family = AF_INET;
    address.sin_port = htons((unsigned short) port);
    address.sin_addr.s_addr = htonl(INADDR_LOOPBACK);
    setsockopt(descriptor, SOL_SOCKET, SO_REUSEADDR, &on, sizeof on);
    if (bind(descriptor, (struct sockaddr *) &address, sizeof address) == 0) {
        return ok;
    }
    error.code = errno;
    return error;
}

/* What can't be sent is dropped: the peer is gone, which the next `receive` tells. */
static void send_all(struct connection *connection)
{
    size_t sent = 0;
    while (sent < connection->unsent) {
        ssize_t count = send(connection->descriptor, connection->out + sent, connection->unsent - sent, MSG_NOSIGNAL);
        if (count <= 0) {
            break;
        }
        sent += (size_t) count;
    }
    connection->unsent = 0;
}

static struct received receive_byte(struct connection *connection)
{
    struct received received = {END, 0};
    if (connection->read == connection->received) {
        ssize_t count;
        send_all(connection);
        count = recv(connection->descriptor, connection->in, BUFFER_BYTES, 0);
        if (count <= 0) {
            return received;
        }
        connection->received = (size_t) count;
        connection->read = 0;
    }
    received.which = BYTE;
    received.byte = (unsigned char) connection->in[connection->read++];
    return received;
}

/* ---- externals: each answers, or has no answer, which ends the run */

static bool do_socket(const struct vault_call *call, struct connection *connection)
{
    (void) connection;
    answer_nothing();
    return keep(call->next_object, socket(AF_INET, SOCK_STREAM, 0));
}

static bool do_bind(const struct vault_call *call, struct connection *connection)
{
    answer_status(bind_socket(connection->descriptor, call->arguments[1].number));
    return true;
}

static bool do_listen(const struct vault_call *call, struct connection *connection)
{
    long long backlog = call->arguments[1].number;
    answer_nothing();
    return listen(connection->descriptor, backlog > 0 && backlog < SOMAXCONN ? (int) backlog : SOMAXCONN) == 0;
}

static bool do_accept(const struct vault_call *call, struct connection *connection)
{
    struct pollfd waiting = {connection->descriptor, POLLIN, 0};
    bool is_peer = poll(&waiting, 1, wait_seconds * 1000) == 1
        && keep(call->next_object, accept(connection->descriptor, NULL, NULL));
    answer_arrival(is_peer ? PEER : NOBODY);
    return true;
}

static bool do_receive(const struct vault_call *call, struct connection *connection)
{
    (void) call;
    answer_received(receive_byte(connection));
    return true;
}

/* The byte is the lowest one of the number. */
static bool do_send(const struct vault_call *call, struct connection *connection)
{
    connection->out[connection->unsent++] = (char) (call->arguments[1].number & 0xff);
    if (connection->unsent == BUFFER_BYTES) {
        send_all(connection);
    }
    answer_nothing();
    return true;
}

static bool do_close(const struct vault_call *call, struct connection *connection)
{
    (void) call;
    send_all(connection);
    close(connection->descriptor);
    connection->object = 0;
    answer_nothing();
    return true;
}

static const struct external {
    const char *name;
    const char *arguments; /* s a socket, n a number */
    bool (*carry_out)(const struct vault_call *call, struct connection *connection);
} externals[] = {
    {"socket", "", do_socket},   {"bind", "sn", do_bind}, {"listen", "sn", do_listen}, {"accept", "s", do_accept},
    {"receive", "s", do_receive}, {"send", "sn", do_send}, {"close", "s", do_close},
};

/* Whether these are the arguments, of which the first one is a socket that the host has. */
static bool has_arguments(const struct vault_call *call, const char *arguments, const struct connection *connection)
{
    if (call->count != (int) strlen(arguments)) {
        return false;
    }
    for (int i = 0; i < call->count; i++) {
        if (call->arguments[i].is_object != (arguments[i] == 's')) {
            return false;
        }
    }
    return *arguments != 's' || connection != NULL;
}

/* ---- the host */

void vault_host_start(void)
{
    const char *wait = getenv("VAULT_WAIT");
    if (wait != NULL && atoi(wait) > 0 && atoi(wait) <= 3600) {
        wait_seconds = atoi(wait);
    }
    setvbuf(stdout, NULL, _IOLBF, 0);
}

bool vault_host_ask(const struct vault_call *call)
{
    struct connection *connection = call->count > 0 ? connection_of(call->arguments[0].number) : NULL;
    for (size_t i = 0; i < sizeof externals / sizeof *externals; i++) {
        if (strcmp(call->name, externals[i].name) == 0) {
            return has_arguments(call, externals[i].arguments, connection) && externals[i].carry_out(call, connection);
        }
    }
    return false;
}

bool vault_host_next(long long *number)
{
    if (numbers_read == number_count) {
        return false;
    }
    *number = numbers[numbers_read++];
    return true;
}
