/* The externals of block_socket.v: blocks filled from sockets and drained to them. `receive_block` takes what there is, at least
 * one byte and up to the capacity; what the block had before is gone. `send_block` sends all bytes. Waits are in milliseconds; a
 * negative one has no end. */

#define _POSIX_C_SOURCE 200809L

#include <errno.h>
#include <sys/types.h>

#include "block.h"
#include "common.h"
#include "lib_host.h"
#include "socket.h"

struct lib_arrived lib_host_receive_block(struct lib_block *block, struct lib_sock *sock, long long wait)
{
    struct lib_arrived arrived = {.which = lib_arrived_Closed};
    ssize_t count = lib_socket_receive(sock, block->bytes, block->capacity, wait);
    block->length = count > 0 ? (size_t) count : 0;
    if (count > 0) {
        arrived.which = lib_arrived_Arrived;
        arrived.Arrived.value_0 = count;
    } else if (count < 0 && errno == EAGAIN) {
        arrived.which = lib_arrived_Quiet;
    } else if (count < 0) {
        arrived.which = lib_arrived_NotArrived;
        arrived.NotArrived.value_0 = lib_error();
    }
    return arrived;
}

struct lib_sent lib_host_send_block(struct lib_block *block, struct lib_sock *sock, long long wait)
{
    struct lib_sent sent = {.which = lib_sent_Sent};
    if (!lib_socket_send(sock, block->bytes, block->length, wait)) {
        sent.which = lib_sent_NotSent;
        sent.NotSent.value_0 = lib_error();
    }
    return sent;
}
