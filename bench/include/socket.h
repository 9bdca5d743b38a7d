/* A socket is raw when it is made, named by bind or choose_port, and listens after listen. It may be closed in each state. */
#include "tools.h"

enum bound { BOUND, FAILED };

#ifndef MODELS
struct sock;
void sock_close(/*@only@*/ struct sock *s) TAKES(1);
/*@raw@*/ /*@only@*/ struct sock *sock_make(void) GIVES(sock_close);
enum bound sock_bind(/*@raw@*/ struct sock *s, int port) /*@ensures named s@*/ LOOKED_AT;
void sock_choose_port(/*@raw@*/ struct sock *s) /*@ensures named s@*/;
void sock_listen(/*@named@*/ struct sock *s);
#else
enum conn { RAW, NAMED, LISTENING };
struct sock {
    enum conn conn;
};
static void sock_close(struct sock *s) { free(s); }
static struct sock *sock_make(void) {
    struct sock *s = reserve(sizeof *s);
    s->conn = RAW;
    return s;
}
static enum bound sock_try_bind(struct sock *s) {
    if (ask() > 0) {
        return FAILED;
    }
    s->conn = NAMED;
    return BOUND;
}
#define sock_bind(s, port) (REQUIRE((s)->conn == RAW && (port) > 0), sock_try_bind(s))
#define sock_choose_port(s) (REQUIRE((s)->conn == RAW), (s)->conn = NAMED)
#define sock_listen(s) (REQUIRE((s)->conn == NAMED), (s)->conn = LISTENING)
#endif
