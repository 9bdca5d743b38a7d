#include "socket.h"
int work(void) {
    struct sock *s = sock_make();
    if (sock_bind(s, 80) != BOUND) {
        report(1);
        sock_close(s);
        return 1;
    }
    sock_listen(s);
    sock_close(s);
    return 0;
}
