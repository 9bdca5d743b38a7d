#include "socket.h"
int work(void) {
    struct sock *s = sock_make();
    sock_choose_port(s);
    sock_listen(s);
    sock_close(s);
    return 0;
}
