#include "socket.h"
int work(void) {
    struct sock *s = sock_make();
    sock_listen(s); /* fault */
    sock_close(s);
    return 0;
}
