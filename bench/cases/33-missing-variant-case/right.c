#include "socket.h"
int work(void) {
    struct sock *s = sock_make();
    switch (sock_bind(s, 80)) {
    case BOUND:
        sock_listen(s);
        sock_close(s);
        break;
    case FAILED:
        sock_close(s);
        break;
    }
    return 0;
}
