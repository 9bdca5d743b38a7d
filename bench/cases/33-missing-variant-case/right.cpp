#include "sock.hpp"
int work() {
    sock s;
    if (s.bind(80)) {
        s.listen();
        s.close();
    } else {
        s.close_raw();
    }
    return 0;
}
