#include "sock.hpp"
int work() {
    sock s;
    if (!s.bind(80)) {
        report(1);
        s.close_raw();
        return 1;
    }
    s.listen();
    s.close();
    return 0;
}
