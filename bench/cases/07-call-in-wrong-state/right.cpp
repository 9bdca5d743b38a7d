#include "sock.hpp"
int work() {
    sock s;
    s.choose_port();
    s.listen();
    s.close();
    return 0;
}
