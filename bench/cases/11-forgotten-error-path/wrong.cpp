#include "sock.hpp"
int work() {
    sock s;
    if (!s.bind(80)) {
        report(1);
        return 1;  // fault
    }
    s.listen();
    s.close();
    return 0;
}
