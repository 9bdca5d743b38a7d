#include "sock.hpp"
int work() {
    sock s;
    if (s.bind(80)) {  // fault
        s.listen();
        s.close();
    }
    return 0;
}
