#include "sock.hpp"
int work() {
    sock s;
    s.listen();  // fault
    s.close();
    return 0;
}
