#include "sock.hpp"
int work() {
    sock s;
    s.bind(80);
    s.listen();  // fault
    s.close();
    return 0;
}
