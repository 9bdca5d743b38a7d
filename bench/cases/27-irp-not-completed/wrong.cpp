#include "request.hpp"
int work() {
    request q;
    q.serve();
    if (ask() > 0) {
        return 1;  // fault
    }
    q.complete();
    return 0;
}
