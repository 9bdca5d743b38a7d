#include "request.hpp"
int work() {
    request q;
    q.serve();
    if (ask() > 0) {
        q.complete();
        return 1;
    }
    q.complete();
    return 0;
}
