#include "request.hpp"
int work() {
    request q;
    q.serve();
    q.complete();
    return 0;
}
