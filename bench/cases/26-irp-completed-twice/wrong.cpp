#include "request.hpp"
int work() {
    request q;
    q.serve();
    q.complete();
    q.complete();  // fault
    return 0;
}
