#include "request.hpp"
int work() {
    request q;
    q.complete();  // fault
    return 0;
}
