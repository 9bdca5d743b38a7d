#include "request.h"
int work(void) {
    struct request *q = request_take();
    request_complete(q); /* fault */
    return 0;
}
