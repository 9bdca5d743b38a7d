#include "request.h"
int work(void) {
    struct request *q = request_take();
    request_serve(q);
    request_complete(q);
    return 0;
}
