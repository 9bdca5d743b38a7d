#include "request.h"
int work(void) {
    struct request *q = request_take();
    request_serve(q);
    if (ask() > 0) {
        request_complete(q);
        return 1;
    }
    request_complete(q);
    return 0;
}
