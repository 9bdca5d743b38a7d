/* A request is pending when it is taken, and served before it is completed, once. */
#include "tools.h"

#ifndef MODELS
struct request;
void request_complete(/*@served@*/ /*@only@*/ struct request *q) TAKES(1);
/*@pending@*/ /*@only@*/ struct request *request_take(void) GIVES(request_complete);
void request_serve(/*@pending@*/ struct request *q) /*@ensures served q@*/;
#else
struct request {
    int is_served;
};
#define request_complete(q) (REQUIRE((q)->is_served), free(q))
static struct request *request_take(void) {
    struct request *q = reserve(sizeof *q);
    q->is_served = 0;
    return q;
}
#define request_serve(q) (REQUIRE(!(q)->is_served), (q)->is_served = 1)
#endif
