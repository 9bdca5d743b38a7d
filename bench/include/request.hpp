/* A request is pending when it is taken, and served before it is completed, once. For -Wconsumed a pending request is unknown. */
#include "tools.hpp"

class STARTS(consumed) KEY request {
public:
    state service;

    request() STAYS(unknown) GETS();
    ~request() WHEN("consumed");
    void serve() WHEN("unknown") BECOMES(unconsumed) NEEDS(this) GETS(service);
    void complete() WHEN("unconsumed") BECOMES(consumed) LOSES(this, service);
};
