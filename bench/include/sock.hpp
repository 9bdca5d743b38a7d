/* A socket is raw when it is made, named by bind or choose_port, and listens after listen. It is closed in one way while it is raw, in
   another later. For -Wconsumed a test of a state leaves consumed if it fails: so a socket is consumed if bind has failed, unconsumed while it has
   a name, and unknown while it is raw, or closed. */
#include "tools.hpp"

class STARTS(unknown) KEY sock {
public:
    state name;

    sock() STAYS(unknown) GETS();
    ~sock() WHEN("unknown");
    bool bind(int port) WHEN("unknown") IF_TRUE(unconsumed) NEEDS(this) TRIES(name);
    void choose_port() WHEN("unknown") BECOMES(unconsumed) NEEDS(this) GETS(name);
    void listen() WHEN("unconsumed") NEEDS(name);
    void close() WHEN("unconsumed") BECOMES(unknown) LOSES(this, name);
    void close_raw() WHEN("unknown", "consumed") BECOMES(unknown) WITHOUT(name) LOSES();
};
