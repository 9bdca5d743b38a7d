/* A region owns nodes: those that it makes, and those that it adopts. They may be read until it is dropped, but not while one of them is in
   focus: then that one alone may be read. For -Wconsumed a region with a node in focus is unknown. */
#include "tools.hpp"

/* A node that has no region. */
class STARTS(consumed) KEY node {
public:
    explicit node(int value) STAYS(unconsumed) GETS();
    ~node() WHEN("consumed");
    void drop() WHEN("unconsumed") BECOMES(consumed) LOSES();
    void set_value(int value) WHEN("unconsumed") NEEDS(this);
};

/* The name of a region's node. */
struct guarded {};

class STARTS(consumed) KEY region {
public:
    state focus;

    region() STAYS(unconsumed) GETS();
    ~region() WHEN("consumed");
    guarded make(int value) WHEN("unconsumed") NEEDS(this);
    void adopt(node &it COMES(unconsumed) STAYS(consumed)) WHEN("unconsumed") NEEDS(this) LOSES(it);
    int value(guarded it) WHEN("unconsumed") NEEDS(this) WITHOUT(focus);
    void open(guarded it) WHEN("unconsumed") BECOMES(unknown) NEEDS(this) GETS(focus);
    int opened_value() WHEN("unknown") NEEDS(focus);
    void close() WHEN("unknown") BECOMES(unconsumed) NEEDS(this) LOSES(focus);
    void drop() WHEN("unconsumed") BECOMES(consumed) WITHOUT(focus) LOSES();
};
