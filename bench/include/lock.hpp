/* A lock is loose or shut. Its data may be read while it is shut. The functions of a program get it loose and leave it loose. */
#include "tools.hpp"

class STARTS(consumed) KEY lock {
public:
    void acquire() WHEN("consumed") BECOMES(unconsumed) GETS();
    void unlock() WHEN("unconsumed") BECOMES(consumed) LOSES();
    int data() WHEN("unconsumed") NEEDS(this);
};
