/* A sensor is off when it is made. Its value may be read while it is on, and it is dropped while it is off. A box owns a sensor.
   For -Wconsumed a sensor that is off is unknown, and unconsumed while it is on. */
#include "tools.hpp"

class STARTS(consumed) KEY sensor {
public:
    state power;

    sensor();
    explicit sensor(int last) STAYS(unknown) GETS();
    ~sensor() WHEN("consumed");

    /* An assignment of a new sensor; -Wthread-safety doesn't look at operators. */
    void assign(int last) WHEN("consumed") BECOMES(unknown) WITHOUT(this) GETS();
    void drop() WHEN("unknown") BECOMES(consumed) WITHOUT(power) LOSES();
    void on() WHEN("unknown", "unconsumed") BECOMES(unconsumed) NEEDS(this) GETS(power);
    void off() WHEN("unknown", "unconsumed") BECOMES(unknown) NEEDS(this) LOSES(power);
    bool is_on() WHEN("unknown", "unconsumed") IF_TRUE(unconsumed) NEEDS(this);
    int value() WHEN("unconsumed") NEEDS(power);
    int last() WHEN("unknown", "unconsumed") NEEDS(this);
    void set_last(int last) WHEN("unknown", "unconsumed") NEEDS(this);
};

/* What a search for a sensor gives: one, which is dropped, or none. */
class STARTS(unknown) KEY search {
public:
    search() STAYS(unknown);
    ~search() WHEN("consumed");
    bool found() WHEN("unknown") IF_TRUE(unconsumed) TRIES(this);
    void drop() WHEN("unconsumed") BECOMES(consumed) LOSES();
};

/* A sensor that others share is lent in state off, and given back so. */
class STARTS(consumed) KEY loan {
public:
    state power;

    loan() STAYS(unknown) GETS();
    ~loan() WHEN("consumed");
    void give_back() WHEN("unknown") BECOMES(consumed) WITHOUT(power) LOSES();
    void on() WHEN("unknown", "unconsumed") BECOMES(unconsumed) NEEDS(this) GETS(power);
    void off() WHEN("unknown", "unconsumed") BECOMES(unknown) NEEDS(this) LOSES(power);
    int value() WHEN("unconsumed") NEEDS(power);
};

/* A box takes its sensor over, also the new one of a swap, which gives the old one. Opened it gives its sensor and is gone. */
class STARTS(consumed) KEY box {
public:
    box();
    ~box() WHEN("consumed");
    void own(sensor &content COMES(unknown) STAYS(consumed)) WHEN("consumed") BECOMES(unconsumed) LOSES(content) GETS();
    void drop() WHEN("unconsumed") BECOMES(consumed) LOSES();
    void swap(sensor &fresh COMES(unknown) STAYS(consumed), sensor &old COMES(consumed) STAYS(unknown))
        WHEN("unconsumed") NEEDS(this) LOSES(fresh) GETS(old);
    void open(sensor &content COMES(consumed) STAYS(unknown)) WHEN("unconsumed") BECOMES(consumed) LOSES() GETS(content);
    int size() WHEN("unconsumed") NEEDS(this);
    void set_size(int size) WHEN("unconsumed") NEEDS(this);
};
