#include "lock.hpp"
extern lock m;
extern lock l __attribute__((acquired_before(m)));
void first() WITHOUT(l, m) {
    l.acquire();
    m.acquire();
    m.unlock();
    l.unlock();
}
void second() WITHOUT(l, m) {
    m.acquire();
    l.acquire();  // fault
    m.unlock();
    l.unlock();
}
