#include "lock.hpp"
void work(lock &l COMES(consumed) STAYS(consumed)) WITHOUT(l) {
    l.acquire();
    l.acquire();  // fault
    report(1);
    l.unlock();
}
