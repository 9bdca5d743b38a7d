#include "lock.hpp"
void work(lock &l COMES(consumed) STAYS(consumed)) WITHOUT(l) {
    l.acquire();
    l.unlock();
    report(l.data());  // fault
}
