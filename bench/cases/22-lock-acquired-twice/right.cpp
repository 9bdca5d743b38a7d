#include "lock.hpp"
void work(lock &l COMES(consumed) STAYS(consumed)) WITHOUT(l) {
    l.acquire();
    report(1);
    l.unlock();
}
