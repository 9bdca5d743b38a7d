#include "lock.hpp"
void work(lock &l COMES(consumed) STAYS(consumed)) WITHOUT(l) {
    l.acquire();
    report(l.data());
    l.unlock();
}
