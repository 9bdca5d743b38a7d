#include "lock.hpp"
void pay(lock &l COMES(consumed) STAYS(consumed), int cents) WITHOUT(l) {
    l.acquire();
    if (cents > 100) {
        l.unlock();
        return;
    }
    report(cents);
    l.unlock();
}
