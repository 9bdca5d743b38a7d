#include "lock.h"
void pay(/*@loose@*/ struct lock *l, int cents) /*@ensures loose l@*/;
void pay(struct lock *l, int cents) {
    ASSUME_LOOSE(l);
    lock_acquire(l);
    if (cents > 100) {
        lock_unlock(l);
        return;
    }
    report(cents);
    lock_unlock(l);
}
