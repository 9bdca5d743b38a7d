#include "lock.h"
void work(/*@loose@*/ struct lock *l) /*@ensures loose l@*/;
void work(struct lock *l) {
    ASSUME_LOOSE(l);
    lock_acquire(l);
    lock_acquire(l); /* fault */
    report(1);
    lock_unlock(l);
}
