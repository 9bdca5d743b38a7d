#include "lock.h"
void work(/*@loose@*/ struct lock *l) /*@ensures loose l@*/;
void work(struct lock *l) {
    ASSUME_LOOSE(l);
    lock_acquire(l);
    report(1);
    lock_unlock(l);
}
