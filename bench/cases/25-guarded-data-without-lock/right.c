#include "lock.h"
void work(/*@loose@*/ struct lock *l) /*@ensures loose l@*/;
void work(struct lock *l) {
    ASSUME_LOOSE(l);
    lock_acquire(l);
    report(lock_data(l));
    lock_unlock(l);
}
