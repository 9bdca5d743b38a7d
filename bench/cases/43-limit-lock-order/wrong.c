#include "lock.h"
void first(/*@loose@*/ struct lock *l, /*@loose@*/ struct lock *m) /*@ensures loose l, m@*/;
void first(struct lock *l, struct lock *m) {
    ASSUME_LOOSE(l);
    ASSUME_LOOSE(m);
    lock_acquire(l);
    lock_acquire(m);
    lock_unlock(m);
    lock_unlock(l);
}
void second(/*@loose@*/ struct lock *l, /*@loose@*/ struct lock *m) /*@ensures loose l, m@*/;
void second(struct lock *l, struct lock *m) {
    ASSUME_LOOSE(l);
    ASSUME_LOOSE(m);
    lock_acquire(m);
    lock_acquire(l); /* fault */
    lock_unlock(m);
    lock_unlock(l);
}
