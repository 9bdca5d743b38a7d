/* A lock is loose or shut. Its data may be read while it is shut. The functions of a program get it loose and leave it loose. */
#include "tools.h"

#ifdef __CHECKER__
#define SHUTS __attribute__((context(held, 0, 1)))
#define LOOSENS __attribute__((context(held, 1, 0)))
#else
#define SHUTS
#define LOOSENS
#endif

/* ASSUME_LOOSE tells models what a function's callers promise. */
#ifndef MODELS
#define ASSUME_LOOSE(l)
struct lock;
void lock_acquire(/*@loose@*/ struct lock *l) /*@ensures shut l@*/ SHUTS;
void lock_unlock(/*@shut@*/ struct lock *l) /*@ensures loose l@*/ LOOSENS;
int lock_data(/*@shut@*/ struct lock *l);
#else
struct lock {
    int is_shut;
    int data;
};
#define lock_acquire(l) (REQUIRE(!(l)->is_shut), (l)->is_shut = 1)
#define lock_unlock(l) (REQUIRE((l)->is_shut), (l)->is_shut = 0)
#define lock_data(l) (REQUIRE((l)->is_shut), (l)->data)
#define ASSUME_LOOSE(l) ((l)->is_shut = 0)
#endif
