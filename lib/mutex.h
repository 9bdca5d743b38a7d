/* Mutexes and condition variables of mutex.v, for hosts whose threads take them, too. */

#ifndef LIB_MUTEX_H
#define LIB_MUTEX_H

#include <pthread.h>
#include <stdbool.h>

struct lib_mutex {
    pthread_mutex_t lock;
    bool is_destroyed; /* the record stays, since a program may still try to acquire it */
};

struct lib_condition {
    pthread_cond_t condition;
};

#endif
