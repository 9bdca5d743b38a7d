/* The externals of mutex.v, over POSIX threads. A new mutex is held by the program; `acquire` gives its key and `unlock` takes
 * it. A mutex that is destroyed can't be acquired any more, EINVAL. Waits are in milliseconds; a negative one has no end. */

#define _POSIX_C_SOURCE 200809L

#include "mutex.h"

#include <errno.h>
#include <stdlib.h>
#include <time.h>

#include "common.h"
#include "lib_host.h"

/* Begins a mutex that tells of each misuse, and locks it; 0 or the error. */
static int begin_locked(pthread_mutex_t *lock)
{
    pthread_mutexattr_t attributes;
    int error = pthread_mutexattr_init(&attributes);
    if (error != 0) {
        return error;
    }
    error = pthread_mutexattr_settype(&attributes, PTHREAD_MUTEX_ERRORCHECK);
    if (error == 0) {
        error = pthread_mutex_init(lock, &attributes);
    }
    pthread_mutexattr_destroy(&attributes);
    return error != 0 ? error : pthread_mutex_lock(lock);
}

struct lib_made_mutex lib_host_make_mutex(void)
{
    struct lib_made_mutex made = {.which = lib_made_mutex_NoMutex};
    struct lib_mutex *mutex = malloc(sizeof *mutex);
    int error = mutex == NULL ? ENOMEM : begin_locked(&mutex->lock);
    if (error != 0) {
        made.NoMutex.value_0 = error;
        free(mutex);
        return made;
    }
    mutex->is_destroyed = false;
    made.which = lib_made_mutex_Mutex;
    made.Mutex.value_0 = mutex;
    return made;
}

struct lib_acquired lib_host_acquire(struct lib_mutex *mutex)
{
    struct lib_acquired acquired = {.which = lib_acquired_Acquired};
    int error = mutex == NULL || mutex->is_destroyed ? EINVAL : pthread_mutex_lock(&mutex->lock);
    if (error != 0) {
        acquired.which = lib_acquired_NotAcquired;
        acquired.NotAcquired.value_0 = error;
    }
    return acquired;
}

void lib_host_unlock(struct lib_mutex *mutex)
{
    pthread_mutex_unlock(&mutex->lock);
}

void lib_host_destroy_mutex(struct lib_mutex *mutex)
{
    mutex->is_destroyed = true;
    pthread_mutex_unlock(&mutex->lock);
    pthread_mutex_destroy(&mutex->lock);
}

/* Begins a condition variable whose waits go by the monotonic clock; 0 or the error. */
static int begin_condition(pthread_cond_t *condition)
{
    pthread_condattr_t attributes;
    int error = pthread_condattr_init(&attributes);
    if (error != 0) {
        return error;
    }
    error = pthread_condattr_setclock(&attributes, CLOCK_MONOTONIC);
    if (error == 0) {
        error = pthread_cond_init(condition, &attributes);
    }
    pthread_condattr_destroy(&attributes);
    return error;
}

struct lib_made_condition lib_host_make_condition(void)
{
    struct lib_made_condition made = {.which = lib_made_condition_NoCondition};
    struct lib_condition *condition = malloc(sizeof *condition);
    int error = condition == NULL ? ENOMEM : begin_condition(&condition->condition);
    if (error != 0) {
        made.NoCondition.value_0 = error;
        free(condition);
        return made;
    }
    made.which = lib_made_condition_Condition;
    made.Condition.value_0 = condition;
    return made;
}

/* Waits once, with the mutex released meanwhile; 0 or the error. */
static int wait_once(struct lib_condition *condition, struct lib_mutex *mutex, long long wait)
{
    long long end = lib_deadline(wait);
    struct timespec moment = {.tv_sec = (time_t) (end / 1000), .tv_nsec = (long) (end % 1000) * 1000000};
    return end < 0 ? pthread_cond_wait(&condition->condition, &mutex->lock)
                   : pthread_cond_timedwait(&condition->condition, &mutex->lock, &moment);
}

/* It may wake without a cause, as POSIX allows: a program asks again for what it waits for. */
struct lib_waited lib_host_wait_for(struct lib_condition *condition, struct lib_mutex *mutex, long long wait)
{
    struct lib_waited waited = {.which = lib_waited_Woken};
    int error = wait_once(condition, mutex, wait);
    if (error == ETIMEDOUT) {
        waited.which = lib_waited_TimedOut;
    } else if (error != 0) {
        waited.which = lib_waited_NotWaited;
        waited.NotWaited.value_0 = error;
    }
    return waited;
}

void lib_host_wake_one(struct lib_condition *condition)
{
    pthread_cond_signal(&condition->condition);
}

void lib_host_wake_all(struct lib_condition *condition)
{
    pthread_cond_broadcast(&condition->condition);
}

void lib_host_destroy_condition(struct lib_condition *condition)
{
    pthread_cond_destroy(&condition->condition);
    free(condition);
}
