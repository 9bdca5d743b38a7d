/* The externals of kit.v: a thread that takes the program's mutex and wakes who waits. */

#include "lib_host.h"
#include "mutex.h"

static pthread_t thread;
static struct lib_mutex *shared_mutex;
static struct lib_condition *shared_condition;

static void *wake(void *nothing)
{
    pthread_mutex_lock(&shared_mutex->lock);
    pthread_cond_signal(&shared_condition->condition);
    pthread_mutex_unlock(&shared_mutex->lock);
    return nothing;
}

void lib_host_start_waker(struct lib_mutex *m, struct lib_condition *c)
{
    shared_mutex = m;
    shared_condition = c;
    pthread_create(&thread, NULL, wake, NULL);
}

void lib_host_join_waker(void)
{
    pthread_join(thread, NULL);
}
