/* The externals of contended.v: three threads that count under the program's mutex, and wake it. With UNLOCKED they count without it. */

#include "lib_host.h"
#include "mutex.h"

enum { THREADS = 3 };

static pthread_t threads[THREADS];
static struct lib_mutex *shared_mutex;
static struct lib_condition *shared_condition;
static long long turns_of_each;
static long long sum;

static void *contend(void *nothing)
{
    for (long long turn = 0; turn < turns_of_each; turn++) {
#ifdef UNLOCKED
        sum++;
#else
        pthread_mutex_lock(&shared_mutex->lock);
        sum++;
        pthread_cond_broadcast(&shared_condition->condition);
        pthread_mutex_unlock(&shared_mutex->lock);
#endif
    }
    return nothing;
}

void lib_host_start_threads(struct lib_mutex *m, struct lib_condition *c, long long turns)
{
    shared_mutex = m;
    shared_condition = c;
    turns_of_each = turns;
    for (int i = 0; i < THREADS; i++) {
        pthread_create(&threads[i], NULL, contend, NULL);
    }
}

void lib_host_join_threads(void)
{
    for (int i = 0; i < THREADS; i++) {
        pthread_join(threads[i], NULL);
    }
}

long long lib_host_count(struct lib_mutex *m, long long added)
{
    (void) m;
    return sum += added;
}
