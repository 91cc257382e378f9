/* Whoever begins a thread waits until it has ended, or for ten seconds: so a thread of its own does all the work that is there. */
#define _GNU_SOURCE
#include <dlfcn.h>
#include <pthread.h>
#include <stdlib.h>
#include <time.h>

struct begun {
    void *(*work)(void *);
    void *given;
    int has_ended;
};

static void *to_the_end(void *of)
{
    struct begun *begun = of;
    void *result = begun->work(begun->given);

    __atomic_store_n(&begun->has_ended, 1, __ATOMIC_SEQ_CST);
    return result;
}

int pthread_create(pthread_t *thread, const pthread_attr_t *how, void *(*work)(void *), void *given)
{
    int (*create)(pthread_t *, const pthread_attr_t *, void *(*)(void *), void *) = dlsym(RTLD_NEXT, "pthread_create");
    struct timespec moment = {0, 1000000};
    struct begun *begun = calloc(1, sizeof *begun);
    int refused, turn;

    begun->work = work;
    begun->given = given;
    refused = create(thread, how, to_the_end, begun);
    for (turn = 0; !refused && turn < 10000 && !__atomic_load_n(&begun->has_ended, __ATOMIC_SEQ_CST); turn++)
        nanosleep(&moment, NULL);
    return refused;
}
