/* Runs work on a thread with enough stack for every call of saktroum.h: for saktroum_run, saktroum_remember, saktroum_list
 * and saktroum_line where the caller's own stack may be too small. C11 or C++ with POSIX threads; link with -pthread.
 */
#ifndef SAKTROUM_STACK_H
#define SAKTROUM_STACK_H

#include <pthread.h>
#include <stddef.h>

#ifdef __cplusplus
extern "C" {
#endif

/* 1 GiB, of which only what is used is taken from memory. */
#define SAKTROUM_STACK_BYTES ((size_t)1 << 30)

struct saktroum_work {
    void (*work)(void *);
    void *argument;
};

static inline void *saktroum_begin(void *given)
{
    const struct saktroum_work *begun = (const struct saktroum_work *)given;
    begun->work(begun->argument);
    return NULL;
}

/* Calls work(argument) on a thread of its own with 1 GiB of stack and waits until it returns. The answer is 0, or the
 * error number if the thread could not be made: then work is not called. work must return, and not by an exception. */
static inline int saktroum_with_stack(void (*work)(void *), void *argument)
{
    struct saktroum_work given = {work, argument};
    pthread_attr_t with;
    pthread_t thread;
    int error = pthread_attr_init(&with);
    if (error)
        return error;
    error = pthread_attr_setstacksize(&with, SAKTROUM_STACK_BYTES);
    if (!error)
        error = pthread_create(&thread, &with, saktroum_begin, &given);
    pthread_attr_destroy(&with);
    return error ? error : pthread_join(thread, NULL);
}

#ifdef __cplusplus
}
#endif

#endif
