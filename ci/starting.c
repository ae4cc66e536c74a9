/* A library that is loaded before a program under test, which counts the threads that it starts, and can refuse some of them.
 *
 * Each thread that starts adds a byte to the file STARTED_COUNT. The starts are numbered from 1. Those from STARTED_REFUSED to STARTED_REFUSED_TO are
 * refused, as the system refuses them where a process may have no more threads; one alone where the second is not set.
 */
#define _GNU_SOURCE
#include <dlfcn.h>
#include <errno.h>
#include <fcntl.h>
#include <pthread.h>
#include <stdatomic.h>
#include <stdlib.h>
#include <unistd.h>

typedef void *work(void *);
typedef int create(pthread_t *, const pthread_attr_t *, work *, void *);

static atomic_long starts;

static long number_in(const char *name, long otherwise) {
    const char *value = getenv(name);
    return value ? atol(value) : otherwise;
}

static void count(const char *path) {
    int file = open(path, O_WRONLY | O_CREAT | O_APPEND | O_CLOEXEC, 0600);
    if (file < 0 || write(file, "1", 1) != 1 || close(file)) abort();
}

int pthread_create(pthread_t *thread, const pthread_attr_t *attributes, work *start, void *given) {
    long number = atomic_fetch_add(&starts, 1) + 1, refused = number_in("STARTED_REFUSED", 0);
    if (refused <= number && number <= number_in("STARTED_REFUSED_TO", refused)) return EAGAIN;
    int failed = ((create *)dlsym(RTLD_NEXT, "pthread_create"))(thread, attributes, start, given);
    const char *path = getenv("STARTED_COUNT");
    if (!failed && path) count(path);
    return failed;
}
