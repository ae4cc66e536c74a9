/* A library that is loaded before a program under test, and refuses the program one allocation.
 *
 * Allocations are counted from the start of `main`. Where REFUSE_AFTER is set they are counted only between a write to standard output that begins with
 * that text and one that begins with the text of REFUSE_UNTIL, and again after the next such write. The allocation with the number REFUSE_NUMBER,
 * from 1, is refused, as malloc refuses one. At the end of the program three numbers are written to the file REFUSE_COUNT: the count, how many bytes more
 * were allocated than were given back meanwhile, and how many threads there were when the counting ended.
 */
#define _GNU_SOURCE
#include <dirent.h>
#include <dlfcn.h>
#include <errno.h>
#include <fcntl.h>
#include <malloc.h>
#include <stdatomic.h>
#include <stdio.h>
#include <stdlib.h>
#include <string.h>
#include <sys/syscall.h>
#include <unistd.h>

typedef int program_main(int, char **, char **);

extern void *__libc_malloc(size_t size);
extern void *__libc_calloc(size_t number, size_t size);
extern void *__libc_realloc(void *old, size_t size);
extern void *__libc_memalign(size_t alignment, size_t size);
extern void __libc_free(void *old);

static atomic_int is_counting;
static atomic_long count, bytes_more, threads;
static long refused;
static const char *after, *until;
static program_main *real_main;

static int is_refused(void) {
    if (!atomic_load(&is_counting) || atomic_fetch_add(&count, 1) + 1 != refused) return 0;
    errno = ENOMEM;
    return 1;
}

static long size_of(void *block) { return block ? (long)malloc_usable_size(block) : 0; }

static void *made(void *block, long bytes_before) {
    if (atomic_load(&is_counting)) atomic_fetch_add(&bytes_more, size_of(block) - bytes_before);
    return block;
}

void *malloc(size_t size) { return is_refused() ? NULL : made(__libc_malloc(size), 0); }
void *calloc(size_t number, size_t size) { return is_refused() ? NULL : made(__libc_calloc(number, size), 0); }
void *aligned_alloc(size_t alignment, size_t size) { return is_refused() ? NULL : made(__libc_memalign(alignment, size), 0); }

void *realloc(void *old, size_t size) {
    long before = size_of(old);
    return is_refused() ? NULL : made(__libc_realloc(old, size), before);
}

void free(void *old) {
    made(NULL, size_of(old));
    __libc_free(old);
}

/* Each thread of a process has a folder there. */
static long threads_now(void) {
    long found = 0;
    DIR *folder = opendir("/proc/self/task");
    for (struct dirent *entry; folder && (entry = readdir(folder));) found += entry->d_name[0] != '.';
    if (folder) closedir(folder);
    return found;
}

static int begins_with(const char *bytes, size_t length, const char *text) {
    return text && length >= strlen(text) && !memcmp(bytes, text, strlen(text));
}

ssize_t write(int file, const void *bytes, size_t length) {
    if (file == STDOUT_FILENO && begins_with(bytes, length, until)) {
        atomic_store(&is_counting, 0);
        atomic_store(&threads, threads_now());
    }
    long written = syscall(SYS_write, file, bytes, length);
    if (file == STDOUT_FILENO && begins_with(bytes, length, after)) atomic_store(&is_counting, 1);
    return written;
}

ssize_t __write(int file, const void *bytes, size_t length) { return write(file, bytes, length); }

static void write_count(const char *path) {
    char text[96];
    int length = snprintf(text, sizeof text, "%ld %ld %ld\n", atomic_load(&count), atomic_load(&bytes_more), atomic_load(&threads));
    int file = open(path, O_WRONLY | O_CREAT | O_TRUNC, 0600);
    if (file < 0 || write(file, text, length) != length) abort();
}

/* The programs end by this call. */
void _exit(int status) {
    const char *path = getenv("REFUSE_COUNT");
    atomic_store(&is_counting, 0);
    if (path) write_count(path);
    syscall(SYS_exit_group, status);
    __builtin_unreachable();
}

static int counted_main(int words, char **word, char **environment) {
    const char *number = getenv("REFUSE_NUMBER");
    refused = number ? atol(number) : 0;
    after = getenv("REFUSE_AFTER");
    until = getenv("REFUSE_UNTIL");
    atomic_store(&is_counting, !after);
    _exit(real_main(words, word, environment));
}

int __libc_start_main(program_main *given, int words, char **word, void (*init)(void), void (*fini)(void), void (*end)(void), void *stack) {
    int (*start)(program_main *, int, char **, void (*)(void), void (*)(void), void (*)(void), void *) = dlsym(RTLD_NEXT, "__libc_start_main");
    real_main = given;
    return start(counted_main, words, word, init, fini, end, stack);
}
