/* Stands before the C library and refuses calls of a program: of memory, of reads, of writes or of threads.
 *
 * REFUSES says which: the word `memory`, `read`, `write` or `thread`, and the number of a call from 1, as `memory 7`. With `+` behind the
 * number all calls behind that one are refused too. Of each refused call TOLD, the number of an open file, is told a byte. MOVES, if it is
 * there, is the most bytes that a read or a write moves. */
#define _GNU_SOURCE
#include <dlfcn.h>
#include <errno.h>
#include <pthread.h>
#include <stdatomic.h>
#include <stdint.h>
#include <stdlib.h>
#include <string.h>
#include <sys/types.h>

extern void *__libc_malloc(size_t);
extern void *__libc_realloc(void *, size_t);
extern ssize_t __read(int, void *, size_t);
extern ssize_t __write(int, const void *, size_t);

typedef int (*create_thread)(pthread_t *, const pthread_attr_t *, void *(*)(void *), void *);

enum kind { NONE, MEMORY, READ, WRITE, THREAD };

static const char *const words[] = {"none", "memory", "read", "write", "thread"};
static create_thread create;
static enum kind refused;
static long first;
static int goes_on;
static int told = -1;
static size_t most = SIZE_MAX;
static atomic_long calls;

__attribute__((constructor)) static void begin(void) {
    const char *said = getenv("REFUSES"), *to = getenv("TOLD"), *moves = getenv("MOVES");
    create = (create_thread)dlsym(RTLD_NEXT, "pthread_create");
    if (to)
        told = atoi(to);
    if (moves)
        most = (size_t)atol(moves);
    for (int kind = MEMORY; said && kind <= THREAD; kind++) {
        size_t length = strlen(words[kind]);
        if (strncmp(said, words[kind], length) == 0) {
            first = atol(said + length);
            goes_on = said[strlen(said) - 1] == '+';
            refused = (enum kind)kind;
        }
    }
}

static int refuses(enum kind kind, int error) {
    if (kind != refused)
        return 0;
    long call = atomic_fetch_add(&calls, 1) + 1;
    if (call != first && !(goes_on && call > first))
        return 0;
    if (told >= 0)
        (void)!__write(told, "!", 1);
    errno = error;
    return 1;
}

static size_t moved(size_t count) {
    return count < most ? count : most;
}

void *malloc(size_t size) {
    return refuses(MEMORY, ENOMEM) ? NULL : __libc_malloc(size);
}

void *realloc(void *old, size_t size) {
    return refuses(MEMORY, ENOMEM) ? NULL : __libc_realloc(old, size);
}

ssize_t read(int file, void *bytes, size_t count) {
    return refuses(READ, EIO) ? -1 : __read(file, bytes, moved(count));
}

ssize_t write(int file, const void *bytes, size_t count) {
    return refuses(WRITE, EIO) ? -1 : __write(file, bytes, moved(count));
}

int pthread_create(pthread_t *thread, const pthread_attr_t *how, void *(*work)(void *), void *with) {
    return refuses(THREAD, EAGAIN) ? EAGAIN : create(thread, how, work, with);
}
