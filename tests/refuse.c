/* Loaded before the C library: refuses one call of a kind, by its number, and counts them. REFUSE_KIND is growth, read, write, start (of a thread) or
   none, REFUSE_AT the number from 1, REFUSE_MOST the most bytes that a read or write moves, and REFUSE_TOLD the file in which the count stands
   afterwards, eight bytes. Calls of all threads are counted in the order in which they come. What the thread library takes for its own use by other
   means is not refused. */
#define _GNU_SOURCE
#include <dlfcn.h>
#include <errno.h>
#include <fcntl.h>
#include <pthread.h>
#include <stdatomic.h>
#include <stdlib.h>
#include <string.h>
#include <sys/mman.h>
#include <unistd.h>

extern void *__libc_malloc(size_t size);
extern void *__libc_realloc(void *at, size_t size);

enum kind { NONE, GROWTH, READ, WRITE, START };

static enum kind refused_kind = NONE;
static long refused_at;
static size_t most = (size_t)-1;
static _Atomic long *count;
static ssize_t (*real_pread)(int, void *, size_t, off_t);
static ssize_t (*real_write)(int, const void *, size_t);
static int (*real_start)(pthread_t *, const pthread_attr_t *, void *(*)(void *), void *);

static enum kind kind_of(const char *name) {
    if (!strcmp(name, "growth")) return GROWTH;
    if (!strcmp(name, "read")) return READ;
    if (!strcmp(name, "write")) return WRITE;
    if (!strcmp(name, "start")) return START;
    return NONE;
}

__attribute__((constructor)) static void begin(void) {
    const char *kind = getenv("REFUSE_KIND"), *at = getenv("REFUSE_AT"), *bytes = getenv("REFUSE_MOST"), *told = getenv("REFUSE_TOLD");
    real_pread = (ssize_t (*)(int, void *, size_t, off_t))dlsym(RTLD_NEXT, "pread");
    real_write = (ssize_t (*)(int, const void *, size_t))dlsym(RTLD_NEXT, "write");
    real_start = (int (*)(pthread_t *, const pthread_attr_t *, void *(*)(void *), void *))dlsym(RTLD_NEXT, "pthread_create");
    int file = told ? open(told, O_RDWR) : -1;
    void *place = file < 0 ? MAP_FAILED : mmap(0, sizeof(long), PROT_READ | PROT_WRITE, MAP_SHARED, file, 0);
    if (place == MAP_FAILED || !kind) _exit(99);
    refused_at = at ? atol(at) : 0;
    most = bytes ? (size_t)atol(bytes) : most;
    refused_kind = kind_of(kind);
    count = place;
}

/* Whether this call is the one that is refused. */
static int is_refused(enum kind kind) {
    return kind == refused_kind && atomic_fetch_add(count, 1) + 1 == refused_at;
}

void *malloc(size_t size) {
    if (is_refused(GROWTH)) {
        errno = ENOMEM;
        return 0;
    }
    return __libc_malloc(size);
}

void *realloc(void *at, size_t size) {
    if (is_refused(GROWTH)) {
        errno = ENOMEM;
        return 0;
    }
    return __libc_realloc(at, size);
}

ssize_t pread(int file, void *to, size_t size, off_t from) {
    if (is_refused(READ)) {
        errno = EIO;
        return -1;
    }
    return real_pread(file, to, size < most ? size : most, from);
}

static ssize_t write_some(int file, const void *from, size_t size) {
    if (is_refused(WRITE)) {
        errno = EIO;
        return -1;
    }
    return real_write(file, from, size < most ? size : most);
}

ssize_t write(int file, const void *from, size_t size) {
    return write_some(file, from, size);
}

ssize_t __write(int file, const void *from, size_t size) {
    return write_some(file, from, size);
}

int pthread_create(pthread_t *thread, const pthread_attr_t *attributes, void *(*body)(void *), void *given) {
    return is_refused(START) ? EAGAIN : real_start(thread, attributes, body, given);
}
