/* Loaded before the C library: counts the threads that sleep at each word of memory, and lets a thread that takes memory rest now and then, so that others
   wait for what it holds. PAUSE_EVERY is the number of growths from one rest to the next, PAUSE_MICROS how long it is, and PAUSE_TOLD the file of WORDS
   records of four numbers each: how many sleep at the word now, how many did at once at the most, how many wakes of one and how many wakes of all it had.
   Wakes of one are lost where PAUSE_LOST is `one`, and those of all where it is `all`. With PAUSE_HASTY a thread that would let others run before it looks
   again looks at once, so that it falls asleep before anything happens, also where it rarely gets a processor. */
#define _GNU_SOURCE
#include <dlfcn.h>
#include <fcntl.h>
#include <linux/futex.h>
#include <stdarg.h>
#include <stdatomic.h>
#include <stdlib.h>
#include <string.h>
#include <sys/mman.h>
#include <sys/syscall.h>
#include <time.h>
#include <unistd.h>

#define WORDS 256

extern void *__libc_malloc(size_t size);
extern void *__libc_realloc(void *at, size_t size);

struct word {
    _Atomic long now, most, ones, alls;
};

static struct word *words;
static _Atomic long at[WORDS];
static long every, micros;
static int is_hasty, loses_ones, loses_alls;
static _Atomic long growths;
static long (*real_syscall)(long, ...);

__attribute__((constructor)) static void begin(void) {
    const char *told = getenv("PAUSE_TOLD"), *count = getenv("PAUSE_EVERY"), *rest = getenv("PAUSE_MICROS"), *lost = getenv("PAUSE_LOST");
    real_syscall = (long (*)(long, ...))dlsym(RTLD_NEXT, "syscall");
    int file = told ? open(told, O_RDWR) : -1;
    void *place = file < 0 ? MAP_FAILED : mmap(0, WORDS * sizeof(struct word), PROT_READ | PROT_WRITE, MAP_SHARED, file, 0);
    if (place == MAP_FAILED || !count || !rest) _exit(99);
    every = atol(count);
    micros = atol(rest);
    is_hasty = getenv("PAUSE_HASTY") != 0;
    loses_ones = lost && !strcmp(lost, "one");
    loses_alls = lost && !strcmp(lost, "all");
    words = place;
}

/* The record of a word. Where there are more words than records, some share the last one. */
static struct word *word_of(long address) {
    for (int place = 0; place < WORDS - 1; place++) {
        long none = 0;
        if (atomic_load(&at[place]) == address || atomic_compare_exchange_strong(&at[place], &none, address) || none == address) return &words[place];
    }
    return &words[WORDS - 1];
}

static void raise_most(struct word *word, long count) {
    long most = atomic_load(&word->most);
    while (most < count && !atomic_compare_exchange_weak(&word->most, &most, count)) {
    }
}

long syscall(long number, ...) {
    va_list list;
    long given[6];
    va_start(list, number);
    for (int place = 0; place < 6; place++) given[place] = va_arg(list, long);
    va_end(list);
    int operation = number == SYS_futex ? (int)given[1] & FUTEX_CMD_MASK : -1;
    int is_wait = operation == FUTEX_WAIT || operation == FUTEX_WAIT_BITSET;
    struct word *word = operation < 0 ? 0 : word_of(given[0]);
    if (is_wait) raise_most(word, atomic_fetch_add(&word->now, 1) + 1);
    if (operation == FUTEX_WAKE) {
        int is_one = (int)given[2] == 1;
        atomic_fetch_add(is_one ? &word->ones : &word->alls, 1);
        if (is_one ? loses_ones : loses_alls) return 0;
    }
    long answer = real_syscall(number, given[0], given[1], given[2], given[3], given[4], given[5]);
    if (is_wait) atomic_fetch_sub(&word->now, 1);
    return answer;
}

int sched_yield(void) {
    return is_hasty ? 0 : (int)real_syscall(SYS_sched_yield);
}

static void rest_now_and_then(void) {
    if (every && atomic_fetch_add(&growths, 1) % every == every - 1) {
        struct timespec rest = {0, micros * 1000};
        nanosleep(&rest, 0);
    }
}

void *malloc(size_t size) {
    rest_now_and_then();
    return __libc_malloc(size);
}

void *realloc(void *at, size_t size) {
    rest_now_and_then();
    return __libc_realloc(at, size);
}
