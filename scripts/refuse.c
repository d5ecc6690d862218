// Preloaded into a program, refuses the allocation whose number, from 1 on, is in REFUSED, and the thread whose
// number is in REFUSED_THREAD. At the end of the program it prints on standard error how many blocks were not freed,
// the number of allocations and of threads, and the most yields of one thread. A program that starts threads gets
// some memory from the C library that this does not count.
#define _GNU_SOURCE
#include <dlfcn.h>
#include <errno.h>
#include <pthread.h>
#include <stdatomic.h>
#include <stdio.h>
#include <stdlib.h>
#include <sys/syscall.h>
#include <unistd.h>

void *__libc_malloc(size_t size);
void *__libc_realloc(void *piece, size_t size);
void __libc_free(void *piece);

static int (*create)(pthread_t *, const pthread_attr_t *, void *(*)(void *), void *);
static int ready;
static long refused, refused_thread;
static _Atomic long requests, kept, threads, most;
static _Thread_local long yields;

static int is_refused(void) {
    return ready && ++requests == refused;
}

void *malloc(size_t size) {
    void *piece = is_refused() ? NULL : __libc_malloc(size);
    kept += ready && piece;
    return piece;
}

void *realloc(void *old, size_t size) {
    void *piece = is_refused() ? NULL : __libc_realloc(old, size);
    kept += ready && piece && !old;
    return piece;
}

void free(void *piece) {
    kept -= ready && piece;
    __libc_free(piece);
}

int pthread_create(pthread_t *thread, const pthread_attr_t *how, void *(*run)(void *), void *with) {
    return ++threads == refused_thread ? EAGAIN : create(thread, how, run, with);
}

int sched_yield(void) {
    long before = most;
    yields++;
    while (before < yields && !atomic_compare_exchange_weak(&most, &before, yields)) {}
    return syscall(SYS_sched_yield);
}

static long number_in(const char *name) {
    const char *number = getenv(name);
    return number ? atol(number) : 0;
}

__attribute__((constructor)) static void begin(void) {
    *(void **)&create = dlsym(RTLD_NEXT, "pthread_create");
    refused = number_in("REFUSED");
    refused_thread = number_in("REFUSED_THREAD");
    ready = 1;
}

__attribute__((destructor)) static void end(void) {
    ready = 0;
    dprintf(2, "kept %ld of %ld, %ld threads, %ld yields\n", kept, requests, threads, most);
}

void _exit(int status) {
    end();
    for (;;) syscall(SYS_exit_group, status);
}
