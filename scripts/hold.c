// Preloaded into a program, holds a thread when it wakes up from a sleep on a word of memory, one at a time. At the
// end of the program it prints on standard error how often it held one.
//
// It holds the first woken thread, until the program makes another thread. If HOLD_WAKER is set, it holds the thread
// that woke it, until the woken thread sleeps on that word again, and for at most 10 milliseconds: an operation that
// has to precede a wake-up and follows it is then too late.
#define _GNU_SOURCE
#include <dlfcn.h>
#include <linux/futex.h>
#include <pthread.h>
#include <stdarg.h>
#include <stdatomic.h>
#include <stdio.h>
#include <stdlib.h>
#include <sys/syscall.h>
#include <unistd.h>

static int (*create)(pthread_t *, const pthread_attr_t *, void *(*)(void *), void *);
static long (*call)(long number, ...);
static _Atomic long made, held, word;
static _Atomic int holds, by_waker;

static void hold_woken(void) {
    long before = made;
    if (atomic_exchange(&holds, 1)) return;
    held++;
    while (made == before) usleep(100);
    holds = 0;
}

static void hold_waker(long at) {
    if (atomic_exchange(&holds, 1)) return;
    held++;
    word = at;
    for (int turn = 0; turn < 64 && word == at; turn++) usleep(100);
    word = 0;
    holds = 0;
}

int pthread_create(pthread_t *thread, const pthread_attr_t *how, void *(*run)(void *), void *with) {
    made++;
    return create(thread, how, run, with);
}

long syscall(long number, ...) {
    long with[6], answer;
    va_list words;
    va_start(words, number);
    for (int place = 0; place < 6; place++) with[place] = va_arg(words, long);
    va_end(words);
    int what = number == SYS_futex ? with[1] & FUTEX_CMD_MASK : -1;
    if (what == FUTEX_WAIT && with[0] == word) word = 0;
    answer = call(number, with[0], with[1], with[2], with[3], with[4], with[5]);
    if (what == FUTEX_WAIT && answer == 0 && !by_waker) hold_woken();
    if (what == FUTEX_WAKE && answer > 0 && by_waker) hold_waker(with[0]);
    return answer;
}

__attribute__((constructor)) static void begin(void) {
    *(void **)&create = dlsym(RTLD_NEXT, "pthread_create");
    *(void **)&call = dlsym(RTLD_NEXT, "syscall");
    by_waker = getenv("HOLD_WAKER") != NULL;
}

__attribute__((destructor)) static void end(void) {
    dprintf(2, "held %ld times\n", held);
}

void _exit(int status) {
    end();
    for (;;) call(SYS_exit_group, status);
}
