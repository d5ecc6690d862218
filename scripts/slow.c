// Preloaded into a program, makes those threads slow that request it by a sleep of one nanosecond.
//
// If SLOW is `held`, each is held after its first sleep on a word of memory, until the program makes another thread,
// and for at most 20 seconds. If it is `stopped`, each is stopped for 15 of each 20 milliseconds. If it is `crowded`,
// each runs at nice 19 on the processor with the number in CROWD alone. At the end of the program it prints on
// standard error how many threads it made slow, and how often.
#define _GNU_SOURCE
#include <dlfcn.h>
#include <linux/futex.h>
#include <pthread.h>
#include <sched.h>
#include <signal.h>
#include <stdarg.h>
#include <stdatomic.h>
#include <stdio.h>
#include <stdlib.h>
#include <string.h>
#include <sys/resource.h>
#include <sys/syscall.h>
#include <time.h>
#include <unistd.h>

enum { MOST = 1024 };
static int (*create)(pthread_t *, const pthread_attr_t *, void *(*)(void *), void *);
static int (*sleep_for)(const struct timespec *, struct timespec *);
static long (*call)(long number, ...);
static const char *how;
static pthread_t slow[MOST];
static _Atomic long made, count, times;
static _Thread_local int is_slow, is_over;
static pthread_mutex_t lock = PTHREAD_MUTEX_INITIALIZER;

static void pause_for(long micros) {
    struct timespec time = {micros / 1000000, micros % 1000000 * 1000};
    call(SYS_clock_nanosleep, CLOCK_MONOTONIC, 0, &time, NULL);
}

static void stop(int signal) {
    (void)signal;
    times++;
    pause_for(15000);
}

// Stops all slow threads repeatedly, until they have ended: for the first time at most a millisecond after the first
// of them became slow, since the whole program may take less than 20.
static void *stop_each(void *none) {
    for (;;) {
        pthread_mutex_lock(&lock);
        long found = count;
        for (long at = 0; at < found; at++)
            if (slow[at]) pthread_kill(slow[at], SIGUSR1);
        pthread_mutex_unlock(&lock);
        pause_for(found ? 20000 : 1000);
    }
    return none;
}

static void forget(void *at) {
    pthread_mutex_lock(&lock);
    *(pthread_t *)at = 0;
    pthread_mutex_unlock(&lock);
}

static pthread_key_t key;

static void become_slow(void) {
    if (is_slow++) return;
    pthread_mutex_lock(&lock);
    long at = count++;
    if (at == MOST) abort();
    slow[at] = pthread_self();
    pthread_setspecific(key, &slow[at]);
    pthread_mutex_unlock(&lock);
    if (!strcmp(how, "crowded")) {
        cpu_set_t one;
        CPU_ZERO(&one);
        CPU_SET(atoi(getenv("CROWD")), &one);
        if (sched_setaffinity(0, sizeof one, &one) || setpriority(PRIO_PROCESS, 0, 19)) abort();
        times++;
    }
}

int nanosleep(const struct timespec *asked, struct timespec *left) {
    if (asked->tv_sec == 0 && asked->tv_nsec == 1) become_slow();
    return sleep_for(asked, left);
}

int pthread_create(pthread_t *thread, const pthread_attr_t *attr, void *(*run)(void *), void *with) {
    made++;
    return create(thread, attr, run, with);
}

static void hold(void) {
    long before = made;
    is_over = 1;
    times++;
    for (int turn = 0; turn < 20000 && made == before; turn++) pause_for(1000);
}

long syscall(long number, ...) {
    long with[6], answer;
    va_list words;
    va_start(words, number);
    for (int place = 0; place < 6; place++) with[place] = va_arg(words, long);
    va_end(words);
    answer = call(number, with[0], with[1], with[2], with[3], with[4], with[5]);
    int is_wait = number == SYS_futex && (with[1] & FUTEX_CMD_MASK) == FUTEX_WAIT;
    if (is_wait && answer == 0 && is_slow && !is_over && !strcmp(how, "held")) hold();
    return answer;
}

__attribute__((constructor)) static void begin(void) {
    *(void **)&create = dlsym(RTLD_NEXT, "pthread_create");
    *(void **)&sleep_for = dlsym(RTLD_NEXT, "nanosleep");
    *(void **)&call = dlsym(RTLD_NEXT, "syscall");
    how = getenv("SLOW");
    if (!how) how = "";
    pthread_key_create(&key, forget);
    if (strcmp(how, "stopped")) return;
    struct sigaction action = {.sa_handler = stop, .sa_flags = SA_RESTART};
    sigaction(SIGUSR1, &action, NULL);
    pthread_t stopper;
    create(&stopper, NULL, stop_each, NULL);
}

__attribute__((destructor)) static void end(void) {
    dprintf(2, "slow %ld threads %ld times\n", count, times);
}

void _exit(int status) {
    end();
    for (;;) call(SYS_exit_group, status);
}
