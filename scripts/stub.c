// Preloaded into a program, replaces results of the system. CLOCK has the milliseconds that pass before each reading
// of the clock, in turn and repeated. FAILS names an operation that fails each time: a write to a `pipe`, or the
// option of a socket that sends short chunks at once, `nodelay`. TROUBLE has three numbers: a standard stream, the
// call of it that fails, from 1 on, and its error, where 0 means that it reads or writes nothing. PIECE has the most
// bytes that a call of a standard stream reads or writes.
#define _GNU_SOURCE
#include <dlfcn.h>
#include <errno.h>
#include <netinet/in.h>
#include <netinet/tcp.h>
#include <stdatomic.h>
#include <stdint.h>
#include <stdio.h>
#include <stdlib.h>
#include <string.h>
#include <sys/socket.h>
#include <sys/stat.h>
#include <time.h>
#include <unistd.h>

enum { MOST = 64 };

static ssize_t (*read_from)(int, void *, size_t);
static ssize_t (*write_to)(int, const void *, size_t);
static int (*set)(int, int, int, const void *, socklen_t);
static int (*look)(clockid_t, struct timespec *);
static int fails_at_pipes, fails_to_hurry, count;
static long steps[MOST];
static _Atomic long looks, now, calls;
static int troubled = -1, error;
static long last;
static size_t piece = SIZE_MAX;

static int is_pipe(int file) {
    struct stat about;
    return fstat(file, &about) == 0 && S_ISFIFO(about.st_mode);
}

static size_t length_of(int file, size_t length) {
    return file <= 2 && length > piece ? piece : length;
}

// Whether this call of a standard stream is the failing one.
static int is_in_trouble(int file) {
    return file == troubled && ++calls == last;
}

static int fail_with(int number) {
    if (number) errno = number;
    return number ? -1 : 0;
}

ssize_t read(int file, void *bytes, size_t length) {
    if (is_in_trouble(file)) return fail_with(error);
    return read_from(file, bytes, length_of(file, length));
}

ssize_t write(int file, const void *bytes, size_t length) {
    if (is_in_trouble(file)) return fail_with(error);
    if (fails_at_pipes && file > 2 && is_pipe(file)) return fail_with(EPIPE);
    return write_to(file, bytes, length_of(file, length));
}

int setsockopt(int socket, int level, int name, const void *value, socklen_t length) {
    if (!fails_to_hurry || level != IPPROTO_TCP || name != TCP_NODELAY) return set(socket, level, name, value, length);
    errno = ENOBUFS;
    return -1;
}

int clock_gettime(clockid_t clock, struct timespec *at) {
    if (!count) return look(clock, at);
    long passed = now += steps[looks++ % count];
    at->tv_sec = 1000 + passed / 1000;
    at->tv_nsec = passed % 1000 * 1000000;
    return 0;
}

__attribute__((constructor)) static void begin(void) {
    const char *fails = getenv("FAILS"), *clock = getenv("CLOCK"), *trouble = getenv("TROUBLE"), *most = getenv("PIECE");
    *(void **)&read_from = dlsym(RTLD_NEXT, "read");
    *(void **)&write_to = dlsym(RTLD_NEXT, "write");
    *(void **)&set = dlsym(RTLD_NEXT, "setsockopt");
    *(void **)&look = dlsym(RTLD_NEXT, "clock_gettime");
    fails_at_pipes = fails && strcmp(fails, "pipe") == 0;
    fails_to_hurry = fails && strcmp(fails, "nodelay") == 0;
    for (char *end; clock && *clock && count < MOST; clock = end) steps[count++] = strtol(clock, &end, 10);
    if (trouble && sscanf(trouble, "%d %ld %d", &troubled, &last, &error) != 3) abort();
    if (most) piece = strtoul(most, NULL, 10);
}
