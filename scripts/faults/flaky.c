/* Has calls of a macaroond that listens or serves broken off, cut short and held up, by LD_PRELOAD, in a sequence that
   is the same for the same number FLAKY: what the n-th call of a kind meets is told by that number, the kind and n.

   Broken off by a signal (EINTR) are reads and writes of files, pipes and the signals' descriptor, opens, locks, and of
   sockets accepts, reads, writes and waits. Cut short are reads and writes of files, pipes and sockets. A part of the
   signals' descriptor can't be read: there the system refuses such a read (EINVAL). A read of a socket that is cut short
   is an event that is missed: the system tells a loop once that more has come, and a short count is how the loop learns
   that it has all. An eventfd, which wakes a loop, is left alone: it waits for nobody, and so is never broken off.

   The file that WATCH names is shared with who watches the program: numbers of eight bytes, how many calls were
   broken off, cut short and held up, how many of these were the signals', and of each call how many were broken off. */
#define _GNU_SOURCE
#include <dlfcn.h>
#include <errno.h>
#include <fcntl.h>
#include <stdarg.h>
#include <stdint.h>
#include <stdlib.h>
#include <string.h>
#include <sys/epoll.h>
#include <sys/file.h>
#include <sys/mman.h>
#include <sys/socket.h>
#include <sys/stat.h>
#include <time.h>
#include <unistd.h>

enum kind { SIGNALS, PLAIN, STREAM, SOCKET, OTHER, KINDS };
enum hap { STRAIGHT, BROKEN_OFF, CUT_SHORT, HELD_UP };
enum call { READ, WRITE, OPEN, LOCK, ACCEPT, WAIT, SEND, CALLS };

/* What is told to who watches. */
struct told {
    long broken_off, cut_short, held_up, of_signals, of_call[CALLS];
};

static struct told untold;
static struct told *told = &untold;
static uint64_t counts[KINDS];
static uint64_t seed;
static int signals = -1;
static int is_flaky;

static int is_word(const char *word) { return !strcmp(word, "listen") || !strcmp(word, "serve"); }

/* The launcher, a shell and the program are started with the same words; what is broken off is the program's alone. */
__attribute__((constructor)) static void begin(int count, char **words) {
    const char *file = getenv("WATCH");
    int watch = file ? open(file, O_RDWR | O_CLOEXEC) : -1;
    void *shared = watch < 0 ? MAP_FAILED : mmap(0, sizeof *told, PROT_READ | PROT_WRITE, MAP_SHARED, watch, 0);

    if (watch >= 0) close(watch);
    if (shared != MAP_FAILED) told = shared;
    if (getenv("MACAROOND_SIGNALS")) signals = atoi(getenv("MACAROOND_SIGNALS"));
    if (getenv("FLAKY")) seed = strtoull(getenv("FLAKY"), 0, 10);
    is_flaky = seed && count > 1 && is_word(words[1]);
}

static uint64_t mixed(uint64_t number) {
    number = (number ^ number >> 30) * 0xbf58476d1ce4e5b9u;
    number = (number ^ number >> 27) * 0x94d049bb133111ebu;
    return number ^ number >> 31;
}

static void add(long *count) { __atomic_add_fetch(count, 1, __ATOMIC_SEQ_CST); }

static void hold_up(uint64_t number) {
    struct timespec pause = {0, number % 3000000};

    add(&told->held_up);
    nanosleep(&pause, 0);
}

/* What the next call of a kind meets: in 16 calls of a file 4 are broken off, 4 cut short and 1 is held up. Of those
   of the signals the first two are broken off and the third one is cut short. */
static enum hap next_of(enum kind kind) {
    uint64_t place = __atomic_fetch_add(&counts[kind], 1, __ATOMIC_SEQ_CST);
    uint64_t number = mixed(seed * 0x9e3779b97f4a7c15u + kind * 0x1000000000u + place);
    uint64_t turn = kind == SIGNALS && place < 3 ? 2 * place : number % 16;

    if (!is_flaky || kind == OTHER) return STRAIGHT;
    if (kind == SIGNALS && place >= 3 && turn >= 4 && turn < 8) return STRAIGHT;
    if (turn < 4) {
        add(&told->broken_off);
        if (kind == SIGNALS) add(&told->of_signals);
        errno = EINTR;
        return BROKEN_OFF;
    }
    if (turn < 8 && kind != SOCKET) {
        add(&told->cut_short);
        if (kind == SIGNALS) add(&told->of_signals);
        return CUT_SHORT;
    }
    if (turn == 8) hold_up(number >> 32);
    return STRAIGHT;
}

/* The same, and a call that is broken off is counted as what it is. */
static enum hap met_by(enum call call, enum kind kind) {
    enum hap hap = next_of(kind);

    if (hap == BROKEN_OFF) add(&told->of_call[call]);
    return hap;
}

static enum kind kind_of(int file) {
    struct stat found;

    if (file == signals) return SIGNALS;
    if (!is_flaky || fstat(file, &found)) return OTHER;
    if (S_ISSOCK(found.st_mode)) return STREAM;
    return S_ISREG(found.st_mode) || S_ISFIFO(found.st_mode) ? PLAIN : OTHER;
}

#define NEXT(result, name, parameters)           \
    static result(*next) parameters;             \
    if (!next) next = (result(*) parameters)dlsym(RTLD_NEXT, #name)

/* How many bytes a call that is cut short moves at most: one at least, and few where there is room for many, so that
   what waits in a socket is cut too. */
static size_t part_of(size_t size) { return size > 64 ? 33 : size > 1 ? size - size / 2 : size; }

ssize_t read(int file, void *bytes, size_t size) {
    NEXT(ssize_t, read, (int, void *, size_t));
    enum hap hap = met_by(READ, kind_of(file));
    return hap == BROKEN_OFF ? -1 : next(file, bytes, hap == CUT_SHORT ? part_of(size) : size);
}

ssize_t write(int file, const void *bytes, size_t size) {
    NEXT(ssize_t, write, (int, const void *, size_t));
    enum hap hap = met_by(WRITE, kind_of(file));
    return hap == BROKEN_OFF ? -1 : next(file, bytes, hap == CUT_SHORT ? part_of(size) : size);
}

int open(const char *path, int how, ...) {
    NEXT(int, open, (const char *, int, ...));
    va_list rest;
    va_start(rest, how);
    int mode = how & O_CREAT ? va_arg(rest, int) : 0;
    va_end(rest);
    return met_by(OPEN, is_flaky ? PLAIN : OTHER) == BROKEN_OFF ? -1 : next(path, how, mode);
}

int flock(int file, int how) {
    NEXT(int, flock, (int, int));
    return met_by(LOCK, kind_of(file)) == BROKEN_OFF ? -1 : next(file, how);
}

#define OF_SOCKET(call, result, name, parameters, passed) \
    result name parameters {                              \
        NEXT(result, name, parameters);                   \
        return met_by(call, SOCKET) == BROKEN_OFF ? -1 : next passed; \
    }

ssize_t recv(int file, void *bytes, size_t size, int how) {
    NEXT(ssize_t, recv, (int, void *, size_t, int));
    enum hap hap = met_by(READ, STREAM);
    return hap == BROKEN_OFF ? -1 : next(file, bytes, hap == CUT_SHORT ? part_of(size) : size, how);
}

ssize_t send(int file, const void *bytes, size_t size, int how) {
    NEXT(ssize_t, send, (int, const void *, size_t, int));
    enum hap hap = met_by(WRITE, STREAM);
    return hap == BROKEN_OFF ? -1 : next(file, bytes, hap == CUT_SHORT ? part_of(size) : size, how);
}

OF_SOCKET(SEND, ssize_t, sendto,
          (int file, const void *bytes, size_t size, int how, __CONST_SOCKADDR_ARG to, socklen_t length),
          (file, bytes, size, how, to, length))
OF_SOCKET(ACCEPT, int, accept4, (int file, __SOCKADDR_ARG from, socklen_t *size, int how), (file, from, size, how))
OF_SOCKET(WAIT, int, epoll_wait, (int poll, struct epoll_event *events, int most, int patience), (poll, events, most, patience))
