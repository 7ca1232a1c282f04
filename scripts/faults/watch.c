/* Watches a program, by LD_PRELOAD: its requests for memory, or its calls of one of its devices; and refuses or fails
   those that it is asked to. CALL names what is watched: memory, getentropy, read, write, recv, send or accept4. Of a
   device FILE is the descriptor that is meant, or -1 for all, and ERROR the error's number, or 0: the call then moves
   one byte instead. Of requests for memory those are meant that ask for SIZE bytes at least.
   The file that WATCH names is shared with who watches the program: five numbers of eight bytes, how many such calls
   there were, which one fails (0: none), after how many more each further one does (0: no further one), how many
   failed, and how often a descriptor was taken out of a poll, as where a connection goes from loop to loop. */
#define _GNU_SOURCE
#include <dlfcn.h>
#include <errno.h>
#include <fcntl.h>
#include <stdlib.h>
#include <string.h>
#include <sys/epoll.h>
#include <sys/mman.h>
#include <sys/socket.h>
#include <unistd.h>

/* The C library's own, under its other names. */
void *__libc_malloc(size_t);
void *__libc_calloc(size_t, size_t);
void *__libc_realloc(void *, size_t);
void *__libc_memalign(size_t, size_t);

struct watch {
    long calls, first, every, failed, left;
};

static struct watch unwatched;
static struct watch *watch = &unwatched;
static const char *call = "";
static int meant, error, watches_memory;
static size_t least;

static int number(const char *name) { return getenv(name) ? atoi(getenv(name)) : 0; }

/* The file is shared memory, so that what it tells stands however the program ends. */
__attribute__((constructor)) static void begin(void) {
    int file = getenv("WATCH") ? open(getenv("WATCH"), O_RDWR | O_CLOEXEC) : -1;
    void *shared = file < 0 ? MAP_FAILED : mmap(0, sizeof *watch, PROT_READ | PROT_WRITE, MAP_SHARED, file, 0);
    if (shared == MAP_FAILED) return;
    watch = shared;
    meant = number("FILE");
    error = number("ERROR");
    least = number("SIZE");
    call = getenv("CALL") ? getenv("CALL") : "";
    watches_memory = !strcmp(call, "memory");
}

/* Counts a call that is watched: whether it fails. */
static int fails(void) {
    long behind = __atomic_add_fetch(&watch->calls, 1, __ATOMIC_SEQ_CST) - watch->first;
    if (!watch->first || behind < 0 || (watch->every ? behind % watch->every : behind)) return 0;
    __atomic_add_fetch(&watch->failed, 1, __ATOMIC_SEQ_CST);
    return 1;
}

static int is_refused(size_t size) {
    if (!watches_memory || size < least || !fails()) return 0;
    errno = ENOMEM;
    return 1;
}

void *malloc(size_t size) { return is_refused(size) ? 0 : __libc_malloc(size); }

void *calloc(size_t count, size_t size) { return is_refused(count * size) ? 0 : __libc_calloc(count, size); }

void *realloc(void *block, size_t size) { return is_refused(size) ? 0 : __libc_realloc(block, size); }

void *aligned_alloc(size_t alignment, size_t size) { return is_refused(size) ? 0 : __libc_memalign(alignment, size); }

int posix_memalign(void **block, size_t alignment, size_t size) {
    if (is_refused(size)) return ENOMEM;
    *block = __libc_memalign(alignment, size);
    return *block ? 0 : ENOMEM;
}

int getentropy(void *bytes, size_t size) {
    static int (*next)(void *, size_t);
    if (!next) next = (int (*)(void *, size_t))dlsym(RTLD_NEXT, "getentropy");
    if (strcmp(call, "getentropy") || !fails()) return next(bytes, size);
    errno = EIO;
    return -1;
}

int epoll_ctl(int poll, int change, int file, struct epoll_event *event) {
    static int (*next)(int, int, int, struct epoll_event *);
    if (!next) next = (int (*)(int, int, int, struct epoll_event *))dlsym(RTLD_NEXT, "epoll_ctl");
    if (change == EPOLL_CTL_DEL) __atomic_add_fetch(&watch->left, 1, __ATOMIC_SEQ_CST);
    return next(poll, change, file, event);
}

static int is_failed(const char *name, int file) {
    return !strcmp(name, call) && (meant == -1 || file == meant) && fails();
}

#define DEVICE(result, name, parameters, few, passed)                                    \
    result name parameters {                                                             \
        static result(*next) parameters;                                                 \
        if (!next) next = (result(*) parameters)dlsym(RTLD_NEXT, #name);                 \
        if (!is_failed(#name, file)) return next passed;                                 \
        if (error) return errno = error, -1;                                             \
        return next few;                                                                 \
    }

DEVICE(ssize_t, read, (int file, void *bytes, size_t size), (file, bytes, size ? 1 : 0), (file, bytes, size))
DEVICE(ssize_t, write, (int file, const void *bytes, size_t size), (file, bytes, size ? 1 : 0), (file, bytes, size))
DEVICE(ssize_t, recv, (int file, void *bytes, size_t size, int how), (file, bytes, size ? 1 : 0, how), (file, bytes, size, how))
DEVICE(ssize_t, send, (int file, const void *bytes, size_t size, int how), (file, bytes, size ? 1 : 0, how), (file, bytes, size, how))
DEVICE(int, accept4, (int file, struct sockaddr *from, socklen_t *size, int how), (file, from, size, how), (file, from, size, how))
