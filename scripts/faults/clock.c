/* A clock before 1970, by LD_PRELOAD: what tells the time of day tells five seconds before it, and all else is as it is. */
#define _GNU_SOURCE
#include <sys/syscall.h>
#include <time.h>
#include <unistd.h>

int clock_gettime(clockid_t which, struct timespec *told) {
    if (which != CLOCK_REALTIME)
        return syscall(SYS_clock_gettime, which, told);
    told->tv_sec = -5;
    told->tv_nsec = 0;
    return 0;
}
