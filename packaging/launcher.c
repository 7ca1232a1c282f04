/* Starts the macaroond that is built for this processor.

   The programs lie in ../libexec/macaroond/ as seen from the folder of this file, wherever that is: x86-64-v3 for
   processors that have all that this name stands for, and x86-64-v2 for every other one. What is started keeps the
   words, the surroundings and the number of this process, and answers in its place.

   `listen` reads signals from a descriptor, since it can't hold one back: SIGTERM, SIGINT and SIGHUP are held back for
   it here. What is started writes no core file, which would have its keys. */
#include <errno.h>
#include <fcntl.h>
#include <limits.h>
#include <signal.h>
#include <stdio.h>
#include <stdlib.h>
#include <string.h>
#include <sys/auxv.h>
#include <sys/resource.h>
#include <sys/signalfd.h>
#include <unistd.h>

#define PROGRAMS "../libexec/macaroond/"

/* The variable in which the program is told of the descriptor of its signals. */
#define SIGNALS "MACAROOND_SIGNALS"

/* The exit status of macaroond where a file fails. */
enum { DEVICE_FAULT = 3 };

/* The path of this file, its links followed; it needs no /proc. Else NULL, with errno. */
static const char *own_path(char path[PATH_MAX])
{
    const char *started_as = (const char *)getauxval(AT_EXECFN);

    if (started_as == NULL) {
        errno = ENOENT;
        return NULL;
    }
    return realpath(started_as, path);
}

/* The folder of this file, with a slash behind it. Else NULL, with errno. */
static const char *own_folder(char path[PATH_MAX])
{
    if (own_path(path) == NULL)
        return NULL;
    strrchr(path, '/')[1] = '\0';
    return path;
}

/* Has the C library give large blocks back to the system as soon as they are free, and what is free at the end of a
   heap past this many bytes. By itself it raises both bounds to the largest block that it saw, and keeps what a burst
   of long requests took. What is set outside stays. */
static void give_memory_back(void)
{
    setenv("MALLOC_MMAP_THRESHOLD_", "32768", 0);
    setenv("MALLOC_TRIM_THRESHOLD_", "65536", 0);
}

/* Has no core file written of this process, nor of what it starts: the limit stays over exec. That another process of
   the same user may not read its memory can't be asked for here, since exec takes that back (PR_SET_DUMPABLE); for that
   the programs are installed so that whoever isn't their owner may start them and not read them. */
static void keep_no_core(void)
{
    const struct rlimit none = {0, 0};

    setrlimit(RLIMIT_CORE, &none);
}

/* Holds signals back, and tells in the environment from which descriptor they are read: one above standard input,
   output and error, which may be closed. Where that fails they do what they do to any program. */
static void hold_signals(void)
{
    sigset_t held;
    char number[16];
    int made, kept;

    sigemptyset(&held);
    sigaddset(&held, SIGTERM);
    sigaddset(&held, SIGINT);
    sigaddset(&held, SIGHUP);
    if ((made = signalfd(-1, &held, 0)) < 0)
        return;
    kept = made > STDERR_FILENO ? made : fcntl(made, F_DUPFD, STDERR_FILENO + 1);
    if (kept != made)
        close(made);
    if (kept < 0)
        return;
    snprintf(number, sizeof number, "%d", kept);
    if (setenv(SIGNALS, number, 1) == 0)
        sigprocmask(SIG_BLOCK, &held, NULL);
}

/* Starts the program of this name. It returns only where that fails, with errno. */
static void start(const char *folder, const char *name, char **words)
{
    char path[PATH_MAX + sizeof PROGRAMS + 16];

    snprintf(path, sizeof path, "%s" PROGRAMS "%s", folder, name);
    execv(path, words);
}

int main(int count, char **words)
{
    char path[PATH_MAX];
    const char *folder = own_folder(path);

    give_memory_back();
    keep_no_core();
    if (count > 1 && strcmp(words[1], "listen") == 0)
        hold_signals();
    if (folder != NULL) {
        __builtin_cpu_init();
        if (__builtin_cpu_supports("x86-64-v3"))
            start(folder, "x86-64-v3", words);
        start(folder, "x86-64-v2", words);
    }
    dprintf(STDERR_FILENO, "macaroond: %s" PROGRAMS "x86-64-v2: %s\n", folder ? folder : "", strerror(errno));
    return DEVICE_FAULT;
}
