/* The least that a byte costs which comes alone: a loop that waits at a Unix socket for some milliseconds, as one does
   that has others to look after, looks at the clock and reads, for one client, to its end. Nothing is kept or answered.
   PATH is where it listens. */
#define _GNU_SOURCE
#include <string.h>
#include <sys/epoll.h>
#include <sys/socket.h>
#include <sys/un.h>
#include <time.h>
#include <unistd.h>

enum { EVENTS = 256, PIECE = 8192, PATIENCE = 5 };

int main(int count, char **words) {
    struct sockaddr_un at = {.sun_family = AF_UNIX};
    int door = socket(AF_UNIX, SOCK_STREAM, 0), poll = epoll_create1(0);
    if (count != 2 || strlen(words[1]) >= sizeof at.sun_path) return 2;
    strcpy(at.sun_path, words[1]);
    if (bind(door, (struct sockaddr *)&at, sizeof at) || listen(door, 1)) return 3;
    int stream = accept4(door, 0, 0, SOCK_NONBLOCK);
    struct epoll_event wanted = {.events = EPOLLIN | EPOLLRDHUP | EPOLLET}, told[EVENTS];
    if (stream < 0 || epoll_ctl(poll, EPOLL_CTL_ADD, stream, &wanted)) return 3;
    for (ssize_t came = 1; came != 0;) {
        char piece[PIECE];
        struct timespec now;
        int events = epoll_wait(poll, told, EVENTS, PATIENCE);
        clock_gettime(CLOCK_MONOTONIC, &now);
        if (events > 0) came = read(stream, piece, sizeof piece);
    }
    return 0;
}
