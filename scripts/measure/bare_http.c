/* The least that a request over HTTP takes in a server of THREADS loops that reads each by itself: a loop waits at the
   connections that it was given, reads what has come and writes one answer, whatever that was. Nothing is parsed, looked
   up or kept. PORT is where it listens, at loopback. */
#define _GNU_SOURCE
#include <arpa/inet.h>
#include <netinet/tcp.h>
#include <pthread.h>
#include <stdio.h>
#include <stdlib.h>
#include <sys/epoll.h>
#include <sys/socket.h>
#include <unistd.h>

enum { THREADS = 4, EVENTS = 256, PIECE = 8192, WAITING = 128 };

static const char ANSWER[] = "HTTP/1.1 200 OK\r\ncache-control: no-store\r\ncontent-length: 0\r\n\r\n";

static void *serve(void *given) {
    int poll = *(int *)given;
    struct epoll_event told[EVENTS];
    for (;;) {
        int events = epoll_wait(poll, told, EVENTS, -1);
        for (int i = 0; i < events; i++) {
            char piece[PIECE];
            int stream = told[i].data.fd;
            ssize_t done = read(stream, piece, sizeof piece);
            if (done > 0) done = write(stream, ANSWER, sizeof ANSWER - 1);
            if (done <= 0) close(stream);
        }
    }
    return 0;
}

int main(int count, char **words) {
    struct sockaddr_in at = {.sin_family = AF_INET, .sin_addr.s_addr = htonl(INADDR_LOOPBACK)};
    int door = socket(AF_INET, SOCK_STREAM, 0), polls[THREADS], on = 1;
    pthread_t thread;
    if (count != 2) return 2;
    at.sin_port = htons(atoi(words[1]));
    if (bind(door, (struct sockaddr *)&at, sizeof at) || listen(door, WAITING)) return 3;
    for (int i = 0; i < THREADS; i++) {
        polls[i] = epoll_create1(0);
        if (polls[i] < 0 || pthread_create(&thread, 0, serve, &polls[i])) return 3;
    }
    puts("listening");
    fflush(stdout);
    for (int next = 0;; next = (next + 1) % THREADS) {
        int stream = accept4(door, 0, 0, SOCK_NONBLOCK);
        struct epoll_event wanted = {.events = EPOLLIN, .data.fd = stream};
        if (stream < 0) continue;
        setsockopt(stream, IPPROTO_TCP, TCP_NODELAY, &on, sizeof on);
        if (epoll_ctl(polls[next], EPOLL_CTL_ADD, stream, &wanted)) close(stream);
    }
}
