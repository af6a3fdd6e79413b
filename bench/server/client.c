// Drives an echo server on the loopback: PORT conns N | late N | reqs CONNECTIONS N | wait SECONDS | bad.
#define _GNU_SOURCE
#include <netinet/in.h>
#include <netinet/tcp.h>
#include <pthread.h>
#include <stdio.h>
#include <stdlib.h>
#include <string.h>
#include <sys/socket.h>
#include <time.h>
#include <unistd.h>
static int port;
static double now(void) { struct timespec t; clock_gettime(CLOCK_MONOTONIC, &t); return t.tv_sec + t.tv_nsec * 1e-9; }
static int dial(void) {
    int one = 1, fd = socket(AF_INET, SOCK_STREAM, 0);
    struct timeval limit = { 20, 0 };
    struct sockaddr_in at = { .sin_family = AF_INET, .sin_port = htons(port), .sin_addr.s_addr = htonl(INADDR_LOOPBACK) };
    setsockopt(fd, SOL_SOCKET, SO_RCVTIMEO, &limit, sizeof limit);
    if (connect(fd, (struct sockaddr *)&at, sizeof at)) { perror("connect"); exit(1); }
    setsockopt(fd, IPPROTO_TCP, TCP_NODELAY, &one, sizeof one);
    return fd;
}
// Sends bytes and waits for all of them.
static int ask(int fd, size_t len) {
    char out[16] = "abcdefghijklmno", in[16];
    if (send(fd, out, len, MSG_NOSIGNAL) != (ssize_t)len) return 0;
    for (size_t got = 0; got < len;) { ssize_t n = recv(fd, in + got, len - got, 0); if (n <= 0) return 0; got += n; }
    return !memcmp(out, in, len);
}
static int requests;
static void *asker(void *arg) { int fd = (int)(long)arg; for (int i = 0; i < requests; i++) if (!ask(fd, 16)) { puts("lost"); exit(1); } return 0; }
static int order(const void *a, const void *b) { double x = *(double *)a, y = *(double *)b; return (x > y) - (x < y); }
int main(int argc, char **argv) {
    (void)argc;
    port = atoi(argv[1]);
    int n = atoi(argv[3] ? argv[3] : "0");
    if (!strcmp(argv[2], "conns")) {
        double begun = now();
        for (int i = 0; i < n; i++) { int fd = dial(); if (!ask(fd, 1)) { puts("lost"); return 1; } close(fd); }
        printf("%.0f\n", n / (now() - begun));
    } else if (!strcmp(argv[2], "late")) {
        int idle[32];
        double *times = malloc(n * sizeof *times);
        for (int i = 0; i < 32; i++) { idle[i] = dial(); ask(idle[i], 1); }
        for (int i = 0; i < n; i++) { double begun = now(); int fd = dial(); ask(fd, 1); times[i] = (now() - begun) * 1e6; close(fd); usleep(1000); }
        qsort(times, n, sizeof *times, order);
        printf("%.0f %.0f\n", times[n / 2], times[n * 9 / 10]);
        for (int i = 0; i < 32; i++) close(idle[i]);
    } else if (!strcmp(argv[2], "reqs")) {
        pthread_t threads[64];
        int fds[64];
        requests = atoi(argv[4]);
        for (int i = 0; i < n; i++) { fds[i] = dial(); ask(fds[i], 1); }
        double begun = now();
        for (int i = 0; i < n; i++) pthread_create(&threads[i], 0, asker, (void *)(long)fds[i]);
        for (int i = 0; i < n; i++) pthread_join(threads[i], 0);
        printf("%.0f\n", (double)n * requests / (now() - begun));
        for (int i = 0; i < n; i++) close(fds[i]);
    } else if (!strcmp(argv[2], "wait")) {
        int fds[64];
        for (int i = 0; i < 64; i++) { fds[i] = dial(); ask(fds[i], 1); }
        puts("waiting");
        fflush(stdout);
        sleep(n);
        for (int i = 0; i < 64; i++) close(fds[i]);
    } else {
        // Four at once: one is silent, one resets, one closes its sending half, one sends a byte every tenth of a second.
        struct linger reset = { 1, 0 };
        int silent = dial(), resets = dial(), half = dial(), slow = dial();
        printf("reset after an echo: %s\n", ask(resets, 4) ? "echoed" : "lost");
        setsockopt(resets, SOL_SOCKET, SO_LINGER, &reset, sizeof reset);
        close(resets);
        send(half, "end", 3, 0);
        shutdown(half, SHUT_WR);
        char in[16];
        ssize_t got = 0, m;
        while ((m = recv(half, in + got, sizeof in - got, 0)) > 0) got += m;
        printf("closed one half: %zd bytes back, then %s\n", got, m ? "an error" : "the end");
        int good = 0;
        for (int i = 0; i < 5; i++) { good += ask(slow, 1); usleep(100000); }
        printf("a byte every tenth of a second: %d of 5 echoed\n", good);
        // Only four are attended at once: with two more than that the last waits until the silent one ends.
        int more = dial(), many = dial(), last = dial();
        ask(more, 1);
        ask(many, 1);
        struct timeval soon = { 0, 300000 };
        setsockopt(last, SOL_SOCKET, SO_RCVTIMEO, &soon, sizeof soon);
        printf("one too many: %s while four are at hand", ask(last, 1) ? "echoed" : "not echoed");
        close(silent);
        soon.tv_sec = 5;
        setsockopt(last, SOL_SOCKET, SO_RCVTIMEO, &soon, sizeof soon);
        printf(", %s after the silent one ended\n", recv(last, in, 1, 0) == 1 ? "echoed" : "not echoed");
        close(half); close(slow); close(more); close(many); close(last);
    }
}
