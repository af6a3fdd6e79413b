// A plain echo server: a thread for each connection. PORT.
#include <netinet/in.h>
#include <netinet/tcp.h>
#include <pthread.h>
#include <stdlib.h>
#include <sys/socket.h>
#include <unistd.h>
static void *echo(void *arg) {
    int fd = (int)(long)arg;
    char buf[4096];
    ssize_t n;
    while ((n = recv(fd, buf, sizeof buf, 0)) > 0)
        for (ssize_t at = 0, m; at < n; at += m)
            if ((m = send(fd, buf + at, n - at, MSG_NOSIGNAL)) <= 0) { close(fd); return 0; }
    close(fd);
    return 0;
}
int main(int argc, char **argv) {
    (void)argc;
    int one = 1, server = socket(AF_INET, SOCK_STREAM, 0);
    struct sockaddr_in at = { .sin_family = AF_INET, .sin_port = htons(atoi(argv[1])), .sin_addr.s_addr = htonl(INADDR_LOOPBACK) };
    setsockopt(server, SOL_SOCKET, SO_REUSEADDR, &one, sizeof one);
    if (bind(server, (struct sockaddr *)&at, sizeof at) || listen(server, 128)) return 1;
    for (;;) {
        int fd = accept(server, 0, 0);
        pthread_t thread;
        if (fd < 0) continue;
        setsockopt(fd, IPPROTO_TCP, TCP_NODELAY, &one, sizeof one);
        if (pthread_create(&thread, 0, echo, (void *)(long)fd)) echo((void *)(long)fd); else pthread_detach(thread);
    }
}
