// Drives connections that it is given, each with requests that it says again and again, one after the other, and waits for each
// reply. Its input: how many connections, the most steps, the seconds; for each connection its descriptor and the number of
// its requests; for each request the number of lines of its reply, or 0 if its first four bytes give its size, how many bytes the
// whole reply has, or 0 if any number, how it begins, and its own bytes. It prints steps, seconds, median, 99th percentile, the longest
// and the 10th percentile, in microseconds. Another reply is an error: it prints that, and its status is 1.
#include <errno.h>
#include <fcntl.h>
#include <poll.h>
#include <stdint.h>
#include <stdio.h>
#include <stdlib.h>
#include <string.h>
#include <sys/epoll.h>
#include <sys/socket.h>
#include <time.h>
#include <unistd.h>
struct request { uint32_t lines, whole, begin_len, len; char *begin, *bytes; };
struct connection { int32_t fd; uint32_t count, at, left, got; struct request *requests; char front[128]; uint64_t begun; };
static uint64_t now(void) { struct timespec t; clock_gettime(CLOCK_MONOTONIC, &t); return t.tv_sec * 1000000000ull + t.tv_nsec; }
static void take(void *into, size_t len) { if (len && fread(into, 1, len, stdin) != len) { fputs("short input\n", stderr); exit(1); } }
static char *taken(size_t len) { char *bytes = malloc(len + 1); take(bytes, len); return bytes; }
static int order(const void *a, const void *b) { uint32_t x = *(const uint32_t *)a, y = *(const uint32_t *)b; return (x > y) - (x < y); }
static uint32_t size_of(const char *front) { uint32_t size; memcpy(&size, front, sizeof size); return size; }
static int is_whole(const struct connection *c) {
    return c->requests[c->at].lines ? !c->left : c->got >= 4 && c->got >= size_of(c->front);
}
static int is_expected(const struct connection *c) {
    const struct request *r = &c->requests[c->at];
    return (!r->whole || c->got == r->whole) && c->got >= r->begin_len && !memcmp(c->front, r->begin, r->begin_len);
}
static void tell(const struct connection *c) {
    uint32_t len = c->got < sizeof c->front ? c->got : sizeof c->front;
    fprintf(stderr, "another reply than is expected, of %u bytes: ", c->got);
    for (uint32_t k = 0; k < len; k++) {
        unsigned char byte = c->front[k];
        if (byte >= ' ' && byte <= '~' && byte != '\\') fputc(byte, stderr);
        else fprintf(stderr, "\\x%02x", byte);
    }
    fputs(len < c->got ? "..\n" : "\n", stderr);
}
static void say(struct connection *c) {
    struct request *r = &c->requests[c->at];
    c->left = r->lines;
    c->got = 0;
    c->begun = now();
    for (size_t at = 0; at < r->len;) {
        ssize_t n = send(c->fd, r->bytes + at, r->len - at, MSG_NOSIGNAL);
        if (n > 0) at += n;
        else if (errno == EAGAIN) { struct pollfd p = { c->fd, POLLOUT, 0 }; poll(&p, 1, 1000); }
        else { perror("send"); exit(1); }
    }
}
int main(void) {
    static char buf[1 << 18];
    uint32_t count;
    uint64_t most, steps = 0, begun, end;
    double seconds;
    take(&count, 4); take(&most, 8); take(&seconds, 8);
    struct connection *all = calloc(count, sizeof *all);
    uint32_t *times = malloc((most + count) * sizeof *times), waiting = count;
    int poller = epoll_create1(0);
    for (uint32_t i = 0; i < count; i++) {
        struct connection *c = &all[i];
        take(&c->fd, 4); take(&c->count, 4);
        c->requests = calloc(c->count, sizeof *c->requests);
        for (uint32_t k = 0; k < c->count; k++) {
            struct request *r = &c->requests[k];
            take(&r->lines, 4); take(&r->whole, 4); take(&r->begin_len, 4); take(&r->len, 4);
            if (r->begin_len > sizeof c->front) { fputs("a long begin\n", stderr); return 1; }
            r->begin = taken(r->begin_len);
            r->bytes = taken(r->len);
        }
        fcntl(c->fd, F_SETFL, fcntl(c->fd, F_GETFL) | O_NONBLOCK);
        struct epoll_event e = { .events = EPOLLIN, .data.ptr = c };
        epoll_ctl(poller, EPOLL_CTL_ADD, c->fd, &e);
    }
    begun = now();
    end = begun + (uint64_t)(seconds * 1e9);
    for (uint32_t i = 0; i < count; i++) say(&all[i]);
    while (waiting) {
        struct epoll_event ready[64];
        int n = epoll_wait(poller, ready, 64, 60000);
        if (n <= 0) { fputs("no reply\n", stderr); return 1; }
        for (int i = 0; i < n; i++) {
            struct connection *c = ready[i].data.ptr;
            ssize_t got = recv(c->fd, buf, sizeof buf, 0);
            if (got == 0 || (got < 0 && errno != EAGAIN)) { fputs("the connection ended\n", stderr); return 1; }
            for (ssize_t k = 0; k < got; k++) {
                if (c->got < sizeof c->front) c->front[c->got] = buf[k];
                c->got++;
                if (buf[k] == '\n' && c->left) c->left--;
            }
            if (got <= 0 || !is_whole(c)) continue;
            uint64_t late = now(), taken_time = late - c->begun;
            times[steps++] = taken_time > UINT32_MAX ? UINT32_MAX : taken_time;
            if (!is_expected(c)) { tell(c); return 1; }
            c->at = (c->at + 1) % c->count;
            if (steps + waiting <= most && late < end) say(c); else waiting--;
        }
    }
    double whole = (now() - begun) / 1e9;
    qsort(times, steps, sizeof *times, order);
    printf("%llu %.6f %.1f %.1f %.1f %.1f\n", (unsigned long long)steps, whole, times[steps / 2] / 1e3, times[steps * 99 / 100] / 1e3,
        times[steps - 1] / 1e3, times[steps / 10] / 1e3);
}
