/* Writes down what the program into which it is loaded before the C library does to the two areas of its folder: each write,
   length and sync, with their bytes, in one order with its replies. It can let a sync fail, and drop the system's copies as a
   system may after that; for the table of wrong bodies in README.md it can also do what such a body would.

   POWER_LOG     the file to which records are added
   POWER_FAIL    the number of the sync that fails, from 1 on; with a + behind it all later ones fail too
   POWER_DROP    a folder: when an area's copies are dropped, the area becomes the file of its name there
   POWER_WRONG   no-sync, gate-first, no-folder, retried, early-reply

   A record has 24 bytes and then its bytes: its kind, the area (0, 1; 2 is the folder), two bytes of nothing, the thread or
   the descriptor (4 bytes), the place (8), how many bytes follow (8); numbers as the machine has them. The kinds are W (a write),
   L (a length), S (a sync that succeeded), X (one that failed), D (copies were dropped), R (a reply on a descriptor). A write is
   noted before it is made and a reply before it is out; a sync after it is done. */
#define _GNU_SOURCE
#include <dlfcn.h>
#include <errno.h>
#include <fcntl.h>
#include <pthread.h>
#include <stdint.h>
#include <stdlib.h>
#include <string.h>
#include <sys/socket.h>
#include <sys/stat.h>
#include <sys/syscall.h>
#include <unistd.h>

enum { FIRST, SECOND, FOLDER, OTHER, REPLY };

static pthread_mutex_t turn = PTHREAD_MUTEX_INITIALIZER;
static const char *const names[2] = {"pcfs.a", "pcfs.b"};
static int into = -1;
static long failing, syncs;
static int fails_on;
static const char *drop, *wrong = "";

static int is_owed[2]; /* a sync that a wrong body makes later */

__attribute__((constructor)) static void begin(void) {
    const char *log = getenv("POWER_LOG"), *text = getenv("POWER_FAIL");
    if (log)
        into = (int)syscall(SYS_openat, AT_FDCWD, log, O_WRONLY | O_APPEND | O_CREAT | O_CLOEXEC, 0600);
    if (into >= 0 && into < 3) {
        int high = fcntl(into, F_DUPFD_CLOEXEC, 100);
        syscall(SYS_close, into);
        into = high;
    }
    if (text) {
        failing = strtol(text, NULL, 10);
        fails_on = strchr(text, '+') != NULL;
    }
    drop = getenv("POWER_DROP");
    if (getenv("POWER_WRONG"))
        wrong = getenv("POWER_WRONG");
}

static int is_wrong(const char *kind) { return strcmp(wrong, kind) == 0; }

/* which of the areas a descriptor is, or the folder, or a stream of replies */
static int what_is(int fd) {
    struct stat here, there;
    if (into < 0 || fd < 0 || fstat(fd, &here))
        return OTHER;
    if (S_ISREG(here.st_mode))
        for (int area = FIRST; area <= SECOND; area++)
            if (stat(names[area], &there) == 0 && there.st_ino == here.st_ino && there.st_dev == here.st_dev)
                return area;
    if (S_ISDIR(here.st_mode) && stat(".", &there) == 0 && there.st_ino == here.st_ino && there.st_dev == here.st_dev)
        return FOLDER;
    return fd == 1 || S_ISSOCK(here.st_mode) ? REPLY : OTHER;
}

static void note(char kind, int area, int who, uint64_t at, const void *bytes, uint64_t count) {
    unsigned char head[24] = {(unsigned char)kind, (unsigned char)area};
    int32_t number = who;
    memcpy(head + 4, &number, 4);
    memcpy(head + 8, &at, 8);
    memcpy(head + 16, &count, 8);
    unsigned char small[4096], *all = count + 24 <= sizeof small ? small : malloc(count + 24);
    memcpy(all, head, 24);
    if (count)
        memcpy(all + 24, bytes, count);
    size_t done = 0;
    while (done < count + 24) {
        long put = syscall(SYS_write, into, all + done, count + 24 - done);
        if (put <= 0)
            _exit(99);
        done += (size_t)put;
    }
    if (all != small)
        free(all);
}

static long put(int fd, const void *bytes, size_t count, off_t at) { return syscall(SYS_pwrite64, fd, bytes, count, at); }

/* A sync, or what the wrong body does for it. Called in turn. */
static int do_sync(int fd, int area, long call, int is_again) {
    syncs++;
    if (failing && (syncs == failing || (fails_on && syncs > failing))) {
        note('X', area, fd, 0, NULL, 0);
        if (is_wrong("retried") && area != FOLDER && !is_again)
            return do_sync(fd, area, call, 1);
        errno = EIO;
        return -1;
    }
    if (is_wrong("no-sync") || (is_wrong("no-folder") && area == FOLDER))
        return 0;
    if (syscall(call, fd))
        return -1;
    note('S', area, fd, 0, NULL, 0);
    return 0;
}

static int synced(int fd, long call) {
    int area = what_is(fd), done = 0;
    if (area > FOLDER)
        return (int)syscall(call, fd);
    pthread_mutex_lock(&turn);
    if (is_wrong("early-reply") && area < FOLDER && is_owed[area] == 1)
        is_owed[area] = 2; /* the sync of a gate waits for the next write */
    else
        done = do_sync(fd, area, call, 0);
    pthread_mutex_unlock(&turn);
    return done;
}

int fsync(int fd) { return synced(fd, SYS_fsync); }
int fdatasync(int fd) { return synced(fd, SYS_fdatasync); }

static ssize_t written(int fd, const void *bytes, size_t count, off_t at, int area) {
    pthread_mutex_lock(&turn);
    int is_gate = count == 1 && at > 0 && *(const unsigned char *)bytes == 1;
    if (is_wrong("early-reply")) {
        if (is_owed[area] == 2)
            do_sync(fd, area, SYS_fdatasync, 0);
        is_owed[area] = is_gate;
    }
    if (is_wrong("gate-first") && at > 1 && count > 1) {
        unsigned char one = 1; /* the gate before the frame is opened with it, and only then there is a sync */
        note('W', area, fd, (uint64_t)at - 1, &one, 1);
        put(fd, &one, 1, at - 1);
    }
    note('W', area, fd, (uint64_t)at, bytes, count);
    ssize_t done = put(fd, bytes, count, at);
    pthread_mutex_unlock(&turn);
    return done;
}

ssize_t pwrite(int fd, const void *bytes, size_t count, off_t at) {
    int area = what_is(fd);
    return area > SECOND ? put(fd, bytes, count, at) : written(fd, bytes, count, at, area);
}
ssize_t pwrite64(int fd, const void *bytes, size_t count, off_t at) { return pwrite(fd, bytes, count, at); }

ssize_t write(int fd, const void *bytes, size_t count) {
    int area = what_is(fd);
    if (area <= SECOND) {
        off_t at = lseek(fd, 0, SEEK_CUR);
        ssize_t done = written(fd, bytes, count, at, area);
        if (done > 0)
            lseek(fd, at + done, SEEK_SET);
        return done;
    }
    if (area == REPLY) {
        pthread_mutex_lock(&turn);
        note('R', 0, fd, 0, bytes, count);
        pthread_mutex_unlock(&turn);
    }
    return syscall(SYS_write, fd, bytes, count);
}

ssize_t send(int fd, const void *bytes, size_t count, int flags) {
    if (what_is(fd) == REPLY) {
        pthread_mutex_lock(&turn);
        note('R', 0, fd, 0, bytes, count);
        pthread_mutex_unlock(&turn);
    }
    return syscall(SYS_sendto, fd, bytes, count, flags, NULL, 0);
}

static int cut(int fd, off_t length) {
    int area = what_is(fd);
    if (area > SECOND)
        return (int)syscall(SYS_ftruncate, fd, length);
    pthread_mutex_lock(&turn);
    note('L', area, fd, (uint64_t)length, NULL, 0);
    int done = (int)syscall(SYS_ftruncate, fd, length);
    pthread_mutex_unlock(&turn);
    return done;
}
int ftruncate(int fd, off_t length) { return cut(fd, length); }
int ftruncate64(int fd, off_t length) { return cut(fd, length); }

/* The area becomes what the device has of it. */
static void drop_copies(int area) {
    char path[4096];
    strncpy(path, drop, sizeof path - 16);
    path[sizeof path - 16] = 0;
    strcat(strcat(path, "/"), names[area]);
    int from = (int)syscall(SYS_openat, AT_FDCWD, path, O_RDONLY | O_CLOEXEC, 0);
    int to = (int)syscall(SYS_openat, AT_FDCWD, names[area], O_WRONLY | O_CLOEXEC, 0);
    if (from >= 0 && to >= 0 && syscall(SYS_ftruncate, to, (off_t)0) == 0) {
        static unsigned char piece[65536];
        long got;
        while ((got = syscall(SYS_read, from, piece, sizeof piece)) > 0)
            if (syscall(SYS_write, to, piece, got) != got)
                _exit(99);
    }
    if (from >= 0)
        syscall(SYS_close, from);
    if (to >= 0)
        syscall(SYS_close, to);
}

static int advised(int fd, off_t from, off_t count, int advice) {
    int area = what_is(fd);
    if (area <= SECOND && advice == POSIX_FADV_DONTNEED) {
        pthread_mutex_lock(&turn);
        if (drop)
            drop_copies(area);
        note('D', area, fd, 0, NULL, 0);
        pthread_mutex_unlock(&turn);
        return 0;
    }
    return (int)syscall(SYS_fadvise64, fd, from, count, advice) ? errno : 0;
}
int posix_fadvise(int fd, off_t from, off_t count, int advice) { return advised(fd, from, count, advice); }
int posix_fadvise64(int fd, off_t from, off_t count, int advice) { return advised(fd, from, count, advice); }
