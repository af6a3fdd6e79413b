/* Times the same calls on a tmpfs directory: the words are a folder, a shape and a count of nodes. */
#define _GNU_SOURCE
#include <fcntl.h>
#include <stdio.h>
#include <stdlib.h>
#include <sys/stat.h>
#include <sys/syscall.h>
#include <sys/xattr.h>
#include <time.h>
#include <unistd.h>

enum { COUNT = 32, ROUNDS = 20 };

static long nodes;
static int is_chain, bottom, directory[COUNT], file[COUNT];
static const char *prefix = "";
static char child[COUNT][80], old[COUNT][80], new[COUNT][80], renamed[COUNT][80];
static char buffer[65536];

static void name(char *out, char first, long number)
{
    sprintf(out, "%s%c%c%c%c", prefix, first, (char)('a' + number / 676 % 26), (char)('a' + number / 26 % 26), (char)('a' + number % 26));
}

static void attribute(char *out, long number)
{
    sprintf(out, "user.%sk%c%c%c", prefix, (char)('a' + number / 676 % 26), (char)('a' + number / 26 % 26), (char)('a' + number % 26));
}

static char got[80], replaced[80], added[80];

static int lookup(int i) { struct stat s; return fstatat(directory[i], child[i], &s, 0); }
static int create(int i) { return mknodat(bottom, new[i], S_IFREG | 0644, 0); }
static int unlink_one(int i) { return unlinkat(bottom, new[i], 0); }
static int mkdir_one(int i) { return mkdirat(bottom, new[i], 0755); }
static int rmdir_one(int i) { return unlinkat(bottom, new[i], AT_REMOVEDIR); }
static int rename_one(int i) { return renameat(bottom, old[i], bottom, renamed[i]); }
static int rename_back(int i) { return renameat(bottom, renamed[i], bottom, old[i]); }
static int read_some(int i) { return pread(file[i], buffer, 64, 0) != 64; }
static int write_some(int i) { return pwrite(file[i], buffer, 64, 0) != 64; }
static int start(int i) { return ftruncate(file[i], 4096); }
static int cut(int i) { return ftruncate(file[i], 100); }
static int fill(int i) { return ftruncate(file[i], 200); }
static int grow(int i) { (void)i; return ftruncate(file[0], 1048576); }
static int read_grown(int i) { (void)i; return pread(file[0], buffer, 64, 500000) != 64; }
static int write_grown(int i) { (void)i; return pwrite(file[0], buffer, 64, 500000) != 64; }
static int get(int i) { return fgetxattr(file[i], got, buffer, 80) != 6; }
static int replace(int i) { return fsetxattr(file[i], replaced, "public", 6, XATTR_REPLACE); }
static int set(int i) { return fsetxattr(file[i], added, "public", 6, XATTR_CREATE); }
static int remove_one(int i) { return fremovexattr(file[i], added); }
static int chown_one(int i) { return fchown(file[i], getuid(), getgid()); }
static int owner(int i) { struct stat s; return fstat(file[i], &s); }

static int list(int i)
{
    long n;
    if (lseek(directory[i], 0, SEEK_SET) != 0)
        return 1;
    while ((n = syscall(SYS_getdents64, directory[i], buffer, sizeof buffer)) > 0)
        ;
    return n != 0;
}

static double now(void)
{
    struct timespec t;
    clock_gettime(CLOCK_MONOTONIC, &t);
    return t.tv_sec * 1e9 + t.tv_nsec;
}

static void keep(int (*one)(int), double *least)
{
    int failed = 0;
    double start = now();
    for (int i = 0; i < COUNT; i++)
        failed |= one(i);
    double time = now() - start;
    if (!failed && time < *least)
        *least = time;
}

static void times(const char *first, int (*one)(int), const char *second, int (*other)(int))
{
    double least = 1e300, also = 1e300;
    for (int round = 0; round < ROUNDS; round++) {
        keep(one, &least);
        keep(other, &also);
    }
    if (least < 1e300)
        printf("%s %.0f\n", first, least);
    if (also < 1e300)
        printf("%s %.0f\n", second, also);
}

static void build(int at)
{
    char made[80];
    int i = 0;
    for (long c = 0; c < nodes - 1; c++) {
        name(made, 'c', c);
        for (; i < COUNT && i * nodes / COUNT == c; i++) {
            directory[i] = dup(at);
            name(child[i], 'c', c);
        }
        if (is_chain && c < nodes - COUNT - 1) {
            int next = mkdirat(at, made, 0755) == 0 ? openat(at, made, O_RDONLY | O_DIRECTORY) : -1;
            close(at);
            at = next;
        } else if (mknodat(at, made, S_IFREG | 0644, 0) != 0) {
            at = -1;
        }
        if (at < 0)
            exit(1);
    }
    bottom = at;
}

int main(int count, char **words)
{
    if (count < 4)
        return 2;
    is_chain = words[2][0] == '1';
    if (words[2][0] == '2')
        prefix = "aaaaaaaaaaaaaaaaaaaaaaaaaaaaaaaaaaaaaaaaaaaaaaaaaaaaaaaaaaaa";
    nodes = atol(words[3]);
    build(open(words[1], O_RDONLY | O_DIRECTORY));
    attribute(got, 7);
    attribute(replaced, 8);
    attribute(added, 20);
    for (int i = 0; i < COUNT; i++) {
        name(old[i], 'c', is_chain ? nodes - 2 - i : i * nodes / COUNT);
        name(new[i], 'n', i);
        name(renamed[i], 'r', i);
        file[i] = openat(bottom, old[i], O_RDWR);
        for (int number = 0; number < 16; number++) {
            attribute(buffer, number);
            fsetxattr(file[i], buffer, "public", 6, 0);
        }
    }
    times("start", start, "lookup", lookup);
    times("list", list, "list", list);
    times("create", create, "unlink", unlink_one);
    times("mkdir", mkdir_one, "rmdir", rmdir_one);
    times("rename", rename_one, "rename_back", rename_back);
    times("read_64", read_some, "write_64", write_some);
    times("cut", cut, "fill", fill);
    times("grow", grow, "read_64_of_1M", read_grown);
    times("write_64_of_1M", write_grown, "write_64_of_1M", write_grown);
    times("get", get, "replace", replace);
    times("set", set, "remove", remove_one);
    times("chown", chown_one, "chown", chown_one);
    times("holds_owner", owner, "holds_attribute", get);
    return 0;
}
