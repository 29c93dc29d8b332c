/* Loaded before the C library, it keeps beside one file what a disk would have of it, and ends the program as a power cut
 * does:
 *
 *   RECALL_FILE=path   the file; what is on the disk stands in path.disk
 *   RECALL_CUT=n       the power is cut at the n-th write or sync of the file (from 1), after it was done in memory
 *   RECALL_LOSE=n      the n-th sync of the file fails (EIO): what it should have written counts as clean from then on, as the
 *                      kernel has it, and reaches the disk only where it is written again
 *
 * A write is in memory alone, and a sync brings the ranges that were written since to the disk. A length is brought there by
 * the sync that follows its change. */
#define _GNU_SOURCE
#include <dlfcn.h>
#include <errno.h>
#include <fcntl.h>
#include <stdio.h>
#include <stdlib.h>
#include <string.h>
#include <sys/stat.h>
#include <unistd.h>

#define RANGES 4096

static struct { off_t from, to; } dirty[RANGES];
static int ranges, calls, syncs, cut, lose;
static const char *name;
static char disk[4096];

#define REAL(result, call, ...) \
    static result (*real)(__VA_ARGS__); \
    if (!real) real = (result (*)(__VA_ARGS__))dlsym(RTLD_NEXT, call)

__attribute__((constructor)) static void begin(void) {
    name = getenv("RECALL_FILE");
    if (!name) return;
    snprintf(disk, sizeof disk, "%s.disk", name);
    if (getenv("RECALL_CUT")) cut = atoi(getenv("RECALL_CUT"));
    if (getenv("RECALL_LOSE")) lose = atoi(getenv("RECALL_LOSE"));
}

/* Whether the descriptor is of the file. */
static int is_ours(int file) {
    struct stat own, wanted;
    return name && file > 2 && fstat(file, &own) == 0 && stat(name, &wanted) == 0 && own.st_ino == wanted.st_ino && own.st_dev == wanted.st_dev;
}

static void mark(off_t from, ssize_t count) {
    if (count <= 0 || ranges == RANGES) return;
    dirty[ranges].from = from;
    dirty[ranges++].to = from + count;
}

/* Brings to the disk what is dirty, and the length. */
static void bring(int file) {
    static char bytes[1 << 17];
    int to = open(disk, O_RDWR | O_CREAT, 0600);
    struct stat own;
    if (to < 0 || fstat(file, &own) != 0 || ftruncate(to, own.st_size) != 0) abort();
    for (int at = 0; at < ranges; at++) {
        for (off_t from = dirty[at].from; from < dirty[at].to;) {
            size_t most = dirty[at].to - from < (off_t)sizeof bytes ? dirty[at].to - from : sizeof bytes;
            ssize_t got = pread(file, bytes, most, from);
            if (got <= 0) break;
            if (pwrite(to, bytes, got, from) != got) abort();
            from += got;
        }
    }
    ranges = 0;
    close(to);
}

static void count_call(void) {
    if (++calls == cut) _exit(137);
}

ssize_t write(int file, const void *from, size_t size) {
    REAL(ssize_t, "write", int, const void *, size_t);
    if (!is_ours(file)) return real(file, from, size);
    off_t at = fcntl(file, F_GETFL) & O_APPEND ? lseek(file, 0, SEEK_END) : lseek(file, 0, SEEK_CUR);
    ssize_t put = real(file, from, size);
    mark(at, put);
    count_call();
    return put;
}

static ssize_t put_at(int file, const void *from, size_t size, off_t at, ssize_t (*real)(int, const void *, size_t, off_t)) {
    ssize_t put = real(file, from, size, at);
    if (is_ours(file)) {
        mark(at, put);
        count_call();
    }
    return put;
}

ssize_t pwrite64(int file, const void *from, size_t size, off_t at) {
    REAL(ssize_t, "pwrite64", int, const void *, size_t, off_t);
    return put_at(file, from, size, at, real);
}

ssize_t pwrite(int file, const void *from, size_t size, off_t at) {
    REAL(ssize_t, "pwrite", int, const void *, size_t, off_t);
    return put_at(file, from, size, at, real);
}

static int synced(int file, int (*real)(int)) {
    if (!is_ours(file)) return real(file);
    int failed = ++syncs == lose;
    if (failed) {
        ranges = 0;
        errno = EIO;
    } else {
        bring(file);
    }
    count_call();
    if (failed) errno = EIO;
    return failed ? -1 : 0;
}

int fsync(int file) {
    REAL(int, "fsync", int);
    return synced(file, real);
}

int fdatasync(int file) {
    REAL(int, "fdatasync", int);
    return synced(file, real);
}
