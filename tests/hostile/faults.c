/* Loaded before the C library, it makes one program meet what a healthy machine seldom gives it:
 *
 *   RECALL_REFUSE=n   its n-th request for memory is refused (from 1); the others are not
 *   RECALL_COUNT=file the number of its requests so far stands in this file, as eight bytes
 *   RECALL_READ=n     after n bytes a read of its standard input fails with EIO
 *   RECALL_WRITE=n    after n bytes a write to its standard output fails with ENOSPC
 *   RECALL_APPEND=n  after n bytes a write to a file that it opened fails with ENOSPC
 *   RECALL_SYNC=n    its n-th sync of a file fails with EIO (from 1)
 *   RECALL_RENAME=n  its n-th rename fails with EIO (from 1)
 *   RECALL_END=n     it is killed at its n-th write to a file that it opened, sync or rename, a write half done (from 1)
 *   RECALL_FETCH=n   its n-th read of a file that it opened fails with EIO (from 1)
 *   RECALL_CUT=1     no file can be cut: ftruncate fails with EIO
 *   RECALL_THREADS=1  no thread can be started
 *   RECALL_LINES=1    a read of its standard input gives no more than one line
 *   RECALL_INTERRUPT=1  each second read and write of these is interrupted (EINTR), and a write takes seven bytes at most
 *
 * It acts in the program whose file is named RECALL_ONLY, and in no other that inherits these words. */
#define _GNU_SOURCE
#include <dlfcn.h>
#include <errno.h>
#include <fcntl.h>
#include <limits.h>
#include <pthread.h>
#include <signal.h>
#include <stdatomic.h>
#include <stdio.h>
#include <stdlib.h>
#include <string.h>
#include <sys/mman.h>
#include <unistd.h>

#define SHORT 7

extern void *__libc_malloc(size_t);
extern void *__libc_realloc(void *, size_t);
extern void *__libc_calloc(size_t, size_t);

static atomic_long own_count;
static atomic_long *requests = &own_count;
static long refused, to_read = -1, to_write = -1, to_append = -1, to_sync, to_fetch, to_rename, to_end;
static int counts, by_line, interrupts, lacks_threads, keeps_lengths;

static long number(const char *name, long otherwise) {
    const char *text = getenv(name);
    return text ? atol(text) : otherwise;
}

/* Counts in the file, which stays as it is however the program ends. */
static void count_in(const char *name) {
    int file = open(name, O_RDWR);
    if (file < 0) return;
    void *shared = mmap(NULL, sizeof *requests, PROT_READ | PROT_WRITE, MAP_SHARED, file, 0);
    if (shared != MAP_FAILED) requests = shared;
    close(file);
}

__attribute__((constructor)) static void begin(void) {
    char path[PATH_MAX];
    ssize_t length = readlink("/proc/self/exe", path, sizeof path - 1);
    const char *only = getenv("RECALL_ONLY");
    if (length < 0 || !only) return;
    path[length] = 0;
    const char *slash = strrchr(path, '/');
    if (strcmp(slash ? slash + 1 : path, only) != 0) return;
    if (getenv("RECALL_COUNT")) count_in(getenv("RECALL_COUNT"));
    to_read = number("RECALL_READ", -1);
    to_write = number("RECALL_WRITE", -1);
    to_append = number("RECALL_APPEND", -1);
    to_sync = number("RECALL_SYNC", 0);
    to_fetch = number("RECALL_FETCH", 0);
    to_rename = number("RECALL_RENAME", 0);
    to_end = number("RECALL_END", 0);
    keeps_lengths = number("RECALL_CUT", 0);
    by_line = number("RECALL_LINES", 0);
    interrupts = number("RECALL_INTERRUPT", 0);
    refused = number("RECALL_REFUSE", 0);
    lacks_threads = number("RECALL_THREADS", 0);
    counts = 1;
}

static int is_refused(void) {
    if (!counts || atomic_fetch_add(requests, 1) + 1 != refused) return 0;
    errno = ENOMEM;
    return 1;
}

void *malloc(size_t size) { return is_refused() ? NULL : __libc_malloc(size); }
void *calloc(size_t count, size_t size) { return is_refused() ? NULL : __libc_calloc(count, size); }
void *realloc(void *old, size_t size) { return is_refused() ? NULL : __libc_realloc(old, size); }

/* No more than what is left, and a failure where nothing is. */
static ssize_t allowed(long *left, size_t *size, int failure) {
    if (*left == 0 && *size > 0) {
        errno = failure;
        return -1;
    }
    if (*left > 0 && (size_t)*left < *size) *size = *left;
    return 0;
}

/* Whether this call, one of those that `at` counts, is interrupted. */
static int is_interrupted(long *at) {
    if (!interrupts || (*at)++ % 2) return 0;
    errno = EINTR;
    return 1;
}

ssize_t read(int file, void *to, size_t size) {
    static long reads;
    static ssize_t (*real)(int, void *, size_t);
    if (!real) real = (ssize_t (*)(int, void *, size_t))dlsym(RTLD_NEXT, "read");
    if (file > 2 && counts && to_fetch > 0 && --to_fetch == 0) {
        errno = EIO;
        return -1;
    }
    if (file != 0 || !counts) return real(file, to, size);
    if (is_interrupted(&reads) || allowed(&to_read, &size, EIO)) return -1;
    ssize_t got = 0;
    if (by_line) {
        while ((size_t)got < size) {
            ssize_t one = real(file, (char *)to + got, 1);
            if (one < 0 && got == 0) return one;
            if (one <= 0) break;
            if (((char *)to)[got++] == '\n') break;
        }
    } else {
        got = real(file, to, size);
    }
    if (to_read > 0 && got > 0) to_read -= got;
    return got;
}

/* Whether the program ends at this call. */
static int is_end(void) { return counts && to_end > 0 && --to_end == 0; }

ssize_t write(int file, const void *from, size_t size) {
    static long writes;
    static ssize_t (*real)(int, const void *, size_t);
    if (!real) real = (ssize_t (*)(int, const void *, size_t))dlsym(RTLD_NEXT, "write");
    if (file == 0 || file == 2 || !counts) return real(file, from, size);
    if (file != 1 && is_end()) {
        real(file, from, size / 2);
        kill(getpid(), SIGKILL);
    }
    long *left = file == 1 ? &to_write : &to_append;
    if (is_interrupted(&writes) || allowed(left, &size, ENOSPC)) return -1;
    if (interrupts && size > SHORT) size = SHORT;
    ssize_t put = real(file, from, size);
    if (*left > 0 && put > 0) *left -= put;
    return put;
}

/* Whether this sync fails. */
static int is_lost(void) {
    if (is_end()) kill(getpid(), SIGKILL);
    if (!counts || to_sync == 0 || --to_sync != 0) return 0;
    errno = EIO;
    return 1;
}

int fsync(int file) {
    static int (*real)(int);
    if (!real) real = (int (*)(int))dlsym(RTLD_NEXT, "fsync");
    return is_lost() ? -1 : real(file);
}

int fdatasync(int file) {
    static int (*real)(int);
    if (!real) real = (int (*)(int))dlsym(RTLD_NEXT, "fdatasync");
    return is_lost() ? -1 : real(file);
}

int rename(const char *from, const char *to) {
    static int (*real)(const char *, const char *);
    if (!real) real = (int (*)(const char *, const char *))dlsym(RTLD_NEXT, "rename");
    if (is_end()) kill(getpid(), SIGKILL);
    if (counts && to_rename > 0 && --to_rename == 0) {
        errno = EIO;
        return -1;
    }
    return real(from, to);
}

int ftruncate(int file, off_t length) {
    static int (*real)(int, off_t);
    if (!real) real = (int (*)(int, off_t))dlsym(RTLD_NEXT, "ftruncate");
    if (counts && keeps_lengths) {
        errno = EIO;
        return -1;
    }
    return real(file, length);
}

int ftruncate64(int file, off_t length) { return ftruncate(file, length); }

int pthread_create(pthread_t *thread, const pthread_attr_t *how, void *(*work)(void *), void *given) {
    static int (*real)(pthread_t *, const pthread_attr_t *, void *(*)(void *), void *);
    if (!real) real = (int (*)(pthread_t *, const pthread_attr_t *, void *(*)(void *), void *))dlsym(RTLD_NEXT, "pthread_create");
    return counts && lacks_threads ? EAGAIN : real(thread, how, work, given);
}
