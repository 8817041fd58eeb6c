// refuse.c: stands between a program and the C library, and refuses what the environment names.
//
// It is preloaded. It counts the requests for memory that the program makes, starts of threads among them, its reads
// of standard input, its writes to standard output and its calls at files, each from 1 on, over all threads. A list of
// numbers is `3`, `3,8` or `3-`, which is 3 and all behind it.
//
//     REFUSE_MEMORY=LIST      these requests are refused
//     FAIL_READS=LIST         these reads fail
//     INTERRUPT_READS=NUMBER  each read whose number it divides is interrupted
//     SHORT_READS=1           each read gives a byte at most
//     FAIL_WRITES=LIST        these writes fail
//     INTERRUPT_WRITES=LIST   these writes are interrupted
//     EMPTY_WRITES=LIST       these writes take no byte
//     SHORT_WRITES=1          each write takes a byte at most
//     FAIL_FILES=LIST         these calls at files fail: opens, reads, writes, syncs, cuts, renames, removals, looks
//     HARDSHIP_COUNTS=FILE    the counts stand in this file, as numbers of 8 bytes: requests, refusals, reads, writes,
//                             threads, calls at files
//
// Standard error is passed on as it is, so that it can say what went wrong.
#define _GNU_SOURCE
#include <dlfcn.h>
#include <errno.h>
#include <fcntl.h>
#include <pthread.h>
#include <stdarg.h>
#include <stdatomic.h>
#include <stdbool.h>
#include <stdint.h>
#include <stdlib.h>
#include <string.h>
#include <sys/mman.h>
#include <sys/stat.h>
#include <sys/syscall.h>
#include <unistd.h>

enum { MOST = 64 };

// Numbers that are refused: some, and all from one on.
struct list {
    uint64_t numbers[MOST];
    int length;
    uint64_t from;
};

struct counts {
    _Atomic uint64_t requests;
    _Atomic uint64_t refusals;
    _Atomic uint64_t reads;
    _Atomic uint64_t writes;
    _Atomic uint64_t threads;
    _Atomic uint64_t files;
};

static struct list refused_memory;
static struct list failed_reads;
static struct list failed_writes;
static struct list interrupted_writes;
static struct list empty_writes;
static struct list failed_files;
static uint64_t interrupted_each;
static bool reads_are_short;
static bool writes_are_short;

static struct counts own_counts;
static struct counts *counts = &own_counts;
static bool is_counting;

static void *(*next_malloc)(size_t);
static void *(*next_realloc)(void *, size_t);
static int (*next_create)(pthread_t *, const pthread_attr_t *, void *(*)(void *), void *);

// Reads a list of numbers.
static void read_list(struct list *list, const char *name) {
    const char *text = getenv(name);
    while (text && *text && list->length < MOST) {
        char *end;
        uint64_t number = strtoull(text, &end, 10);
        if (*end == '-')
            list->from = number;
        else
            list->numbers[list->length++] = number;
        text = *end ? end + 1 : end;
    }
}

static bool has(const struct list *list, uint64_t number) {
    for (int place = 0; place < list->length; place++)
        if (list->numbers[place] == number)
            return true;
    return list->from && number >= list->from;
}

static uint64_t number_of(const char *name) {
    const char *text = getenv(name);
    return text ? strtoull(text, NULL, 10) : 0;
}

// Puts the counts into a file, where they can be read after the program has ended, however it ends.
static void share_counts(const char *path) {
    int file = open(path, O_RDWR | O_CREAT | O_TRUNC | O_CLOEXEC, 0600);
    if (file < 0 || ftruncate(file, sizeof own_counts) != 0)
        abort();
    void *shared = mmap(NULL, sizeof own_counts, PROT_READ | PROT_WRITE, MAP_SHARED, file, 0);
    if (shared == MAP_FAILED)
        abort();
    close(file);
    counts = shared;
}

static void find_next(void) {
    next_malloc = dlsym(RTLD_NEXT, "malloc");
    next_realloc = dlsym(RTLD_NEXT, "realloc");
    next_create = dlsym(RTLD_NEXT, "pthread_create");
}

__attribute__((constructor)) static void begin(void) {
    find_next();
    read_list(&refused_memory, "REFUSE_MEMORY");
    read_list(&failed_reads, "FAIL_READS");
    read_list(&failed_writes, "FAIL_WRITES");
    read_list(&interrupted_writes, "INTERRUPT_WRITES");
    read_list(&empty_writes, "EMPTY_WRITES");
    read_list(&failed_files, "FAIL_FILES");
    interrupted_each = number_of("INTERRUPT_READS");
    reads_are_short = number_of("SHORT_READS") > 0;
    writes_are_short = number_of("SHORT_WRITES") > 0;
    const char *path = getenv("HARDSHIP_COUNTS");
    if (path)
        share_counts(path);
    is_counting = true;
}

// Counts a request, and whether it is one that is refused.
static bool is_refused(void) {
    if (!is_counting)
        return false;
    uint64_t number = atomic_fetch_add(&counts->requests, 1) + 1;
    if (!has(&refused_memory, number))
        return false;
    atomic_fetch_add(&counts->refusals, 1);
    return true;
}

void *malloc(size_t size) {
    if (is_refused()) {
        errno = ENOMEM;
        return NULL;
    }
    if (!next_malloc)
        find_next();
    return next_malloc(size);
}

void *realloc(void *block, size_t size) {
    if (is_refused()) {
        errno = ENOMEM;
        return NULL;
    }
    if (!next_realloc)
        find_next();
    return next_realloc(block, size);
}

int pthread_create(pthread_t *thread, const pthread_attr_t *attributes, void *(*work)(void *), void *argument) {
    if (is_refused())
        return EAGAIN;
    atomic_fetch_add(&counts->threads, 1);
    return next_create(thread, attributes, work, argument);
}

static ssize_t fails(int reason) {
    errno = reason;
    return -1;
}

// Counts a call at a file, and whether it is one that fails.
static bool file_fails(void) {
    if (!is_counting)
        return false;
    uint64_t number = atomic_fetch_add(&counts->files, 1) + 1;
    if (!has(&failed_files, number))
        return false;
    atomic_fetch_add(&counts->refusals, 1);
    return true;
}

// A call at a file that is open, but for standard input, output and error, which have counts of their own.
#define AT_FILE(file, call) ((file) > STDERR_FILENO && file_fails() ? fails(EIO) : (call))
// A call at the name of a file.
#define AT_NAME(call) (file_fails() ? fails(EIO) : (call))

ssize_t read(int file, void *room, size_t size) {
    if (file != STDIN_FILENO)
        return AT_FILE(file, syscall(SYS_read, file, room, size));
    uint64_t number = atomic_fetch_add(&counts->reads, 1) + 1;
    if (has(&failed_reads, number))
        return fails(EIO);
    if (interrupted_each && number % interrupted_each == 0)
        return fails(EINTR);
    return syscall(SYS_read, file, room, reads_are_short && size > 1 ? 1 : size);
}

ssize_t write(int file, const void *bytes, size_t size) {
    if (file != STDOUT_FILENO)
        return AT_FILE(file, syscall(SYS_write, file, bytes, size));
    uint64_t number = atomic_fetch_add(&counts->writes, 1) + 1;
    if (has(&failed_writes, number))
        return fails(EIO);
    if (has(&interrupted_writes, number))
        return fails(EINTR);
    if (has(&empty_writes, number))
        return 0;
    return syscall(SYS_write, file, bytes, writes_are_short && size > 1 ? 1 : size);
}

int open(const char *path, int flags, ...) {
    va_list more;
    va_start(more, flags);
    mode_t mode = flags & (O_CREAT | __O_TMPFILE) ? va_arg(more, mode_t) : 0;
    va_end(more);
    return AT_NAME(syscall(SYS_openat, AT_FDCWD, path, flags, mode));
}

ssize_t pread(int file, void *room, size_t size, off_t from) {
    return AT_FILE(file, syscall(SYS_pread64, file, room, size, from));
}

ssize_t pwrite(int file, const void *bytes, size_t size, off_t to) {
    return AT_FILE(file, syscall(SYS_pwrite64, file, bytes, size, to));
}

int fsync(int file) { return AT_FILE(file, syscall(SYS_fsync, file)); }

int fdatasync(int file) { return AT_FILE(file, syscall(SYS_fdatasync, file)); }

int ftruncate(int file, off_t length) { return AT_FILE(file, syscall(SYS_ftruncate, file, length)); }

int rename(const char *from, const char *to) { return AT_NAME(syscall(SYS_rename, from, to)); }

int unlink(const char *path) { return AT_NAME(syscall(SYS_unlink, path)); }

int mkdir(const char *path, mode_t mode) { return AT_NAME(syscall(SYS_mkdir, path, mode)); }

int statx(int folder, const char *restrict path, int flags, unsigned mask, struct statx *restrict found) {
    return AT_NAME(syscall(SYS_statx, folder, path, flags, mask, found));
}
