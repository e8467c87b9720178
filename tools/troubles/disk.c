// Loaded before the C library (LD_PRELOAD), it stands between a node and the files of its record, which are those whose
// paths begin with TROUBLE_RECORD.
//
// It keeps a log of what was written since each file was last synced (TROUBLE_UNDO.N, N being 0 for FILE and 1 for
// FILE.b): u64 offset, u64 old length of the file, u32 count of the old octets and they, u32 count of the new ones and
// they. So whoever killed the node can leave of its files what a loss of power may leave.
//
// It also makes the device fail, as the eight words of the file TROUBLE_CONTROL say:
//   0  the writes that pass before one fails, + 1; 0 for never     1  the same of syncs
//   2  how a write fails: 0 nothing is written, 1 a part of it     3  the error (errno)
//   4  microseconds that a sync takes more                         5  each later write and sync fails too
//   6  counts the failures                                         7  counts the syncs
#define _GNU_SOURCE
#include <dlfcn.h>
#include <errno.h>
#include <fcntl.h>
#include <stdarg.h>
#include <stdint.h>
#include <stdio.h>
#include <stdlib.h>
#include <string.h>
#include <sys/mman.h>
#include <sys/stat.h>
#include <sys/syscall.h>
#include <sys/uio.h>
#include <unistd.h>

enum { FILES = 1024 };
static const char *record;
static volatile uint32_t *control;
static int undo[2] = {-1, -1};
static signed char which[FILES]; // 0: not of the record; 1: FILE; 2: FILE.b

__attribute__((constructor)) static void begin(void) {
    const char *path = getenv("TROUBLE_CONTROL"), *log = getenv("TROUBLE_UNDO");
    const char *begins = getenv("TROUBLE_RECORD");
    if (!path || !log || !begins)
        return;
    int fd = syscall(SYS_openat, AT_FDCWD, path, O_RDWR | O_CLOEXEC, 0);
    if (fd < 0)
        return;
    void *mapped = mmap(NULL, 32, PROT_READ | PROT_WRITE, MAP_SHARED, fd, 0);
    syscall(SYS_close, fd);
    if (mapped == MAP_FAILED)
        return;
    for (int n = 0; n < 2; n++) {
        char name[4096];
        snprintf(name, sizeof name, "%s.%d", log, n);
        fd = syscall(SYS_openat, AT_FDCWD, name, O_RDWR | O_CREAT | O_APPEND | O_CLOEXEC, 0600);
        undo[n] = fd < 0 ? -1 : fcntl(fd, F_DUPFD_CLOEXEC, 900 + n);
        if (fd >= 0)
            syscall(SYS_close, fd);
    }
    control = mapped;
    record = begins;
}

static int opened(int fd, const char *path) {
    if (fd < 0 || fd >= FILES)
        return fd;
    which[fd] = 0;
    if (!record || !control)
        return fd;
    size_t size = strlen(record);
    if (strncmp(path, record, size) == 0)
        which[fd] = path[size] == 0 ? 1 : strcmp(path + size, ".b") == 0 ? 2 : 0;
    return fd;
}

#define MODE(flags, mode)                                                                                              \
    mode_t mode = 0;                                                                                                   \
    if ((flags) & (O_CREAT | O_TMPFILE)) {                                                                             \
        va_list rest;                                                                                                  \
        va_start(rest, flags);                                                                                         \
        mode = va_arg(rest, mode_t);                                                                                   \
        va_end(rest);                                                                                                  \
    }


int open(const char *path, int flags, ...) {
    MODE(flags, mode)
    return opened(syscall(SYS_openat, AT_FDCWD, path, flags, mode), path);
}

int open64(const char *path, int flags, ...) {
    MODE(flags, mode)
    return opened(syscall(SYS_openat, AT_FDCWD, path, flags | O_LARGEFILE, mode), path);
}

int openat(int at, const char *path, int flags, ...) {
    MODE(flags, mode)
    return opened(syscall(SYS_openat, at, path, flags, mode), path);
}

int openat64(int at, const char *path, int flags, ...) {
    MODE(flags, mode)
    return opened(syscall(SYS_openat, at, path, flags | O_LARGEFILE, mode), path);
}

int close(int fd) {
    if (fd >= 0 && fd < FILES)
        which[fd] = 0;
    return syscall(SYS_close, fd);
}

// Whether the device fails now, by the counter of this place.
static int fails(int place) {
    if (control[place] == 0 || --control[place] > 0)
        return 0;
    control[6]++;
    if (control[5])
        control[place] = 1;
    errno = control[3] ? control[3] : EIO;
    return 1;
}

// Notes what a write is about to change.
static void note(int fd, const void *octets, size_t size, uint64_t at) {
    int log = undo[which[fd] - 1];
    struct stat about;
    if (log < 0 || fstat(fd, &about) != 0)
        return;
    uint64_t length = about.st_size, head[2] = {at, length};
    uint32_t old = at >= length ? 0 : length - at < size ? length - at : size, new = size;
    char *held = malloc(old + 1);
    if (!held || syscall(SYS_pread64, fd, held, old, at) != old)
        abort();
    struct iovec parts[5] = {{head, 16}, {&old, 4}, {held, old}, {&new, 4}, {(void *)octets, size}};
    if (syscall(SYS_writev, log, parts, 5) != (long)(24 + old + size))
        abort();
    free(held);
}

static ssize_t put(int fd, const void *octets, size_t size, off_t at, int seeks) {
    if (fails(0)) {
        int error = errno;
        size_t part = control[2] ? size / 2 : 0;
        if (part > 0) {
            note(fd, octets, part, at);
            if (syscall(SYS_pwrite64, fd, octets, part, at) < 0)
                error = errno;
        }
        errno = error;
        return -1;
    }
    note(fd, octets, size, at);
    return seeks ? syscall(SYS_write, fd, octets, size) : syscall(SYS_pwrite64, fd, octets, size, at);
}

ssize_t write(int fd, const void *octets, size_t size) {
    if (fd < 0 || fd >= FILES || !which[fd])
        return syscall(SYS_write, fd, octets, size);
    return put(fd, octets, size, lseek(fd, 0, SEEK_CUR), 1);
}

ssize_t pwrite(int fd, const void *octets, size_t size, off_t at) {
    if (fd < 0 || fd >= FILES || !which[fd])
        return syscall(SYS_pwrite64, fd, octets, size, at);
    return put(fd, octets, size, at, 0);
}

ssize_t pwrite64(int fd, const void *octets, size_t size, off64_t at) { return pwrite(fd, octets, size, at); }

static int synced(int fd, long call) {
    if (fd < 0 || fd >= FILES || !which[fd])
        return syscall(call, fd);
    if (fails(1))
        return -1;
    if (control[4])
        usleep(control[4]);
    int got = syscall(call, fd);
    control[7]++;
    if (got == 0 && undo[which[fd] - 1] >= 0 && ftruncate(undo[which[fd] - 1], 0) != 0)
        abort();
    return got;
}

int fsync(int fd) { return synced(fd, SYS_fsync); }

int fdatasync(int fd) { return synced(fd, SYS_fdatasync); }
