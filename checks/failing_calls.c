#define _GNU_SOURCE
#include <errno.h>
#include <fcntl.h>
#include <stdarg.h>
#include <stdio.h>
#include <stdlib.h>
#include <string.h>
#include <sys/file.h>
#include <sys/stat.h>
#include <sys/syscall.h>
#include <time.h>
#include <unistd.h>
/* System calls on files that fail. These variables have lists of paths or file names, separated by colons:
     OPEN    paths that can't be opened
     UNLINK  paths that can't be removed
     READ    files that can't be read, because the kernel has no memory
     SYNC    files that can't be synced
     MAKES   the path of a file that somebody else makes before the first sync
     BAD     blocks that can't be read or written, such as image0@3
     HANG    blocks whose read doesn't end
     CUT     blocks at whose read the file loses all but 100 bytes of the block, and what follows it
     EDGE    blocks at whose read the file loses the block, and what follows it
     FLIP    files of which each read returns another first byte
     SHORT   files of which a call moves three blocks at most
     HALT    files of which the first, third, fifth .. read is interrupted
     WAIT    files to which a write would block
     BUSY    files to which the second write would block, and no other
     NOLOCK  files that have no locks
     DEVICE  files that are block devices
     LOG     files of which each block that is read, and the end of each write, is logged
     CLOCK   the seconds by which the clock advances at each look, instead of the system's clock
   If descriptor 9 is open, it gets a line for each failed open, for each write and sync of a file named image.., for
   each failed lock, and for what LOG names. */
static int is_in(const char *variable, const char *word) {
    const char *list = getenv(variable);
    size_t n = strlen(word);
    for (; list && *list; list = strchr(list, ':') ? strchr(list, ':') + 1 : "")
        if (!strncmp(list, word, n) && (list[n] == ':' || !list[n])) return 1;
    return 0;
}
static const char *name_of(int fd) {
    static char path[4096];
    char link[32];
    snprintf(link, sizeof link, "/proc/self/fd/%d", fd);
    long n = readlink(link, path, sizeof path - 1);
    path[n < 0 ? 0 : n] = 0;
    return strrchr(path, '/') ? strrchr(path, '/') + 1 : path;
}
static void tell(const char *call, const char *word) {
    char line[4200];
    int n = snprintf(line, sizeof line, "%s %s\n", call, word);
    if (syscall(SYS_write, 9, line, n) < 0) return;
}
static int fails(int error) { errno = error; return -1; }
static int opened(int at, const char *path, int flags, int mode) {
    if (!is_in("OPEN", path)) return syscall(SYS_openat, at, path, flags, mode);
    tell("open", path);
    return fails(EACCES);
}
int unlink(const char *path) { return is_in("UNLINK", path) ? fails(EACCES) : (int)syscall(SYS_unlink, path); }
int unlinkat(int at, const char *path, int flags) {
    return is_in("UNLINK", path) ? fails(EACCES) : (int)syscall(SYS_unlinkat, at, path, flags);
}
#define MODE va_list rest; va_start(rest, flags); int mode = va_arg(rest, int); va_end(rest)
int open(const char *path, int flags, ...) { MODE; return opened(AT_FDCWD, path, flags, mode); }
int open64(const char *path, int flags, ...) { MODE; return opened(AT_FDCWD, path, flags, mode); }
int openat(int at, const char *path, int flags, ...) { MODE; return opened(at, path, flags, mode); }
int openat64(int at, const char *path, int flags, ...) { MODE; return opened(at, path, flags, mode); }
ssize_t read(int fd, void *to, size_t n) {
    static int halts;
    if (is_in("HALT", name_of(fd)) && !(halts++ % 2)) return fails(EINTR);
    return is_in("READ", name_of(fd)) ? fails(ENOMEM) : syscall(SYS_read, fd, to, n);
}
static void log_number(const char *call, int fd, long number) {
    char word[4200];
    snprintf(word, sizeof word, "%s@%ld", name_of(fd), number);
    tell(call, word);
}
ssize_t write(int fd, const void *from, size_t n) {
    static int writes;
    static long end;
    if (is_in("WAIT", name_of(fd)) || (is_in("BUSY", name_of(fd)) && ++writes == 2)) return fails(EAGAIN);
    ssize_t put = syscall(SYS_write, fd, from, n);
    if (is_in("LOG", name_of(fd)) && put >= 0) log_number("end", fd, end += put);
    return put;
}
int flock(int fd, int how) {
    if (!is_in("NOLOCK", name_of(fd))) return syscall(SYS_flock, fd, how);
    tell(how & LOCK_EX ? "lock" : "share", name_of(fd));
    return fails(ENOLCK);
}
/* Returns the first block that the variable has and a call for n bytes touches, or -1. */
static off_t touched(const char *variable, int fd, size_t n, off_t at) {
    char word[4200];
    for (off_t block = at / 512; block <= (at + (off_t)n - 1) / 512; block++) {
        snprintf(word, sizeof word, "%s@%ld", name_of(fd), (long)block);
        if (is_in(variable, word)) return block;
    }
    return -1;
}
/* Makes the file end that many bytes after the start of such a block, and returns whether that fails. */
static int cannot_cut(const char *variable, int fd, size_t n, off_t at, off_t bytes) {
    off_t block = touched(variable, fd, n, at);
    return block >= 0 && truncate(name_of(fd), 512 * block + bytes);
}
static size_t moved(int fd, size_t n) { return n > 1536 && is_in("SHORT", name_of(fd)) ? 1536 : n; }
static ssize_t get(int fd, void *to, size_t n, off_t at) {
    if (is_in("LOG", name_of(fd)))
        for (off_t block = at / 512; block <= (at + (off_t)n - 1) / 512; block++) log_number("read", fd, (long)block);
    while (touched("HANG", fd, n, at) >= 0) pause();
    if (cannot_cut("CUT", fd, n, at, 100) || cannot_cut("EDGE", fd, n, at, 0)) return -1;
    if (touched("BAD", fd, n, at) >= 0) return fails(EIO);
    ssize_t got = syscall(SYS_pread64, fd, to, moved(fd, n), at);
    if (got > 0 && is_in("FLIP", name_of(fd))) *(char *)to ^= 1;
    return got;
}
ssize_t pread(int fd, void *to, size_t n, off_t at) { return get(fd, to, n, at); }
ssize_t pread64(int fd, void *to, size_t n, off_t at) { return get(fd, to, n, at); }
static ssize_t put(int fd, const void *from, size_t n, off_t at) {
    if (!strncmp(name_of(fd), "image", 5)) tell("write", name_of(fd));
    if (touched("BAD", fd, n, at) >= 0) return fails(EIO);
    return syscall(SYS_pwrite64, fd, from, moved(fd, n), at);
}
ssize_t pwrite(int fd, const void *from, size_t n, off_t at) { return put(fd, from, n, at); }
ssize_t pwrite64(int fd, const void *from, size_t n, off_t at) { return put(fd, from, n, at); }
static int synced(int fd, int call) {
    tell("sync", name_of(fd));
    if (getenv("MAKES")) close((int)syscall(SYS_openat, AT_FDCWD, getenv("MAKES"), O_CREAT | O_EXCL | O_WRONLY, 0644));
    return is_in("SYNC", name_of(fd)) ? fails(EIO) : syscall(call, fd);
}
int fsync(int fd) { return synced(fd, SYS_fsync); }
int fdatasync(int fd) { return synced(fd, SYS_fdatasync); }
int statx(int at, const char *restrict path, int flags, unsigned mask, struct statx *restrict found) {
    int done = syscall(SYS_statx, at, path, flags, mask, found);
    const char *name = *path ? strrchr(path, '/') ? strrchr(path, '/') + 1 : path : name_of(at);
    if (!done && is_in("DEVICE", name)) {
        found->stx_mode = (found->stx_mode & ~S_IFMT) | S_IFBLK;
        found->stx_size = 0;
    }
    return done;
}
int clock_gettime(clockid_t clock, struct timespec *now) {
    static long looks;
    const char *step = getenv("CLOCK");
    if (!step) return syscall(SYS_clock_gettime, clock, now);
    now->tv_sec = ++looks * atol(step);
    now->tv_nsec = 0;
    return 0;
}
