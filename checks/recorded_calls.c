#define _GNU_SOURCE
#include <dlfcn.h>
#include <fcntl.h>
#include <stdarg.h>
#include <stdio.h>
#include <stdlib.h>
#include <sys/stat.h>
#include <sys/syscall.h>
#include <sys/uio.h>
#include <time.h>
#include <unistd.h>
/* Records the calls that change files, for checks/power-loss. Another library of calls may follow this one in
   LD_PRELOAD. These variables say what it does:
     RECORD  the file that gets a line for each such call that succeeds. A number is that of a file's inode:
               create NUMBER PATH         an open that makes a file
               cut NUMBER LENGTH          a change of a file's length, or an open that empties it
               write NUMBER OFFSET N      a write; the N bytes follow the line
               sync NUMBER                a sync of a file or a folder
               rename PATH <tab> PATH
               unlink PATH
     CLOCK   the seconds that the monotonic clock goes on at each call. It stops from a sync to the next read or
             write at an offset, as if saving a map took no time.
     NAP     the microseconds that each read at an offset takes longer */
static int is_saving;
static void note(const char *line, int length, const void *bytes, size_t n) {
    static int record = -1;
    const char *name = getenv("RECORD");
    struct iovec parts[] = {{(void *)line, (size_t)length}, {(void *)bytes, n}};
    if (!name) return;
    if (record < 0) {
        int fd = (int)syscall(SYS_openat, AT_FDCWD, name, O_WRONLY | O_CREAT | O_APPEND | O_CLOEXEC, 0666);
        record = fcntl(fd, F_DUPFD_CLOEXEC, 500);
        syscall(SYS_close, fd);
    }
    if (syscall(SYS_writev, record, parts, 2) != length + (long)n) abort();
}
static void note_text(const char *form, ...) {
    char line[9000];
    va_list words;
    va_start(words, form);
    note(line, vsnprintf(line, sizeof line, form, words), NULL, 0);
    va_end(words);
}
static struct stat about(int fd) {
    struct stat found = {0};
    if (fstat(fd, &found)) abort();
    return found;
}
static unsigned long inode(int fd) { return (unsigned long)about(fd).st_ino; }
/* The function of this name that the program would call without this library. */
#define NEXT(name) static __typeof__(name) *next; if (!next) *(void **)&next = dlsym(RTLD_NEXT, #name)
static int exists(const char *path) { return !faccessat(AT_FDCWD, path, F_OK, AT_SYMLINK_NOFOLLOW); }
static int opened(int fd, const char *path, int flags, int existed) {
    if (fd < 0) return fd;
    if (flags & O_CREAT && !existed) note_text("create %lu %s\n", inode(fd), path);
    else if (flags & O_TRUNC) note_text("cut %lu 0\n", inode(fd));
    return fd;
}
#define MODE va_list rest; va_start(rest, flags); int mode = va_arg(rest, int); va_end(rest)
#define OPEN(name) \
    NEXT(name); MODE; int is = exists(path); return opened(next(path, flags, mode), path, flags, is)
int open(const char *path, int flags, ...) { OPEN(open); }
int open64(const char *path, int flags, ...) { OPEN(open64); }
static void note_write(int fd, const void *from, ssize_t n, off_t at) {
    char line[100];
    if (n <= 0 || !S_ISREG(about(fd).st_mode)) return;
    int length = snprintf(line, sizeof line, "write %lu %ld %ld\n", inode(fd), (long)at, (long)n);
    note(line, length, from, (size_t)n);
}
ssize_t write(int fd, const void *from, size_t n) {
    NEXT(write);
    ssize_t put = next(fd, from, n);
    note_write(fd, from, put, lseek(fd, 0, SEEK_CUR) - put);
    return put;
}
static ssize_t noted_write(int fd, const void *from, ssize_t n, off_t at) {
    is_saving = 0;
    note_write(fd, from, n, at);
    return n;
}
#define WRITE(name) NEXT(name); return noted_write(fd, from, next(fd, from, n, at), at)
ssize_t pwrite(int fd, const void *from, size_t n, off_t at) { WRITE(pwrite); }
ssize_t pwrite64(int fd, const void *from, size_t n, off_t at) { WRITE(pwrite64); }
#define READ(name) NEXT(name); is_saving = 0; nap(); return next(fd, to, n, at)
static void nap(void) { if (getenv("NAP")) usleep((useconds_t)atol(getenv("NAP"))); }
ssize_t pread(int fd, void *to, size_t n, off_t at) { READ(pread); }
ssize_t pread64(int fd, void *to, size_t n, off_t at) { READ(pread64); }
static int cut(int fd, int done, off_t n) {
    if (!done) note_text("cut %lu %ld\n", inode(fd), (long)n);
    return done;
}
#define CUT(name) NEXT(name); return cut(fd, next(fd, n), n)
int ftruncate(int fd, off_t n) { CUT(ftruncate); }
int ftruncate64(int fd, off_t n) { CUT(ftruncate64); }
static int synced(int fd, int done) {
    is_saving = 1;
    if (!done) note_text("sync %lu\n", inode(fd));
    return done;
}
int fsync(int fd) { NEXT(fsync); return synced(fd, next(fd)); }
int fdatasync(int fd) { NEXT(fdatasync); return synced(fd, next(fd)); }
int rename(const char *from, const char *to) {
    NEXT(rename);
    int done = next(from, to);
    if (!done) note_text("rename %s\t%s\n", from, to);
    return done;
}
int unlink(const char *path) {
    NEXT(unlink);
    int done = next(path);
    if (!done) note_text("unlink %s\n", path);
    return done;
}
int clock_gettime(clockid_t clock, struct timespec *now) {
    static double seconds;
    NEXT(clock_gettime);
    if (clock != CLOCK_MONOTONIC || !getenv("CLOCK")) return next(clock, now);
    if (!is_saving) seconds += atof(getenv("CLOCK"));
    now->tv_sec = 1000 + (time_t)seconds;
    now->tv_nsec = (long)((seconds - (double)(time_t)seconds) * 1e9);
    return 0;
}
