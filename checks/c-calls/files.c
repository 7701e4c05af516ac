/* files.c: which system calls c/uda50_file.c makes, with which flags and in which order, and what it returns if one
   fails. It is linked with --wrap of each of them: a wrapper logs the call, and fails it if `failing` names it. Before
   each call of a watched file, another open file description looks whether it is locked. */
#define _GNU_SOURCE
#include "guest.h"
#include "uda50_file.h"

#include <errno.h>
#include <fcntl.h>
#include <stdarg.h>
#include <stdlib.h>
#include <sys/file.h>
#include <sys/mman.h>
#include <sys/stat.h>
#include <unistd.h>

static char calls[512];
static const char *failing = "";
static int error;
static int times = -1; /* how often it fails: -1 is always */
static int passing; /* how often it succeeds before */
static const char *failing_too = ""; /* another call, which fails with EIO */
static size_t mapped; /* the bytes of the last map */
static bool is_watched, stays_longer;
static long free_length; /* of a watched file while it isn't locked */
enum { SHORT = 1000, LONG = 4 * BLOCK };

int __real_open(const char *path, int flags, ...);
int __real_close(int descriptor);
int __real_flock(int descriptor, int operation);
void *__real_mmap(void *at, size_t length, int access, int flags, int descriptor, off_t from);
int __real_munmap(void *at, size_t length);
int __real_msync(void *at, size_t length, int flags);
int __real_fallocate(int descriptor, int mode, off_t from, off_t length);
int __real_ftruncate(int descriptor, off_t length);
int __real_fstat(int descriptor, struct stat *status);

static const char path[] = "disk", fifo[] = "fifo";

static long length_of(void)
{
    struct stat status;

    return stat(path, &status) == 0 ? (long)status.st_size : -1;
}

/* Whether another program could take the lock of the file. */
static bool is_free(void)
{
    int other = __real_open(path, O_RDONLY);
    bool result = __real_flock(other, LOCK_EX | LOCK_NB) == 0;

    __real_close(other);
    return result;
}

/* Logs a call with its flags, and with `!` if the file is watched and isn't locked. Then the file must be as long as
   free_length; one that stays longer has LONG bytes after its close. Returns whether the call is to fail. */
static bool fails(const char *call, const char *flags)
{
    bool is_locked = !is_watched || !is_free();

    if (!is_locked)
        EXPECT(length_of(), stays_longer && strcmp(call, "close") == 0 ? LONG : free_length);
    strcat(strcat(strcat(strcat(calls, call), flags), is_locked ? "" : "!"), " ");
    if (strcmp(failing_too, call) == 0) {
        errno = EIO;
        return true;
    }
    if (strcmp(failing, call) != 0 || times == 0)
        return false;
    if (passing > 0) {
        passing--;
        return false;
    }
    times -= times > 0;
    errno = error;
    return true;
}

int __wrap_open(const char *path, int flags, ...)
{
    static const int known = O_ACCMODE | O_CLOEXEC | O_NONBLOCK | O_NOCTTY;
    char name[8] = ":r";

    if ((flags & O_ACCMODE) != O_RDONLY)
        name[1] = 'w';
    strcat(name, flags & O_CLOEXEC ? "c" : "");
    strcat(name, flags & O_NONBLOCK ? "n" : "");
    strcat(name, flags & ~known ? "?" : "");
    return fails("open", name) ? -1 : __real_open(path, flags);
}

/* A close that succeeds may change errno too. */
int __wrap_close(int descriptor)
{
    int result = __real_close(descriptor);

    errno = EDOM;
    return fails("close", "") ? -1 : result;
}

int __wrap_flock(int descriptor, int operation)
{
    const char *name = operation == (LOCK_SH | LOCK_NB) ? ":shared" : "?";

    if (operation == (LOCK_EX | LOCK_NB))
        name = ":alone";
    return fails("lock", name) ? -1 : __real_flock(descriptor, operation);
}

void *__wrap_mmap(void *at, size_t length, int access, int flags, int descriptor, off_t from)
{
    const char *name = flags != MAP_SHARED || from != 0 ? "?" : access == PROT_READ ? ":r" : ":rw";

    mapped = length;
    return fails("map", name) ? MAP_FAILED : __real_mmap(at, length, access, flags, descriptor, from);
}

int __wrap_munmap(void *at, size_t length)
{
    return fails("unmap", length == mapped ? "" : "?") ? -1 : __real_munmap(at, length);
}

int __wrap_msync(void *at, size_t length, int flags)
{
    return fails("sync", flags == MS_SYNC && length == mapped ? "" : "?") ? -1 : __real_msync(at, length, flags);
}

/* The file system of this test may lack the call. That counts as a success: room.c has file systems of its own. */
int __wrap_fallocate(int descriptor, int mode, off_t from, off_t length)
{
    char name[64];

    snprintf(name, sizeof name, "%s:%ld+%ld", mode == 0 ? "" : "?", (long)from, (long)length);
    if (fails("reserve", name))
        return -1;
    return __real_fallocate(descriptor, mode, from, length) != 0 && errno != EOPNOTSUPP ? -1 : 0;
}

int __wrap_ftruncate(int descriptor, off_t length)
{
    char name[32];

    snprintf(name, sizeof name, ":%ld", (long)length);
    return fails("length", name) ? -1 : __real_ftruncate(descriptor, length);
}

/* It is logged only if it is the call that may fail. */
int __wrap_fstat(int descriptor, struct stat *status)
{
    return strcmp(failing, "look") == 0 && fails("look", "") ? -1 : __real_fstat(descriptor, status);
}

/* Compares the calls since the last comparison. */
static void expect_calls(const char *wanted, int line)
{
    if (strcmp(calls, wanted) != 0) {
        printf("line %d: the calls are \"%s\" and not \"%s\"\n", line, calls, wanted);
        failures++;
    }
    calls[0] = '\0';
}

#define CALLS(wanted) expect_calls(wanted, __LINE__)

static uda50_file file;

static void make_file(off_t length)
{
    int descriptor = __real_open(path, O_RDWR | O_CREAT | O_TRUNC, 0600);

    EXPECT(descriptor >= 0 && __real_ftruncate(descriptor, length) == 0, true);
    __real_close(descriptor);
}

/* Opens `path` while a call fails. */
static int open_failing(const char *call, int with, bool read_only)
{
    int fault;

    failing = call;
    error = with;
    memset(&file, 0x5a, sizeof file);
    fault = uda50_file_open(&file, path, read_only);
    failing = "";
    return fault;
}

/* After a failed open the struct is closed, so closing it makes no call. */
static void expect_closed(int line)
{
    calls[0] = '\0';
    expect((unsigned long)uda50_file_close(&file), UDA50_FILE_OK, "close", line);
    expect_calls("", line);
    expect(file.image.at == NULL && file.image.length == 0 && !file.is_open, true, "closed", line);
}

#define CLOSED() expect_closed(__LINE__)

static void written_and_read(void)
{
    static uint8_t wanted[2 * BLOCK], got[2 * BLOCK];
    int descriptor;

    make_file(sizeof wanted);
    memset(wanted, 'w', sizeof wanted);
    EXPECT(open_failing("", 0, false), UDA50_FILE_OK);
    CALLS("open:wcn lock:alone map:rw ");
    EXPECT(file.image.length, sizeof wanted);
    memcpy(file.image.at, wanted, sizeof wanted);
    EXPECT(uda50_file_sync(&file), UDA50_FILE_OK);
    CALLS("sync ");
    EXPECT(uda50_file_close(&file), UDA50_FILE_OK);
    CALLS("sync unmap close ");
    CLOSED();
    descriptor = __real_open(path, O_RDONLY);
    EXPECT(read(descriptor, got, sizeof got), sizeof got);
    EXPECT(memcmp(got, wanted, sizeof got), 0);
    __real_close(descriptor);
}

/* A guest's Write to a unit whose file is open for reading only is rejected, and the program goes on. */
static void read_only(void)
{
    uda50_image images[UDA50_UNITS] = { { NULL, 0 } };
    uda50 handle = { 0 };

    EXPECT(open_failing("", 0, true), UDA50_FILE_OK);
    CALLS("open:rcn lock:shared map:r ");
    EXPECT(uda50_new(&handle, true), UDA50_OK);
    EXPECT(uda50_file_attach(&handle, 2, &file), UDA50_OK);
    EXPECT(file.image.length, 0);
    EXPECT(status_of(&handle, (command){ SET_CONTROLLER, 0, 1, 0, 0 }), 0);
    EXPECT(status_of(&handle, (command){ ONLINE, 2, 2, 0, 0 }), 0);
    EXPECT(status_of(&handle, (command){ WRITE, 2, 3, BLOCK, 1 }) & 0x1f, 6);
    EXPECT(uda50_detach(&handle, 2, &file.image), UDA50_OK);
    EXPECT(file.image.length, 2 * BLOCK);
    EXPECT(uda50_free(&handle, images), UDA50_OK);
    CALLS("");
    EXPECT(uda50_file_close(&file), UDA50_FILE_OK);
    CALLS("sync unmap close ");
}

/* Makes a controller with the file in a unit, whose guest writes one block of it. */
static void write_by_guest(uda50 *handle, uint16_t unit, uint32_t lbn)
{
    EXPECT(uda50_new(handle, true), UDA50_OK);
    EXPECT(uda50_file_attach(handle, unit, &file), UDA50_OK);
    EXPECT(status_of(handle, (command){ SET_CONTROLLER, 0, 1, 0, 0 }), 0);
    EXPECT(status_of(handle, (command){ ONLINE, unit, 2, 0, 0 }), 0);
    memset(memory + BUFFER, 'g', BLOCK);
    EXPECT(status_of(handle, (command){ WRITE, unit, 3, BLOCK, lbn }), 0);
}

/* While a unit has the image, a sync is one of the whole map. The image comes back into another struct than the file's,
   and a close unmaps the file all the same. */
static void attached_file(void)
{
    uda50_image images[UDA50_UNITS] = { { NULL, 0 } };
    uda50 handle = { 0 };
    uint8_t *at;

    make_file(2 * BLOCK);
    EXPECT(open_failing("", 0, false), UDA50_FILE_OK);
    at = file.image.at;
    write_by_guest(&handle, 3, 1);
    calls[0] = '\0';
    EXPECT(uda50_file_sync(&file), UDA50_FILE_OK);
    CALLS("sync ");
    EXPECT(uda50_free(&handle, images), UDA50_OK);
    EXPECT(images[3].at == at && images[3].length == 2 * BLOCK && file.image.length == 0, true);
    EXPECT(uda50_file_close(&file), UDA50_FILE_OK);
    CALLS("sync unmap close ");
    EXPECT(__real_msync(at, 2 * BLOCK, MS_ASYNC) == -1 && errno == ENOMEM, true); /* nothing is mapped there */
}

/* A file whose last block begins at 4 GB. The others have no room on the disk. */
static void large_file(void)
{
    static const off_t last = (off_t)1 << 32;
    uda50_image images[UDA50_UNITS] = { { NULL, 0 } };
    uda50 handle = { 0 };
    uint8_t got[BLOCK] = { 0 };
    int descriptor;

    make_file(last + BLOCK);
    EXPECT(open_failing("", 0, false), UDA50_FILE_OK);
    EXPECT(file.image.length, last + BLOCK);
    write_by_guest(&handle, 0, (uint32_t)(last / BLOCK));
    EXPECT(uda50_free(&handle, images), UDA50_OK);
    EXPECT(images[0].length, last + BLOCK);
    EXPECT(uda50_file_close(&file), UDA50_FILE_OK);
    CALLS("open:wcn lock:alone map:rw sync unmap close ");
    descriptor = __real_open(path, O_RDONLY);
    EXPECT(pread(descriptor, got, BLOCK, last), BLOCK);
    EXPECT(got[0] == 'g' && got[BLOCK - 1] == 'g', true);
    __real_close(descriptor);
}

static void failed_opens(void)
{
    EXPECT(open_failing("open", EACCES, false), UDA50_FILE_OPEN);
    CALLS("open:wcn ");
    CLOSED();
    EXPECT(open_failing("lock", EWOULDBLOCK, false), UDA50_FILE_LOCKED);
    CALLS("open:wcn lock:alone close ");
    CLOSED();
    EXPECT(open_failing("map", ENOMEM, true), UDA50_FILE_MAP);
    CALLS("open:rcn lock:shared map:r close ");
    CLOSED();
    EXPECT(open_failing("lock", ENOLCK, false), UDA50_FILE_OK);
    EXPECT(uda50_file_close(&file), UDA50_FILE_OK);
    CALLS("open:wcn lock:alone map:rw sync unmap close ");
    EXPECT(uda50_file_open(&file, "no such file", false), UDA50_FILE_OPEN);
    EXPECT(uda50_file_open(&file, ".", true), UDA50_FILE_OPEN);
    EXPECT(uda50_file_open(&file, "/dev/null", false), UDA50_FILE_OPEN);
    calls[0] = '\0';
    EXPECT(mkfifo(fifo, 0600), 0);
    alarm(10);
    EXPECT(uda50_file_open(&file, fifo, true), UDA50_FILE_OPEN);
    CALLS("open:rcn close ");
    CLOSED();
    EXPECT(uda50_file_open(&file, fifo, false), UDA50_FILE_OPEN);
    alarm(0);
    CALLS("open:wcn close ");
}

/* What is returned for a file of this length while a map fails: the fault of the length comes first. */
static int fault_of(off_t length)
{
    make_file(length);
    return open_failing("map", ENOMEM, false);
}

static void lengths(void)
{
    off_t limit = (off_t)UDA50_MAX_BLOCKS * BLOCK;

    EXPECT(fault_of(BLOCK - 1), UDA50_FILE_LENGTH);
    EXPECT(fault_of(BLOCK + 1), UDA50_FILE_LENGTH);
    EXPECT(fault_of(limit + BLOCK), UDA50_FILE_TOO_LARGE);
    EXPECT(fault_of(limit + BLOCK + 1), UDA50_FILE_LENGTH);
    CALLS("open:wcn lock:alone close open:wcn lock:alone close open:wcn lock:alone close open:wcn lock:alone close ");
    CLOSED();
    EXPECT(fault_of(limit), UDA50_FILE_MAP);
    EXPECT(fault_of(BLOCK), UDA50_FILE_MAP);
    calls[0] = '\0';
    EXPECT(fault_of(0), UDA50_FILE_OK);
    EXPECT(file.image.length, 0);
    EXPECT(uda50_file_sync(&file), UDA50_FILE_OK);
    EXPECT(uda50_file_close(&file), UDA50_FILE_OK);
    CALLS("open:wcn lock:alone close ");
}

/* Another holder of the file: one that may write excludes all, and those that may not share it. */
static void locks(void)
{
    uda50_file other = { .length = 0 };

    make_file(BLOCK);
    EXPECT(uda50_file_open(&other, path, false), UDA50_FILE_OK);
    EXPECT(uda50_file_open(&file, path, false), UDA50_FILE_LOCKED);
    EXPECT(uda50_file_open(&file, path, true), UDA50_FILE_LOCKED);
    make_file(BLOCK + 1);
    EXPECT(uda50_file_open(&file, path, true), UDA50_FILE_LOCKED);
    make_file(BLOCK);
    EXPECT(uda50_file_close(&other), UDA50_FILE_OK);
    EXPECT(uda50_file_open(&other, path, true), UDA50_FILE_OK);
    EXPECT(uda50_file_open(&file, path, true), UDA50_FILE_OK);
    EXPECT(uda50_file_close(&file), UDA50_FILE_OK);
    EXPECT(uda50_file_open(&file, path, false), UDA50_FILE_LOCKED);
    EXPECT(uda50_file_close(&other), UDA50_FILE_OK);
    calls[0] = '\0';
}

static void failed_syncs(void)
{
    EXPECT(open_failing("", 0, false), UDA50_FILE_OK);
    failing = "sync";
    error = EIO;
    EXPECT(uda50_file_sync(&file), UDA50_FILE_SYNC);
    EXPECT(uda50_file_close(&file), UDA50_FILE_SYNC);
    CALLS("open:wcn lock:alone map:rw sync sync unmap close ");
    failing = "";
    CLOSED();
    EXPECT(open_failing("", 0, false), UDA50_FILE_OK);
    failing = "close";
    EXPECT(uda50_file_close(&file), UDA50_FILE_SYNC);
    CALLS("open:wcn lock:alone map:rw sync unmap close ");
    failing = "";
    CLOSED();
}

/* What is returned if the call that reserves fails in this way. */
static int fault_by(int with)
{
    int fault;

    failing = "reserve";
    error = with;
    errno = 0;
    fault = uda50_file_reserve(&file);
    failing = "";
    EXPECT(errno, with);
    CALLS("reserve:0+2048 ");
    return fault;
}

static void failed_reservations(void)
{
    static const int faults[] = { ENOSPC, EDQUOT, EFBIG, EIO, ENOMEM, EINVAL };

    for (size_t n = 0; n < sizeof faults / sizeof *faults; n++)
        EXPECT(fault_by(faults[n]), UDA50_FILE_ROOM);
    EXPECT(fault_by(EOPNOTSUPP), UDA50_FILE_NO_RESERVE);
    EXPECT(fault_by(ENOSYS), UDA50_FILE_NO_RESERVE);
}

/* Each signal that interrupts the call halves the next one, down to a block. */
static void interrupted_reservations(void)
{
    static const char *const wanted[] = {
        "reserve:0+2048 ",
        "reserve:0+2048 reserve:0+1024 reserve:1024+1024 ",
        "reserve:0+2048 reserve:0+1024 reserve:0+512 reserve:512+512 reserve:1024+512 reserve:1536+512 ",
        "reserve:0+2048 reserve:0+1024 reserve:0+512 reserve:0+512 reserve:512+512 reserve:1024+512 reserve:1536+512 ",
    };

    failing = "reserve";
    error = EINTR;
    for (int n = 0; n < 4; n++) {
        times = n;
        EXPECT(uda50_file_reserve(&file), UDA50_FILE_OK);
        CALLS(wanted[n]);
    }
    failing = "";
    times = -1;
}

/* The file and its map are as they were, and a unit may have the image. */
static void reservations(void)
{
    uda50 handle = { 0 };
    struct stat status;
    uint8_t *at;

    make_file(4 * BLOCK);
    EXPECT(open_failing("", 0, false), UDA50_FILE_OK);
    calls[0] = '\0';
    at = file.image.at;
    memset(at + BLOCK, 'r', BLOCK);
    interrupted_reservations();
    failed_reservations();
    EXPECT(uda50_new(&handle, true), UDA50_OK);
    EXPECT(uda50_file_attach(&handle, 0, &file), UDA50_OK);
    EXPECT(uda50_file_reserve(&file), UDA50_FILE_OK);
    CALLS("reserve:0+2048 ");
    EXPECT(uda50_detach(&handle, 0, &file.image), UDA50_OK);
    EXPECT(uda50_free(&handle, (uda50_image[UDA50_UNITS]){ { NULL, 0 } }), UDA50_OK);
    EXPECT(file.image.at == at && file.image.length == 4 * BLOCK, true);
    for (uint32_t n = 0; n < 4 * BLOCK; n++)
        EXPECT(at[n], n / BLOCK == 1 ? 'r' : 0);
    EXPECT(stat(path, &status) == 0 && status.st_size == 4 * BLOCK, true);
    EXPECT(uda50_file_close(&file), UDA50_FILE_OK);
    CALLS("sync unmap close ");
}

/* A file that is open for reading only, one without bytes, and a closed one. */
static void no_reservations(void)
{
    EXPECT(uda50_file_reserve(&file), UDA50_FILE_OK);
    CALLS("");
    EXPECT(open_failing("", 0, true), UDA50_FILE_OK);
    EXPECT(uda50_file_reserve(&file), UDA50_FILE_OK);
    EXPECT(uda50_file_close(&file), UDA50_FILE_OK);
    CALLS("open:rcn lock:shared map:r sync unmap close ");
    make_file(0);
    EXPECT(open_failing("", 0, false), UDA50_FILE_OK);
    EXPECT(uda50_file_reserve(&file), UDA50_FILE_OK);
    EXPECT(uda50_file_close(&file), UDA50_FILE_OK);
    CALLS("open:wcn lock:alone close ");
}

/* ---- files that are made longer ---- */

/* Makes a file of this length, and opens it to have `wanted` bytes at least. It is watched until it is closed. */
static int open_longer(off_t length, uint64_t wanted)
{
    make_file(length);
    free_length = (long)length;
    is_watched = true;
    memset(&file, 0x5a, sizeof file);
    errno = 0;
    return uda50_file_open_longer(&file, path, wanted);
}

/* From now on a call fails, after it has succeeded a number of times. */
static void fail(const char *call, int with, int after)
{
    failing = call;
    error = with;
    passing = after;
}

/* No call fails any more. The file is closed, isn't locked, and has this length. */
static void expect_free(long length, int line)
{
    failing = failing_too = "";
    is_watched = false;
    expect(is_free(), true, "free", line);
    expect((unsigned long)length_of(), (unsigned long)length, "the length", line);
    expect_closed(line);
}

#define FREE(length) expect_free(length, __LINE__)

/* From the call that makes it longer to the one that cuts it back, nobody else can lock the file. */
static void longer(void)
{
    static const long lengths[] = { 0, 1, BLOCK, SHORT, LONG - 1 };
    uint8_t got[LONG];
    char wanted[128];
    int descriptor;

    for (size_t n = 0; n < sizeof lengths / sizeof *lengths; n++) {
        EXPECT(open_longer(lengths[n], LONG), UDA50_FILE_OK);
        CALLS("open:wcn! lock:alone! length:2048 map:rw ");
        EXPECT(length_of(), LONG);
        EXPECT(file.image.at == file.map && file.image.length == LONG && file.before == (size_t)lengths[n], true);
        EXPECT(uda50_file_reserve(&file), UDA50_FILE_OK);
        memset(file.image.at, 'l', LONG);
        EXPECT(uda50_file_close_cut(&file), UDA50_FILE_OK);
        snprintf(wanted, sizeof wanted, "reserve:0+2048 sync unmap length:%ld close! ", lengths[n]);
        CALLS(wanted);
        FREE(lengths[n]);
        descriptor = __real_open(path, O_RDONLY);
        EXPECT(read(descriptor, got, LONG), lengths[n]);
        for (long k = 0; k < lengths[n]; k++)
            EXPECT(got[k], 'l');
        __real_close(descriptor);
    }
}

/* A plain close cuts nothing off, and no close does so after another program has changed the length. */
static void kept_longer(void)
{
    EXPECT(open_longer(SHORT, LONG), UDA50_FILE_OK);
    memset(file.image.at, 'l', LONG);
    free_length = LONG;
    calls[0] = '\0';
    EXPECT(uda50_file_close(&file), UDA50_FILE_OK);
    CALLS("sync unmap close! ");
    FREE(LONG);
    for (long other = LONG - BLOCK; other <= LONG + BLOCK; other += 2 * BLOCK) {
        EXPECT(open_longer(SHORT, LONG), UDA50_FILE_OK);
        EXPECT(truncate(path, other), 0);
        free_length = other;
        calls[0] = '\0';
        EXPECT(uda50_file_close_cut(&file), UDA50_FILE_OK);
        CALLS("sync unmap close! ");
        FREE(other);
    }
}

/* A file that isn't shorter stays as it is, and then a length that it doesn't get may be any number. */
static void not_longer(void)
{
    for (long length = LONG; length <= LONG + BLOCK; length += BLOCK)
        for (uint64_t wanted = LONG - 1; wanted <= LONG; wanted++) {
            EXPECT(open_longer(length, wanted), UDA50_FILE_OK);
            CALLS("open:wcn! lock:alone! map:rw ");
            EXPECT(file.image.length == (size_t)length && file.before == (size_t)length, true);
            EXPECT(uda50_file_close_cut(&file), UDA50_FILE_OK);
            CALLS("sync unmap close! ");
            FREE(length);
        }
}

/* The larger of both lengths counts. A file that is refused isn't made longer before. */
static void lengths_of_longer(void)
{
    const uint64_t limit = (uint64_t)UDA50_MAX_BLOCKS * BLOCK;
    const struct {
        uint64_t length, wanted;
        int fault;
    } cases[] = {
        { SHORT, LONG + 1, UDA50_FILE_LENGTH },
        { SHORT, SHORT, UDA50_FILE_LENGTH },
        { LONG + 1, LONG, UDA50_FILE_LENGTH },
        { SHORT, limit + BLOCK, UDA50_FILE_TOO_LARGE },
        { limit + BLOCK, LONG, UDA50_FILE_TOO_LARGE },
        { SHORT, limit + BLOCK + 1, UDA50_FILE_LENGTH },
        { SHORT, UINT64_MAX, UDA50_FILE_LENGTH },
        { SHORT, UINT64_MAX - BLOCK + 1, UDA50_FILE_TOO_LARGE },
    };

    for (size_t n = 0; n < sizeof cases / sizeof *cases; n++) {
        EXPECT(open_longer((off_t)cases[n].length, cases[n].wanted), cases[n].fault);
        CALLS("open:wcn! lock:alone! close! ");
        FREE((long)cases[n].length);
    }
    fail("map", ENOMEM, 0);
    EXPECT(open_longer(SHORT, limit), UDA50_FILE_MAP);
    CALLS("open:wcn! lock:alone! length:1099511627264 map:rw length:1000 close! ");
    FREE(SHORT);
}

/* Opens a short file while a call fails, after a number of successes. */
static void expect_failed_longer(const char *call, int with, int after, int fault, const char *wanted, int line)
{
    fail(call, with, after);
    stays_longer = fault == UDA50_FILE_CUT;
    expect((unsigned long)open_longer(SHORT, LONG), (unsigned long)fault, "the fault", line);
    expect_calls(wanted, line);
    if (fault == UDA50_FILE_ROOM || fault == UDA50_FILE_CUT)
        expect((unsigned long)errno, (unsigned long)with, "errno", line);
    expect_free(stays_longer ? LONG : SHORT, line);
    stays_longer = false;
}

#define FAILED(call, with, after, fault, wanted) expect_failed_longer(call, with, after, fault, wanted, __LINE__)

static void failed_longer(void)
{
    FAILED("open", EACCES, 0, UDA50_FILE_OPEN, "open:wcn! ");
    FAILED("lock", EWOULDBLOCK, 0, UDA50_FILE_LOCKED, "open:wcn! lock:alone! close! ");
    FAILED("look", EIO, 0, UDA50_FILE_OPEN, "open:wcn! look! close! ");
    FAILED("look", EIO, 1, UDA50_FILE_OPEN, "open:wcn! look! lock:alone! look close! ");
    FAILED("length", EFBIG, 0, UDA50_FILE_ROOM, "open:wcn! lock:alone! length:2048 close! ");
    failing_too = "close";
    FAILED("length", ENOSPC, 0, UDA50_FILE_ROOM, "open:wcn! lock:alone! length:2048 close! ");
    FAILED("map", ENOMEM, 0, UDA50_FILE_MAP, "open:wcn! lock:alone! length:2048 map:rw length:1000 close! ");
    failing_too = "map";
    FAILED("length", EPERM, 1, UDA50_FILE_CUT, "open:wcn! lock:alone! length:2048 map:rw length:1000 close! ");
    failing_too = "map";
    FAILED("look", EINTR, 2, UDA50_FILE_CUT, "open:wcn! look! lock:alone! look length:2048 map:rw look close! ");
    EXPECT(uda50_file_open_longer(&file, "no such file", LONG), UDA50_FILE_OPEN);
    EXPECT(access("no such file", F_OK), -1);
    EXPECT(uda50_file_open_longer(&file, ".", LONG), UDA50_FILE_OPEN);
    EXPECT(uda50_file_open_longer(&file, "/dev/null", LONG), UDA50_FILE_OPEN);
    alarm(10);
    EXPECT(uda50_file_open_longer(&file, fifo, LONG), UDA50_FILE_OPEN);
    alarm(0);
    CLOSED();
}

/* A close that cuts back, while a call fails. */
static void expect_failed_cut(const char *call, int with, int fault, const char *wanted, int line)
{
    expect((unsigned long)open_longer(SHORT, LONG), UDA50_FILE_OK, "the fault", line);
    calls[0] = '\0';
    free_length = fault == UDA50_FILE_CUT ? LONG : SHORT;
    fail(call, with, 0);
    expect((unsigned long)uda50_file_close_cut(&file), (unsigned long)fault, "the fault", line);
    expect_calls(wanted, line);
    if (fault == UDA50_FILE_CUT)
        expect((unsigned long)errno, (unsigned long)with, "errno", line);
    expect_free(free_length, line);
}

#define FAILED_CUT(call, with, fault, wanted) expect_failed_cut(call, with, fault, wanted, __LINE__)

/* The cut fails, and so does another call. */
static void failed_cut_and(const char *call, int with)
{
    EXPECT(open_longer(SHORT, LONG), UDA50_FILE_OK);
    calls[0] = '\0';
    free_length = LONG;
    fail("length", EPERM, 0);
    failing_too = call;
    EXPECT(uda50_file_close_cut(&file), UDA50_FILE_SYNC);
    EXPECT(errno, with);
    CALLS("sync unmap length:1000 close! ");
    FREE(LONG);
}

static void failed_cuts(void)
{
    FAILED_CUT("sync", EIO, UDA50_FILE_SYNC, "sync unmap length:1000 close! ");
    FAILED_CUT("length", EIO, UDA50_FILE_CUT, "sync unmap length:1000 close! ");
    FAILED_CUT("look", EIO, UDA50_FILE_CUT, "sync unmap look close! ");
    FAILED_CUT("close", EIO, UDA50_FILE_SYNC, "sync unmap length:1000 close! ");
    failed_cut_and("sync", EPERM);
    failed_cut_and("close", EIO);
    times = 2;
    fail("length", EINTR, 0);
    EXPECT(open_longer(SHORT, LONG), UDA50_FILE_OK);
    times = 2;
    EXPECT(uda50_file_close_cut(&file), UDA50_FILE_OK);
    times = -1;
    CALLS("open:wcn! lock:alone! length:2048 length:2048 length:2048 map:rw "
          "sync unmap length:1000 length:1000 length:1000 close! ");
    FREE(SHORT);
}

/* A file that somebody else has locked keeps its length. On a file system without locks it is made longer. */
static void locked_longer(void)
{
    int other;

    make_file(SHORT);
    other = __real_open(path, O_RDONLY);
    for (int n = 0; n < 2; n++) {
        EXPECT(__real_flock(other, (n == 0 ? LOCK_SH : LOCK_EX) | LOCK_NB), 0);
        EXPECT(open_longer(SHORT, LONG), UDA50_FILE_LOCKED);
        CALLS("open:wcn lock:alone close ");
        EXPECT(length_of(), SHORT);
    }
    __real_close(other);
    FREE(SHORT);
    make_file(SHORT);
    fail("lock", ENOLCK, 0);
    EXPECT(uda50_file_open_longer(&file, path, LONG), UDA50_FILE_OK);
    EXPECT(length_of(), LONG);
    EXPECT(uda50_file_close_cut(&file), UDA50_FILE_OK);
    FREE(SHORT);
}

/* With a length of 0 the call does what uda50_file_open does for writing, also if a call fails. */
static void as_plain_open(void)
{
    static const char *const failing_calls[] = { "", "open", "lock", "look", "map" };
    static const long lengths[] = { 0, BLOCK - 1, BLOCK, SHORT, LONG, (long)(UDA50_MAX_BLOCKS + 1l) * BLOCK };
    char wanted[sizeof calls];

    for (size_t n = 0; n < 30; n++)
        for (int after = 0; after < 2; after++) {
            uda50_file plain;
            int fault;

            make_file(lengths[n % 6]);
            fail(failing_calls[n / 6], EWOULDBLOCK, after);
            fault = uda50_file_open(&plain, path, false);
            strcpy(wanted, calls);
            calls[0] = '\0';
            failing = "";
            uda50_file_close(&plain);
            calls[0] = '\0';
            fail(failing_calls[n / 6], EWOULDBLOCK, after);
            EXPECT(uda50_file_open_longer(&file, path, 0), fault);
            CALLS(wanted);
            EXPECT(file.is_open, fault == UDA50_FILE_OK);
            EXPECT(file.image.length, fault == UDA50_FILE_OK ? (size_t)lengths[n % 6] : 0);
            failing = "";
            uda50_file_close_cut(&file);
            FREE(lengths[n % 6]);
        }
}

/* A file that wasn't made longer is closed as by uda50_file_close. */
static void as_plain_close(void)
{
    make_file(LONG);
    for (int read_only = 0; read_only < 2; read_only++) {
        EXPECT(uda50_file_open(&file, path, read_only), UDA50_FILE_OK);
        calls[0] = '\0';
        EXPECT(uda50_file_close_cut(&file), UDA50_FILE_OK);
        CALLS("sync unmap close ");
        EXPECT(uda50_file_close_cut(&file), UDA50_FILE_OK);
        CALLS("");
        FREE(LONG);
    }
}

static void texts(void)
{
    static const char *const wanted[] = {
        "done", "the file can't be opened", "the length is no multiple of 512",
        "the file has more than 2147483647 blocks",
        "the file can't be mapped", "what was written can't be written out", "the file is in use",
        "no room can be reserved", "the file system can't reserve room",
        "the file can't be cut back",
    };

    for (int fault = UDA50_FILE_OK; fault <= UDA50_FILE_CUT; fault++)
        EXPECT(strcmp(uda50_file_text(fault), wanted[fault]), 0);
}

int main(void)
{
    CLOSED();
    written_and_read();
    read_only();
    attached_file();
    large_file();
    failed_opens();
    lengths();
    locks();
    failed_syncs();
    reservations();
    no_reservations();
    longer();
    kept_longer();
    not_longer();
    lengths_of_longer();
    failed_longer();
    failed_cuts();
    locked_longer();
    as_plain_open();
    as_plain_close();
    texts();
    unlink(path);
    unlink(fifo);
    return ended();
}
