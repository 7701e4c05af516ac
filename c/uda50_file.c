/* uda50_file.c: files as images, by mapping them. See uda50_file.h. */
#define _GNU_SOURCE /* for fallocate, which is Linux's */
#include "uda50_file.h"

#include <errno.h>
#include <fcntl.h>
#include <sys/file.h>
#include <sys/mman.h>
#include <sys/stat.h>
#include <unistd.h>

enum { BLOCK = 512 };

static const uda50_file closed;

/* Takes the lock of an open regular file. */
static int lock(const uda50_file *file)
{
    struct stat status;

    if (fstat(file->descriptor, &status) != 0 || !S_ISREG(status.st_mode))
        return UDA50_FILE_OPEN;
    if (flock(file->descriptor, (file->read_only ? LOCK_SH : LOCK_EX) | LOCK_NB) != 0 && errno == EWOULDBLOCK)
        return UDA50_FILE_LOCKED;
    return UDA50_FILE_OK;
}

/* Sets the length of a file. A signal doesn't end that. Returns whether it is done; if not, errno is the reason. */
static bool set_length(const uda50_file *file, size_t length)
{
    int result;

    do
        result = ftruncate(file->descriptor, (off_t)length);
    while (result != 0 && errno == EINTR);
    return result == 0;
}

/* Cuts a file back that was made this long and has no map, unless its length has changed. Returns false if a call
   fails; then errno is the reason. */
static bool cut_back(const uda50_file *file, size_t length)
{
    struct stat status;

    if (file->before == length)
        return true;
    if (fstat(file->descriptor, &status) != 0)
        return false;
    return status.st_size != (off_t)length || set_length(file, file->before);
}

/* Maps a locked file, and makes a shorter one this long before. A file without bytes has no map. */
static int map(uda50_file *file, uint64_t length)
{
    int access = file->read_only ? PROT_READ : PROT_READ | PROT_WRITE;
    struct stat status;
    void *at;

    if (fstat(file->descriptor, &status) != 0)
        return UDA50_FILE_OPEN;
    file->before = (size_t)status.st_size;
    if (length < file->before)
        length = file->before;
    if (length % BLOCK != 0)
        return UDA50_FILE_LENGTH;
    if (length / BLOCK > UDA50_MAX_BLOCKS)
        return UDA50_FILE_TOO_LARGE;
    if (length != file->before && !set_length(file, (size_t)length))
        return UDA50_FILE_ROOM;
    if (length == 0)
        return UDA50_FILE_OK;
    at = mmap(NULL, (size_t)length, access, MAP_SHARED, file->descriptor, 0);
    if (at == MAP_FAILED)
        return cut_back(file, (size_t)length) ? UDA50_FILE_MAP : UDA50_FILE_CUT;
    file->map = at;
    file->length = (size_t)length;
    file->image.at = file->map;
    file->image.length = file->length;
    return UDA50_FILE_OK;
}

/* Opens a file for either call that does. After UDA50_FILE_ROOM and UDA50_FILE_CUT errno is the system's reason, also if
   the close fails. */
static int begin(uda50_file *file, const char *path, uint64_t length, bool read_only)
{
    /* O_NONBLOCK is for a FIFO, which is refused afterwards; a regular file is the same with it. */
    int flags = (read_only ? O_RDONLY : O_RDWR) | O_CLOEXEC | O_NONBLOCK | O_NOCTTY;
    int fault;

    *file = closed;
    file->descriptor = open(path, flags);
    if (file->descriptor < 0)
        return UDA50_FILE_OPEN;
    file->is_open = true;
    file->read_only = read_only;
    fault = lock(file);
    if (fault == UDA50_FILE_OK)
        fault = map(file, length);
    if (fault != UDA50_FILE_OK) {
        int reason = errno;

        close(file->descriptor);
        *file = closed;
        errno = reason;
    }
    return fault;
}

int uda50_file_open(uda50_file *file, const char *path, bool read_only)
{
    return begin(file, path, 0, read_only);
}

int uda50_file_open_longer(uda50_file *file, const char *path, uint64_t length)
{
    return begin(file, path, length, false);
}

/* The first call asks for all of the file, since most file systems undo a call that fails. Each signal halves what the
   next call asks for, so that one of them ends between two signals. */
int uda50_file_reserve(uda50_file *file)
{
    off_t length = file->read_only ? 0 : (off_t)file->length;
    off_t piece = length;

    for (off_t from = 0; from < length;) {
        if (piece > length - from)
            piece = length - from;
        if (fallocate(file->descriptor, 0, from, piece) == 0)
            from += piece;
        else if (errno == EOPNOTSUPP || errno == ENOSYS)
            return UDA50_FILE_NO_RESERVE;
        else if (errno != EINTR)
            return UDA50_FILE_ROOM;
        else if (piece > BLOCK)
            piece /= 2;
    }
    return UDA50_FILE_OK;
}

uint32_t uda50_file_attach(uda50 *handle, uint32_t unit, uda50_file *file)
{
    return uda50_attach(handle, unit, &file->image, file->read_only);
}

int uda50_file_sync(uda50_file *file)
{
    if (file->length != 0 && msync(file->map, file->length, MS_SYNC) != 0)
        return UDA50_FILE_SYNC;
    return UDA50_FILE_OK;
}

/* Closes a file for either call that does. After UDA50_FILE_CUT errno is the system's reason. */
static int end(uda50_file *file, bool cuts)
{
    int fault = uda50_file_sync(file);
    int reason;

    if (!file->is_open)
        return UDA50_FILE_OK;
    if (file->length != 0)
        munmap(file->map, file->length);
    if (cuts && !cut_back(file, file->length) && fault == UDA50_FILE_OK)
        fault = UDA50_FILE_CUT;
    reason = errno;
    if (close(file->descriptor) != 0)
        fault = UDA50_FILE_SYNC;
    else
        errno = reason;
    *file = closed;
    return fault;
}

int uda50_file_close(uda50_file *file)
{
    return end(file, false);
}

int uda50_file_close_cut(uda50_file *file)
{
    return end(file, true);
}

const char *uda50_file_text(int fault)
{
    switch (fault) {
    case UDA50_FILE_OK:
        return "done";
    case UDA50_FILE_OPEN:
        return "the file can't be opened";
    case UDA50_FILE_LENGTH:
        return "the length is no multiple of 512";
    case UDA50_FILE_TOO_LARGE:
        return "the file has more than 2147483647 blocks";
    case UDA50_FILE_MAP:
        return "the file can't be mapped";
    case UDA50_FILE_LOCKED:
        return "the file is in use";
    case UDA50_FILE_ROOM:
        return "no room can be reserved";
    case UDA50_FILE_NO_RESERVE:
        return "the file system can't reserve room";
    case UDA50_FILE_CUT:
        return "the file can't be cut back";
    default:
        return "what was written can't be written out";
    }
}
