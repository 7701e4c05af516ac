/* uda50_file.h: files as images for uda50.h, by mapping them into memory. */
#ifndef UDA50_FILE_H
#define UDA50_FILE_H

#include "uda50.h"

#ifdef __cplusplus
extern "C" {
#endif

/* A file as an image. A struct of zeros is closed, and so is one after a call that closes it or a failed one that opens
   it. The program uses `image`, and doesn't write the other fields. */
typedef struct {
    uda50_image image; /* empty while a unit has it */
    uint8_t *map;      /* the whole file */
    size_t length;
    size_t before;     /* the length when it was opened, before it was made longer */
    int descriptor;
    bool is_open;
    bool read_only;
} uda50_file;

/* What these functions return, except uda50_file_attach. */
enum {
    UDA50_FILE_OK = 0,
    UDA50_FILE_OPEN = 1,       /* it can't be opened, or isn't a regular file */
    UDA50_FILE_LENGTH = 2,     /* its length is no multiple of 512 */
    UDA50_FILE_TOO_LARGE = 3,  /* it has more than UDA50_MAX_BLOCKS blocks */
    UDA50_FILE_MAP = 4,        /* it can't be mapped */
    UDA50_FILE_SYNC = 5,       /* what was written can't be written to the file, so it may be lost */
    UDA50_FILE_LOCKED = 6,     /* another program, or another uda50_file, has a lock that excludes this one */
    UDA50_FILE_ROOM = 7,       /* no room can be reserved, or it can't be made longer; errno is the system's reason */
    UDA50_FILE_NO_RESERVE = 8, /* its file system can't reserve room; errno is the system's reason */
    UDA50_FILE_CUT = 9         /* it can't be cut back, and stays longer; errno is the system's reason */
};

/* Opens a file and maps it: for reading only, if `read_only` is set, or else for reading and writing. While it is
   open nobody may shorten it: an access to a page that is missing ends the program by SIGBUS. A file without bytes
   opens, with an empty image.

   It takes the advisory lock (flock) that `uda run` takes: a shared one for reading only, or else an exclusive one.
   On a file system without locks it opens the file without one. It never waits for a lock. It overwrites what *file
   holds, so close an open one first. Returns UDA50_FILE_OK; or the first that holds of UDA50_FILE_OPEN,
   UDA50_FILE_LOCKED, UDA50_FILE_LENGTH, UDA50_FILE_TOO_LARGE and UDA50_FILE_MAP, and then *file is closed. */
int uda50_file_open(uda50_file *file, const char *path, bool read_only);

/* Opens a file for writing, as uda50_file_open does, and makes a shorter one `length` bytes long. It does so after it
   has taken the lock, and before it maps the file. The new bytes are a hole: uda50_file_reserve gives it room. A file
   that isn't shorter stays as it is, so with a `length` of 0 this is uda50_file_open.

   Only the larger of `length` and the file's own length must be right: a shorter file may have any length before.
   Returns UDA50_FILE_OK; or the first that holds of these:

   - UDA50_FILE_OPEN and UDA50_FILE_LOCKED, as uda50_file_open does;
   - UDA50_FILE_LENGTH: the larger length is no multiple of 512;
   - UDA50_FILE_TOO_LARGE: the larger length is one of more than UDA50_MAX_BLOCKS blocks;
   - UDA50_FILE_ROOM: the file can't be made longer; errno is the system's reason, such as EFBIG or ENOSPC;
   - UDA50_FILE_CUT: the file can't be mapped, and then can't be cut back; errno is the reason of the latter;
   - UDA50_FILE_MAP: the file can't be mapped, and is cut back before the lock is released.

   After each of them *file is closed. The file is as long as it was, except after UDA50_FILE_CUT. */
int uda50_file_open_longer(uda50_file *file, const char *path, uint64_t length);

/* Reserves the room of a file that is open for writing, also while a unit has the image. A hole is a part of a file
   without room on the disk: if the disk is full, a Write to it ends the program by SIGBUS. The bytes, the length and
   the map are as they were.

   Returns UDA50_FILE_OK, UDA50_FILE_NO_RESERVE or UDA50_FILE_ROOM. After UDA50_FILE_OK such a file has no hole;
   docs/C.md lists what can bring a SIGBUS all the same. After UDA50_FILE_NO_RESERVE the program decides whether to go
   on. After UDA50_FILE_ROOM a part of the room may be reserved. After these two errno is the system's reason. Does
   nothing to a file that is open for reading only, whose holes stay, or to a closed one, and returns UDA50_FILE_OK. */
int uda50_file_reserve(uda50_file *file);

/* Attaches the file's image to a unit, write-protected if the file was opened for reading only: a Write to a
   read-only map would end the program. Returns what uda50_attach does. */
uint32_t uda50_file_attach(uda50 *handle, uint32_t unit, uda50_file *file);

/* Writes what was written to the file, also while a unit has the image. Returns UDA50_FILE_OK or UDA50_FILE_SYNC. */
int uda50_file_sync(uda50_file *file);

/* Writes what was written to the file, unmaps it, closes it and so releases its lock. No unit may still have its
   image. Returns UDA50_FILE_OK or UDA50_FILE_SYNC; the file is closed in either case. Does nothing to a closed file,
   and returns UDA50_FILE_OK. */
int uda50_file_close(uda50_file *file);

/* Closes a file as uda50_file_close does. If uda50_file_open_longer made it longer, it cuts the file back to the length
   before: after it has unmapped the file, and before it releases the lock. What was written past that length is lost.
   It cuts nothing off if somebody else has changed the length since.

   A child by fork never calls it: it would shorten the file under its parent's map, and the parent may end by SIGBUS.

   Returns what uda50_file_close does, or UDA50_FILE_CUT if the file stays longer; then errno is the system's reason. If
   both faults happen, it returns UDA50_FILE_SYNC. The file is closed in each case. */
int uda50_file_close_cut(uda50_file *file);

/* Returns the text of a number of UDA50_FILE_OK to UDA50_FILE_CUT, such as "the file is in use". */
const char *uda50_file_text(int fault);

#ifdef __cplusplus
}
#endif

#endif
