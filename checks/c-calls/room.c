/* room.c: uda50_file_reserve on file systems that are full, or can't reserve room. In the current folder `small` is a
   tmpfs of 2 MB, and `bare` a ramfs. */
#define _GNU_SOURCE
#include "guest.h"
#include "uda50_file.h"

#include <errno.h>
#include <fcntl.h>
#include <sys/stat.h>
#include <unistd.h>

enum { ROOM = 2 << 20, PIECE = 16, BLOCKS = ROOM / 2 / BLOCK };

static const char rest[] = "small/rest";
static uda50_file file;

/* Makes a file that has only its second block. The rest are holes. */
static void make_sparse(const char *path, off_t length)
{
    static uint8_t block[BLOCK];
    int descriptor = open(path, O_RDWR | O_CREAT | O_TRUNC, 0600);

    memset(block, 's', sizeof block);
    EXPECT(ftruncate(descriptor, length), 0);
    EXPECT(pwrite(descriptor, block, sizeof block, BLOCK), BLOCK);
    close(descriptor);
}

static void expect_sparse(const char *path, off_t length, int line)
{
    uint8_t block[3 * BLOCK] = { 0 };
    int descriptor = open(path, O_RDONLY);
    struct stat status;

    expect(fstat(descriptor, &status) == 0 && status.st_size == length, true, "the length", line);
    expect(read(descriptor, block, sizeof block) == (ssize_t)sizeof block, true, "read", line);
    for (uint32_t n = 0; n < sizeof block; n++)
        expect(block[n], n / BLOCK == 1 ? 's' : 0, "a byte", line);
    close(descriptor);
}

#define SPARSE(path, length) expect_sparse(path, length, __LINE__)

/* How many bytes a file takes on the disk. */
static unsigned long room_of(const char *path)
{
    struct stat status;

    return stat(path, &status) == 0 ? 512ul * (unsigned long)status.st_blocks : 0;
}

/* Fills what room there is on the tmpfs with a file. */
static void fill(void)
{
    static uint8_t page[4096];
    int descriptor = open(rest, O_WRONLY | O_CREAT | O_TRUNC, 0600);
    ssize_t written;

    do
        written = write(descriptor, page, sizeof page);
    while (written > 0);
    EXPECT(written == -1 && errno == ENOSPC, true);
    close(descriptor);
}

/* There is too little room: length and bytes stay, and the file can be opened again. */
static void too_little_room(void)
{
    static const char path[] = "small/large";

    make_sparse(path, 2 * ROOM);
    EXPECT(uda50_file_open(&file, path, false), UDA50_FILE_OK);
    errno = 0;
    EXPECT(uda50_file_reserve(&file), UDA50_FILE_ROOM);
    EXPECT(errno, ENOSPC);
    EXPECT(uda50_file_close(&file), UDA50_FILE_OK);
    SPARSE(path, 2 * ROOM);
    EXPECT(uda50_file_open(&file, path, false), UDA50_FILE_OK);
    EXPECT(uda50_file_close(&file), UDA50_FILE_OK);
    unlink(path);
}

/* The guest writes each block of unit 0, or reads it and finds what it wrote. */
static void transfer(uda50 *handle, uint8_t opcode)
{
    for (uint32_t lbn = 0; lbn < BLOCKS; lbn += PIECE) {
        memset(memory + BUFFER, opcode == WRITE ? (int)(lbn / PIECE) + 1 : 0, PIECE * BLOCK);
        EXPECT(status_of(handle, (command){ opcode, 0, 3 + lbn, PIECE * BLOCK, lbn }), 0);
        for (uint32_t n = 0; n < PIECE * BLOCK; n++)
            EXPECT(memory[BUFFER + n], (uint8_t)(lbn / PIECE + 1));
    }
}

/* There is room. Then the file system is filled, and the guest writes each block. */
static void enough_room(void)
{
    static const char path[] = "small/disk";
    uda50_image images[UDA50_UNITS] = { { NULL, 0 } };
    uda50 handle = { 0 };

    make_sparse(path, ROOM / 2);
    EXPECT(uda50_file_open(&file, path, false), UDA50_FILE_OK);
    EXPECT(uda50_new(&handle, true), UDA50_OK);
    EXPECT(uda50_file_attach(&handle, 0, &file), UDA50_OK);
    EXPECT(uda50_file_reserve(&file), UDA50_FILE_OK);
    SPARSE(path, ROOM / 2);
    EXPECT(room_of(path), ROOM / 2);
    fill();
    EXPECT(status_of(&handle, (command){ SET_CONTROLLER, 0, 1, 0, 0 }), 0);
    EXPECT(status_of(&handle, (command){ ONLINE, 0, 2, 0, 0 }), 0);
    transfer(&handle, WRITE);
    EXPECT(uda50_file_sync(&file), UDA50_FILE_OK);
    transfer(&handle, READ);
    EXPECT(uda50_file_reserve(&file), UDA50_FILE_OK);
    EXPECT(uda50_free(&handle, images), UDA50_OK);
    EXPECT(uda50_file_close(&file), UDA50_FILE_OK);
    unlink(rest);
    unlink(path);
}

/* The holes of a file that is only read stay. */
static void only_read(void)
{
    static const char path[] = "small/disk";
    unsigned long room;

    make_sparse(path, ROOM / 2);
    room = room_of(path);
    EXPECT(room < ROOM / 2, true);
    EXPECT(uda50_file_open(&file, path, true), UDA50_FILE_OK);
    EXPECT(uda50_file_reserve(&file), UDA50_FILE_OK);
    EXPECT(room_of(path), room);
    EXPECT(uda50_file_close(&file), UDA50_FILE_OK);
    unlink(path);
}

/* A file system that can't reserve room says so, and the file can be used. */
static void no_reservation(void)
{
    static const char path[] = "bare/disk";

    make_sparse(path, ROOM / 2);
    EXPECT(uda50_file_open(&file, path, false), UDA50_FILE_OK);
    errno = 0;
    EXPECT(uda50_file_reserve(&file), UDA50_FILE_NO_RESERVE);
    EXPECT(errno, EOPNOTSUPP);
    SPARSE(path, ROOM / 2);
    memset(file.image.at, 0, 4 * BLOCK);
    memset(file.image.at + BLOCK, 's', BLOCK);
    EXPECT(uda50_file_close(&file), UDA50_FILE_OK);
    SPARSE(path, ROOM / 2);
    unlink(path);
}

int main(void)
{
    too_little_room();
    enough_room();
    only_read();
    no_reservation();
    return ended();
}
