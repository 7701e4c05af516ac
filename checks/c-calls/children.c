/* children.c: what a child by fork keeps of a file that is open in its parent. It has the map and the lock too, until
   both processes have closed the file, or the child ends or executes a program. A child that cuts the file back shortens
   that of its parent. */
#define _POSIX_C_SOURCE 200809L
#include "guest.h"
#include "uda50_file.h"

#include <stdlib.h>
#include <sys/stat.h>
#include <sys/wait.h>
#include <unistd.h>

static const char path[] = "disk";
static uda50 handle;
static uda50_file file;
static uint64_t longer; /* the length to which the parent makes the file longer */
static int to_child[2], from_child[2];
static pid_t child;

/* ---- The child ---- */

static void keep(void)
{
}

static void write_byte(void)
{
    file.map[0] = 'c';
}

/* Closes the child's copy of the file. The unit that has the image is one of the child's copy of the controller. */
static void close_copy(void)
{
    uda50_image images[UDA50_UNITS] = { { NULL, 0 } };

    EXPECT(uda50_free(&handle, images), UDA50_OK);
    EXPECT(uda50_file_close(&file), UDA50_FILE_OK);
}

/* Does what a child never does. */
static void close_and_cut(void)
{
    uda50_image images[UDA50_UNITS] = { { NULL, 0 } };

    EXPECT(uda50_free(&handle, images), UDA50_OK);
    EXPECT(uda50_file_close_cut(&file), UDA50_FILE_OK);
}

static void execute(void)
{
    dup2(to_child[0], STDIN_FILENO);
    dup2(from_child[1], STDOUT_FILENO);
    execlp("cat", "cat", (char *)NULL);
}

/* Does something, and then returns each byte until there are no more. So does cat. */
static void be_child(void (*act)(void))
{
    char byte;

    close(to_child[1]);
    close(from_child[0]);
    act();
    while (read(to_child[0], &byte, 1) == 1 && write(from_child[1], &byte, 1) == 1)
        ;
    fflush(stdout);
    _exit(failures);
}

/* ---- The parent ---- */

/* Opens the file, attaches it, and starts a child. Returns when that has acted. */
static void start_child(void (*act)(void))
{
    char byte = 'b';

    EXPECT(uda50_file_open_longer(&file, path, longer), UDA50_FILE_OK);
    EXPECT(uda50_new(&handle, true), UDA50_OK);
    EXPECT(uda50_file_attach(&handle, 0, &file), UDA50_OK);
    EXPECT(pipe(to_child) == 0 && pipe(from_child) == 0, true);
    fflush(stdout);
    child = fork();
    if (child == 0)
        be_child(act);
    close(to_child[0]);
    close(from_child[1]);
    EXPECT(write(to_child[1], &byte, 1) == 1 && read(from_child[0], &byte, 1) == 1, true);
}

static void end_child(void)
{
    int status = 1;

    close(to_child[1]);
    close(from_child[0]);
    EXPECT(waitpid(child, &status, 0), child);
    EXPECT(status, 0);
}

static void close_file(void)
{
    uda50_image images[UDA50_UNITS] = { { NULL, 0 } };

    EXPECT(uda50_free(&handle, images), UDA50_OK);
    EXPECT(uda50_file_close(&file), UDA50_FILE_OK);
}

/* Returns what another open of the file returns. */
static int other_open(void)
{
    uda50_file other;
    int fault = uda50_file_open(&other, path, false);

    uda50_file_close(&other);
    return fault;
}

static off_t length_of(void)
{
    struct stat status;

    return stat(path, &status) == 0 ? status.st_size : -1;
}

int main(void)
{
    FILE *made = fopen(path, "wb");

    for (int n = 0; n < BLOCK && made != NULL; n++)
        fputc(0, made);
    EXPECT(made != NULL && fclose(made) == 0, true);
    alarm(60);

    start_child(keep);
    close_file();
    EXPECT(other_open(), UDA50_FILE_LOCKED);
    end_child();
    EXPECT(other_open(), UDA50_FILE_OK);

    start_child(write_byte);
    EXPECT(file.map[0], 'c');
    end_child();
    EXPECT(other_open(), UDA50_FILE_LOCKED);
    close_file();

    start_child(close_copy);
    EXPECT(other_open(), UDA50_FILE_LOCKED);
    EXPECT(status_of(&handle, (command){ SET_CONTROLLER, 0, 1, 0, 0 }), 0);
    EXPECT(status_of(&handle, (command){ ONLINE, 0, 2, 0, 0 }), 0);
    EXPECT(status_of(&handle, (command){ WRITE, 0, 3, BLOCK, 0 }), 0);
    close_file();
    EXPECT(other_open(), UDA50_FILE_OK);
    end_child();

    start_child(execute);
    close_file();
    EXPECT(other_open(), UDA50_FILE_OK);
    end_child();

    longer = 2 * BLOCK;
    start_child(close_copy);
    EXPECT(length_of(), 2 * BLOCK);
    end_child();
    EXPECT(uda50_free(&handle, (uda50_image[UDA50_UNITS]){ { NULL, 0 } }), UDA50_OK);
    EXPECT(uda50_file_close_cut(&file), UDA50_FILE_OK);
    EXPECT(length_of(), BLOCK);

    start_child(close_and_cut);
    EXPECT(length_of(), BLOCK); /* under the map of the parent */
    end_child();
    close_file();
    unlink(path);
    return ended();
}
