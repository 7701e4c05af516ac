/* threads.c: two threads, each with a handle, a file and a guest of its own. Each works alone first, and then both at
   once. What both did alone they must do together: the result of a thread is a sum of its trace, states, images and
   memory.

   It is linked with --wrap of each system call of c/uda50_file.c. With the argument `lockstep` no thread returns from
   such a call before the other has made its own. So a variable that the two would share has the other's value.
   Usage: threads [lockstep] */
#define _POSIX_C_SOURCE 200809L
#define PER_THREAD __thread
#include "guest.h"
#include "uda50_file.h"

#include <pthread.h>
#include <stdlib.h>
#include <sys/mman.h>
#include <sys/stat.h>
#include <unistd.h>

enum { THREADS = 2, ROUNDS = 100 };

/* A thread: what it works on, and its result. */
typedef struct {
    uda50 handle;
    const char *path;
    uint32_t number, blocks;
    uint64_t sum;
} worker;

/* ---- Lockstep ---- */

static pthread_barrier_t step;
static bool in_lockstep;

static void meet(void)
{
    if (in_lockstep)
        pthread_barrier_wait(&step);
}

#define IN_LOCKSTEP(result, call, parameters, arguments) \
    result __real_##call parameters;                     \
    result __wrap_##call parameters;                     \
    result __wrap_##call parameters                      \
    {                                                    \
        result it = __real_##call arguments;             \
                                                         \
        meet();                                          \
        return it;                                       \
    }

IN_LOCKSTEP(int, open, (const char *path, int flags, ...), (path, flags))
IN_LOCKSTEP(int, close, (int descriptor), (descriptor))
IN_LOCKSTEP(int, flock, (int descriptor, int operation), (descriptor, operation))
IN_LOCKSTEP(int, fstat, (int descriptor, struct stat *status), (descriptor, status))
IN_LOCKSTEP(void *, mmap, (void *at, size_t length, int access, int flags, int descriptor, off_t from),
            (at, length, access, flags, descriptor, from))
IN_LOCKSTEP(int, munmap, (void *at, size_t length), (at, length))
/* MS_ASYNC instead of MS_SYNC, so that the test doesn't wait for the disk. */
IN_LOCKSTEP(int, msync, (void *at, size_t length, int flags), (at, length, flags == MS_SYNC ? MS_ASYNC : flags))

/* ---- Work ---- */

/* Adds bytes to the sum of a thread. */
static void add(worker *it, const uint8_t *bytes, size_t length)
{
    for (size_t n = 0; n < length; n++)
        it->sum = (it->sum ^ bytes[n]) * 1099511628211u;
}

/* A guest writes and reads blocks, of which each round and each thread has others. A file that is open for reading only
   is write-protected. */
static void use(worker *it, uint32_t round, bool read_only)
{
    uint16_t unit = (uint16_t)((it->number + round) % UDA50_UNITS);
    uint32_t lbn = round % (it->blocks - 1);

    EXPECT(status_of(&it->handle, (command){ SET_CONTROLLER, 0, 1, 0, 0 }), 0);
    EXPECT(status_of(&it->handle, (command){ ONLINE, unit, 2, 0, 0 }), 0);
    memset(memory + BUFFER, (int)(100 * it->number + round), 2 * BLOCK);
    EXPECT(status_of(&it->handle, (command){ WRITE, unit, 3, 2 * BLOCK, lbn }), read_only ? 0x2006 : 0);
    EXPECT(status_of(&it->handle, (command){ READ, unit, 4, 2 * BLOCK, (lbn + 3) % (it->blocks - 1) }), 0);
}

/* One round, from the open of the file to its close. */
static void play(worker *it, uint32_t round)
{
    bool read_only = (it->number + round) % 2 == 1;
    uint32_t unit = (it->number + round) % UDA50_UNITS;
    uint8_t state[UDA50_STATE_LENGTH], text[96] = { 0 };
    uda50_file file;

    EXPECT(uda50_file_open(&file, it->path, read_only), UDA50_FILE_OK);
    EXPECT(file.image.length, it->blocks * BLOCK);
    EXPECT(uda50_file_attach(&it->handle, unit, &file), UDA50_OK);
    if (failures != 0)
        return;
    use(it, round, read_only);
    EXPECT(uda50_file_sync(&file), UDA50_FILE_OK);
    EXPECT(uda50_format_last_turn(&it->handle, text, sizeof text), UDA50_OK);
    EXPECT(uda50_save(&it->handle, state, sizeof state), UDA50_OK);
    EXPECT(uda50_detach(&it->handle, unit, &file.image), UDA50_OK);
    add(it, text, sizeof text);
    add(it, state, sizeof state);
    add(it, memory, SIZE);
    add(it, file.image.at, file.image.length);
    EXPECT(uda50_file_close(&file), UDA50_FILE_OK);
}

static void *work(void *given)
{
    worker *it = given;

    failures = 0;
    for (uint32_t round = 0; round < ROUNDS && failures == 0; round++)
        play(it, round);
    if (failures != 0)
        exit(ended()); /* in lockstep the other thread waits for this one */
    return NULL;
}

/* ---- Threads ---- */

/* Makes a thread's file anew, and its handle. */
static void make(worker *it)
{
    static const uint8_t block[BLOCK] = { 0 };
    FILE *file = fopen(it->path, "wb");

    for (uint32_t n = 0; n < it->blocks && file != NULL; n++)
        EXPECT(fwrite(block, BLOCK, 1, file), 1);
    EXPECT(file != NULL && fclose(file) == 0, true);
    it->sum = 14695981039346656037u;
    EXPECT(uda50_new(&it->handle, true), UDA50_OK);
}

/* Runs some of the threads at once: their handles come from this one, and go back to it. */
static void run(worker *first, int count)
{
    pthread_t threads[THREADS];

    for (int n = 0; n < count; n++) {
        make(&first[n]);
        EXPECT(pthread_create(&threads[n], NULL, work, &first[n]), 0);
    }
    for (int n = 0; n < count; n++) {
        uda50_image images[UDA50_UNITS] = { { NULL, 0 } };

        EXPECT(pthread_join(threads[n], NULL), 0);
        EXPECT(uda50_free(&first[n].handle, images), UDA50_OK);
    }
}

int main(int count, char **arguments)
{
    worker workers[THREADS] = { { { NULL }, "disk0", 0, 3, 0 }, { { NULL }, "disk1", 1, 8, 0 } };
    uint64_t alone[THREADS];

    alarm(120);
    for (int n = 0; n < THREADS; n++) {
        run(&workers[n], 1);
        alone[n] = workers[n].sum;
    }
    in_lockstep = count > 1 && strcmp(arguments[1], "lockstep") == 0;
    EXPECT(pthread_barrier_init(&step, NULL, THREADS), 0);
    run(workers, THREADS);
    for (int n = 0; n < THREADS; n++) {
        EXPECT(workers[n].sum, alone[n]);
        unlink(workers[n].path);
    }
    return ended();
}
