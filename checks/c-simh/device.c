/* device.c: tests examples/simh/pdp11_uda50.c without SIMH, of which pdp11_defs.h here has what that file uses:
   which unit is booted, a state that doesn't fit, a change of the bus, files that are locked or have no room, and files
   whose blocks fail, with the UNIBUS map off and on. It is linked with --wrap of the system calls by which a file is
   locked, made longer, mapped, written out and closed. After each of them in an attach, another open file description tries to lock
   the file.
   Usage: device [full]    with `full`, ./small is a tmpfs of 2 MB, and ./bare a ramfs */
#include "pdp11_defs.h"
#undef printf
#undef perror

#include "../c-calls/guest.h"
#include "rq_bootrom.h"

#include <errno.h>
#include <fcntl.h>
#include <stdarg.h>
#include <sys/file.h>
#include <sys/mman.h>
#include <sys/stat.h>
#include <unistd.h>

enum { WORDS = 0100000, RING = 02000, MESSAGE = 02104, COMMAND = 02304, DATA = 04000, WRITE_LIMIT = 32 };
enum { RX50 = 409600, QBUS = 2, LOCKED = 1 << UNIT_V_UF, MMAP = 2 << UNIT_V_UF, PROTECTED = 6, STATE_UNIT = 7 };
enum { DRIVE_ERROR = 0x0b, PAGE = 8192 };

extern DEVICE rq_dev, rqb_dev;
t_stat rq_rd(int32 *data, int32 address, int32 access);
t_stat rq_wr(int32 data, int32 address, int32 access);
t_stat rq_set_type(UNIT *unit, int32 type, char *text, void *desc);
t_stat rq_set_mmap(UNIT *unit, int32 mapped, char *text, void *desc);

/* ---- SIMH's part ---- */

static uint16 words[WORDS];
uint16 *M = words;
uint32 cpu_bme, cpu_opt = BUS_U;
int32 ub_map[31]; /* the map, which is off at first */
t_addr cpu_memsize = 2 * WORDS;
int32 int_req[IPL_HLVL], tmr_poll = 1, clk_tps = 60, saved_PC, sim_switches;
UNIT cpu_unit;
FILE *sim_deb;
static char printed[512];

int print_line(const char *format, ...)
{
    size_t length = strlen(printed);
    va_list list;
    int count;

    va_start(list, format);
    count = vsnprintf(printed + length, sizeof printed - length, format, list);
    va_end(list);
    return count;
}

static FILE *open_failing(void); /* see below */
static char failing[] = "failing";

t_stat attach_unit(UNIT *unit, char *path)
{
    unit->fileref = path == failing ? open_failing() : fopen(path, "rb+");
    if (unit->fileref == NULL)
        unit->fileref = fopen(path, "wb+");
    if (unit->fileref == NULL)
        return SCPE_OPENERR;
    unit->filename = path;
    unit->flags |= UNIT_ATT;
    return SCPE_OK;
}

t_stat detach_unit(UNIT *unit)
{
    if ((unit->flags & UNIT_ATT) == 0)
        return SCPE_OK;
    unit->flags &= ~(uint32)(UNIT_ATT | UNIT_RO);
    return fclose(unit->fileref) == 0 ? SCPE_OK : SCPE_IOERR;
}

int32 sim_is_active(UNIT *unit)
{
    return unit->time;
}

t_stat sim_activate(UNIT *unit, int32 time)
{
    unit->time = time;
    return SCPE_OK;
}

t_stat sim_cancel(UNIT *unit)
{
    unit->time = 0;
    return SCPE_OK;
}

t_stat auto_config(char *name, int32 count)
{
    return SCPE_OK;
}

t_stat set_addr(UNIT *unit, int32 value, char *text, void *desc)
{
    return SCPE_NOFNC;
}

t_stat set_addr_flt(UNIT *unit, int32 value, char *text, void *desc)
{
    return SCPE_NOFNC;
}

t_stat show_addr(FILE *to, UNIT *unit, int32 value, void *desc)
{
    return SCPE_NOFNC;
}

t_stat show_vec(FILE *to, UNIT *unit, int32 value, void *desc)
{
    return SCPE_NOFNC;
}

t_value get_uint(char *text, uint32 radix, t_value limit, t_stat *status)
{
    *status = SCPE_ARG;
    return 0;
}

/* Lets the events of a device happen until none is due. Returns how many of them end with an I/O error. */
static uint32 settle(DEVICE *device)
{
    bool found = true;
    uint32 count = 0;

    for (int round = 0; found && round < 1000; round++) {
        found = false;
        for (uint32 n = 0; n < device->count; n++) {
            UNIT *unit = device->units + n;

            if (unit->time == 0)
                continue;
            found = true;
            unit->time = 0;
            count += unit->action(unit) == SCPE_IOERR;
        }
    }
    EXPECT(found, false);
    return count;
}

/* ---- the guest's part ---- */

static int32 register_of(DEVICE *device, int32 offset)
{
    return (int32)((DIB *)device->ctxt)->ba + offset;
}

static void start_up(DEVICE *device)
{
    static const int32 steps[] = { 0100000, RING, 0, 1 };
    int32 sa = -1;

    EXPECT(rq_wr(0, register_of(device, 0), 0), SCPE_OK);
    for (int n = 0; n < 4; n++) {
        EXPECT(rq_wr(steps[n], register_of(device, 2), 0), SCPE_OK);
        EXPECT(settle(device), 0);
    }
    EXPECT(rq_rd(&sa, register_of(device, 2), 0), SCPE_OK);
    EXPECT(sa, 0);
}

/* The words of the guest's memory from a bus address on. While the map is on, each page leads to the next one. */
static uint16 *at_bus(uint32 at)
{
    return M + (at + (cpu_bme ? PAGE : 0)) / 2;
}

static void put(uint32 at, uint32 number)
{
    at_bus(at)[0] = (uint16)number;
    at_bus(at)[1] = (uint16)(number >> 16);
}

static uint32 errors; /* I/O errors of the last command */

/* Executes a command over rings of one. Returns the status of its end message. */
static uint32 executed(DEVICE *device, command c)
{
    int32 ip;

    memset(at_bus(COMMAND), 0, 48);
    put(MESSAGE - 4, 48);
    put(COMMAND - 4, 48);
    put(COMMAND, c.reference);
    put(COMMAND + 4, c.unit);
    put(COMMAND + 8, c.opcode);
    put(COMMAND + 12, c.bytes);
    put(COMMAND + 16, DATA);
    put(COMMAND + 28, c.lbn);
    put(RING, MESSAGE | 0x80000000);
    put(RING + 4, COMMAND | 0x80000000);
    EXPECT(rq_rd(&ip, register_of(device, 0), 0), SCPE_OK);
    errors = settle(device);
    EXPECT(at_bus(MESSAGE)[0], c.reference);
    return at_bus(MESSAGE)[5];
}

/* Brings a unit online and writes the first blocks, 32 at a time. Returns the status of the last Write. */
static uint32 written(DEVICE *device, uint16 unit, uint32 blocks)
{
    uint32 status = 0;

    start_up(device);
    EXPECT(executed(device, (command){ ONLINE, unit, 1, 0, 0 }), 0);
    for (uint32 lbn = 0; lbn < blocks && status == 0; lbn += WRITE_LIMIT) {
        memset(at_bus(DATA), (int)(lbn / WRITE_LIMIT) + 1, WRITE_LIMIT * BLOCK);
        status = executed(device, (command){ WRITE, unit, 2 + lbn, WRITE_LIMIT * BLOCK, lbn });
    }
    return status;
}

/* ---- the user's part ---- */

static void make_file(const char *path, off_t length)
{
    int descriptor = open(path, O_RDWR | O_CREAT | O_TRUNC, 0600);

    EXPECT(ftruncate(descriptor, length), 0);
    close(descriptor);
}

static long length_of(const char *path)
{
    struct stat status;

    return stat(path, &status) == 0 ? (long)status.st_size : -1;
}

/* Compares what the device has printed since the last comparison. */
static void expect_printed(const char *wanted, int line)
{
    if (strcmp(printed, wanted) != 0) {
        printf("line %d: \"%s\" is printed and not \"%s\"\n", line, printed, wanted);
        failures++;
    }
    printed[0] = '\0';
}

#define PRINTED(wanted) expect_printed(wanted, __LINE__)

/* How the files of the first controller's drives are reached. */
static void set_way(uint32 flag)
{
    for (int n = 0; n < UDA50_UNITS; n++)
        rq_dev.units[n].flags = (rq_dev.units[n].flags & ~(uint32)MMAP) | flag;
}

/* ---- system calls ---- */

int __real_close(int descriptor), __wrap_close(int descriptor);
int __real_flock(int descriptor, int operation), __wrap_flock(int descriptor, int operation);
int __real_ftruncate(int descriptor, off_t length), __wrap_ftruncate(int descriptor, off_t length);
int __real_fallocate(int descriptor, int mode, off_t from, off_t length);
int __wrap_fallocate(int descriptor, int mode, off_t from, off_t length);
void *__real_mmap(void *at, size_t length, int access, int flags, int descriptor, off_t from);
void *__wrap_mmap(void *at, size_t length, int access, int flags, int descriptor, off_t from);
int __real_msync(void *at, size_t length, int flags), __wrap_msync(void *at, size_t length, int flags);

static const char *watched_path; /* while an attach goes on */
static long watched_length;
static bool map_fails, reserve_fails, sync_fails;
static int failing_length; /* which of the next calls that set a length fails, or 0 */

/* Looks at the file of an attach after a call: if another program can lock it now, it must be as long as it was.
   Returns the result of the call, and leaves errno. */
static int seen(int result)
{
    int reason = errno, other = watched_path == NULL ? -1 : open(watched_path, O_RDWR);

    if (other >= 0) {
        if (__real_flock(other, LOCK_EX | LOCK_NB) == 0)
            EXPECT(length_of(watched_path), watched_length);
        __real_close(other);
    }
    errno = reason;
    return result;
}

int __wrap_close(int descriptor)
{
    return seen(__real_close(descriptor));
}

int __wrap_flock(int descriptor, int operation)
{
    return seen(__real_flock(descriptor, operation));
}

int __wrap_ftruncate(int descriptor, off_t length)
{
    errno = EFBIG;
    return seen(failing_length > 0 && --failing_length == 0 ? -1 : __real_ftruncate(descriptor, length));
}

int __wrap_fallocate(int descriptor, int mode, off_t from, off_t length)
{
    errno = ENOSPC;
    return seen(reserve_fails ? -1 : __real_fallocate(descriptor, mode, from, length));
}

void *__wrap_mmap(void *at, size_t length, int access, int flags, int descriptor, off_t from)
{
    void *map = map_fails ? MAP_FAILED : __real_mmap(at, length, access, flags, descriptor, from);

    seen(0);
    return map;
}

int __wrap_msync(void *at, size_t length, int flags)
{
    errno = EIO;
    return seen(sync_fails ? -1 : __real_msync(at, length, flags));
}

/* ---- attaches ---- */

static t_stat watched_attach(UNIT *unit, DEVICE *device, char *path)
{
    t_stat status;

    watched_path = path;
    watched_length = length_of(path) < 0 ? 0 : length_of(path);
    status = device->attach(unit, path);
    watched_path = NULL;
    return status;
}

#define NO_ROOM "RQ: no room can be reserved: "
#define FULL NO_ROOM "No space left on device\n"
#define NOT_SAVED "RQ: what was written can't be written out\n"

static const char no_reservations[] = "RQ: the file system can't reserve room\n";

/* Attaches a file. The file system of the current folder may be one that can't reserve room. */
static void attach(DEVICE *device, int number, char *path)
{
    EXPECT(rq_set_type(device->units + number, UDA50_RX50, NULL, NULL), SCPE_OK);
    EXPECT(watched_attach(device->units + number, device, path), SCPE_OK);
    if (strcmp(printed, no_reservations) == 0)
        printed[0] = '\0';
    PRINTED("");
}

/* An attach is refused. Then no descriptor is left, and the file is as long as it was, and not locked. */
static void expect_refused(DEVICE *device, char *path, long length, int line)
{
    int next = open(".", O_RDONLY), descriptor;

    close(next);
    expect((unsigned long)watched_attach(device->units, device, path), SCPE_OPENERR, "the attach", line);
    expect(device->units->flags & UNIT_ATT, 0, "attached", line);
    expect((unsigned long)length_of(path), (unsigned long)length, "the length", line);
    descriptor = open(path, O_RDWR);
    expect((unsigned long)descriptor, (unsigned long)next, "a descriptor", line);
    expect((unsigned long)flock(descriptor, LOCK_EX | LOCK_NB), 0, "the lock", line);
    close(descriptor);
}

#define REFUSED(device, path, length) expect_refused(device, path, length, __LINE__)

/* ---- the tests ---- */

/* Each unit's own number goes into the bootstrap, and the address of its controller. */
static void boots(void)
{
    for (int32 n = 0; n < UDA50_UNITS; n++) {
        EXPECT(rq_dev.boot(n, &rq_dev), SCPE_OK);
        EXPECT(M[BOOT_UNIT / 2], n);
        EXPECT(M[BOOT_CSR / 2], IOBA_RQ & DMASK);
        EXPECT(saved_PC, BOOT_ENTRY);
        EXPECT(rqb_dev.boot(n, &rqb_dev), SCPE_OK);
        EXPECT(M[BOOT_UNIT / 2], UDA50_UNITS + n);
        EXPECT(M[BOOT_CSR / 2], IOBA_RQB & DMASK);
    }
}

/* Restores a state with another byte at an offset. Returns the status of the deposit that ends it. */
static t_stat restored(uint32 offset, uint8 byte)
{
    UNIT *unit = rq_dev.units + STATE_UNIT;
    uint8 state[UDA50_STATE_LENGTH];
    t_stat status = SCPE_OK;
    t_value word;

    for (t_addr at = 0; at < sizeof state; at += 2) {
        EXPECT(rq_dev.examine(&word, at, unit, 0), SCPE_OK);
        state[at] = (uint8)word;
        state[at + 1] = (uint8)(word >> 8);
    }
    state[offset] = byte;
    for (t_addr at = 0; at < sizeof state; at += 2) {
        EXPECT(status, SCPE_OK);
        status = rq_dev.deposit(state[at] | (t_value)state[at + 1] << 8, at, unit, 0);
    }
    return status;
}

/* A state of another version, and one of an image of another length, aren't restored in silence. */
static void states(void)
{
    attach(&rq_dev, 0, "rq0");
    EXPECT(restored(0, 1), SCPE_OK);
    PRINTED("");
    EXPECT(restored(0, 2), SCPE_INCOMP);
    PRINTED("RQ: the state can't be restored: 75\n");
    EXPECT(restored(60, 0x21), SCPE_INCOMP);
    PRINTED("RQ: the state can't be restored: 77\n");
    EXPECT(rq_dev.detach(rq_dev.units), SCPE_OK);
}

/* After a change of the bus a locked image is still locked, and another can be written. */
static void buses(void)
{
    make_file("rq1", RX50);
    rq_dev.units[1].flags |= LOCKED;
    attach(&rq_dev, 0, "rq0");
    attach(&rq_dev, 1, "rq1");
    for (int n = 0; n < 3; n++) {
        EXPECT(written(&rq_dev, 0, WRITE_LIMIT), 0);
        EXPECT(written(&rq_dev, 1, WRITE_LIMIT) & 0x1f, PROTECTED);
        cpu_opt ^= BUS_U | QBUS;
        EXPECT(rq_dev.reset(&rq_dev), SCPE_OK);
    }
    EXPECT(rq_dev.detach(rq_dev.units), SCPE_OK);
    EXPECT(rq_dev.detach(rq_dev.units + 1), SCPE_OK);
    rq_dev.units[1].flags &= ~(uint32)LOCKED;
    PRINTED("");
}

/* A file that another program has locked, for itself or with others, isn't attached. A file is made longer for a map. */
static void locked_files(uint32 way)
{
    int other;

    make_file("short", 1000);
    other = open("short", O_RDWR);
    for (int n = 0; n < 2; n++) {
        EXPECT(flock(other, (n == 0 ? LOCK_EX : LOCK_SH) | LOCK_NB), 0);
        EXPECT(rq_dev.attach(rq_dev.units, "short"), SCPE_OPENERR);
        PRINTED("RQ: the file is in use\n");
        EXPECT(length_of("short"), 1000);
    }
    EXPECT(flock(other, LOCK_UN), 0);
    attach(&rq_dev, 0, "short");
    EXPECT(flock(other, LOCK_SH | LOCK_NB), -1);
    EXPECT(length_of("short"), way == MMAP ? RX50 : 1000);
    EXPECT(rq_dev.detach(rq_dev.units), SCPE_OK);
    rq_dev.units->flags |= LOCKED;
    attach(&rq_dev, 0, "short");
    EXPECT(flock(other, LOCK_SH | LOCK_NB), 0);
    EXPECT(rq_dev.detach(rq_dev.units), SCPE_OK);
    rq_dev.units->flags &= ~(uint32)LOCKED;
    close(other);
}

/* A mapped file that is refused isn't locked, and is as long as it was, also if it was made longer before. Only one that
   can't be cut back stays longer. */
static void refused_files(void)
{
    EXPECT(rq_set_type(rq_dev.units, UDA50_RX50, NULL, NULL), SCPE_OK);
    make_file("short", RX50 + 1);
    REFUSED(&rq_dev, "short", RX50 + 1);
    PRINTED("RQ: the length is no multiple of 512\n");
    make_file("short", 1000);
    failing_length = 1;
    REFUSED(&rq_dev, "short", 1000);
    PRINTED(NO_ROOM "File too large\n");
    map_fails = true;
    REFUSED(&rq_dev, "short", 1000);
    PRINTED("RQ: the file can't be mapped\n");
    map_fails = false;
    reserve_fails = true;
    REFUSED(&rq_dev, "short", 1000);
    PRINTED(FULL);
    for (int n = 0; n < 2; n++) {
        make_file("short", 1000);
        sync_fails = n == 1;
        failing_length = 2;
        EXPECT(rq_dev.attach(rq_dev.units, "short"), SCPE_OPENERR);
        PRINTED(n == 0 ? FULL "RQ: the file can't be cut back: File too large\n" : FULL NOT_SAVED);
        EXPECT(length_of("short"), RX50);
    }
    make_file("short", 1000);
    REFUSED(&rq_dev, "short", 1000);
    PRINTED(FULL NOT_SAVED);
    sync_fails = reserve_fails = false;
}

/* The way of a file can't be changed while it is attached. */
static void attached_way(void)
{
    attach(&rq_dev, 0, "rq0");
    EXPECT(rq_set_mmap(rq_dev.units, 1, NULL, NULL), SCPE_ALATT);
    EXPECT(rq_dev.detach(rq_dev.units), SCPE_OK);
    EXPECT(rq_set_mmap(rq_dev.units, 1, NULL, NULL), SCPE_OK);
}

/* ---- files whose blocks fail ---- */

static uint8 blocks[RX50];
static off64_t place;
static uint32 bad_block = UINT32_MAX; /* it can be neither read nor written */

/* How many bytes can be moved before the bad block. */
static size_t movable(size_t bytes)
{
    off64_t end = place + (off64_t)bytes, bad = (off64_t)bad_block * BLOCK;

    if (place <= bad && bad < end)
        end = bad;
    return (size_t)((end < RX50 ? end : RX50) - place);
}

static ssize_t read_failing(void *cookie, char *to, size_t bytes)
{
    size_t count = movable(bytes);

    if (count == 0 && bytes != 0 && place < RX50)
        return errno = EIO, -1;
    memcpy(to, blocks + place, count);
    place += (off64_t)count;
    return (void)cookie, (ssize_t)count;
}

static ssize_t write_failing(void *cookie, const char *from, size_t bytes)
{
    size_t count = movable(bytes);

    if (count == 0)
        return errno = EIO, 0;
    memcpy(blocks + place, from, count);
    place += (off64_t)count;
    return (void)cookie, (ssize_t)count;
}

static int seek_failing(void *cookie, off64_t *offset, int whence)
{
    if (whence == SEEK_SET)
        place = *offset;
    *offset = place;
    return (void)cookie, 0;
}

static FILE *open_failing(void)
{
    return fopencookie(NULL, "r+", (cookie_io_functions_t){ read_failing, write_failing, seek_failing, NULL });
}

/* A command of eight blocks, of which the third fails or none. */
static void expect_failure(uint8 opcode, bool fails)
{
    enum { COUNT = 8, FIRST = 40 };
    static uint8 before[RX50];
    uint32 done = fails ? 2 : COUNT;
    uint8 *at = (uint8 *)at_bus(DATA), *of = blocks + FIRST * BLOCK, given = (uint8)(opcode + fails);

    memset(at, given, COUNT * BLOCK);
    memcpy(before, blocks, RX50);
    bad_block = fails ? FIRST + 2 : UINT32_MAX;
    EXPECT(executed(&rq_dev, (command){ opcode, 0, opcode, COUNT * BLOCK, FIRST }), fails ? DRIVE_ERROR : 0);
    EXPECT(at_bus(MESSAGE)[6], done * BLOCK);
    EXPECT(errors, fails);
    PRINTED(fails ? "RQ I/O error: Input/output error\n" : "");
    for (uint32 n = 0; n < COUNT * BLOCK; n++) {
        uint8 old = before[FIRST * BLOCK + n];
        bool is_done = n < done * BLOCK;

        EXPECT(of[n], opcode == WRITE && is_done ? given : old);
        EXPECT(at[n], opcode == READ && is_done ? old : given);
    }
    EXPECT(memcmp(blocks, before, FIRST * BLOCK), 0);
    EXPECT(memcmp(of + COUNT * BLOCK, before + (FIRST + COUNT) * BLOCK, RX50 - (FIRST + COUNT) * BLOCK), 0);
}

/* A failure is a drive error of its command, and of no other. */
static void failing_files(void)
{
    for (int n = 0; n < 31; n++)
        ub_map[n] = PAGE * (n + 1);
    for (uint32 n = 0; n < RX50; n++)
        blocks[n] = (uint8)(n / BLOCK + n);
    for (cpu_bme = 0; cpu_bme < 2; cpu_bme++) {
        attach(&rq_dev, 0, failing);
        start_up(&rq_dev);
        EXPECT(executed(&rq_dev, (command){ ONLINE, 0, 1, 0, 0 }), 0);
        for (int n = 0; n < 8; n++)
            expect_failure(n % 4 < 2 ? READ : WRITE, n % 2 == 0);
        EXPECT(rq_dev.detach(rq_dev.units), SCPE_OK);
    }
    cpu_bme = 0;
}

/* The blocks of a drive past the end of its file are zeros, up to its size. */
static void short_file(void)
{
    static const uint32 blocks_read[] = { 1, 2, RX50 / BLOCK - 1 };

    make_file("short", 0);
    attach(&rq_dev, 0, "short");
    EXPECT(written(&rq_dev, 0, 1), 0);
    EXPECT(truncate("short", 1000), 0);
    for (int n = 0; n < 3; n++) {
        memset(at_bus(DATA), 0xee, BLOCK);
        EXPECT(executed(&rq_dev, (command){ READ, 0, 9, BLOCK, blocks_read[n] }), 0);
        for (uint32 k = 0; k < BLOCK / 2; k++)
            EXPECT(at_bus(DATA)[k], n == 0 && k < (1000 - BLOCK) / 2 ? 0x0101 : 0);
    }
    EXPECT(executed(&rq_dev, (command){ READ, 0, 9, BLOCK, RX50 / BLOCK }), 0x1c01);
    EXPECT(rq_dev.detach(rq_dev.units), SCPE_OK);
}

/* ---- full disks ---- */

static void fill(const char *path)
{
    static uint8_t page[4096];
    int descriptor = open(path, O_WRONLY | O_CREAT | O_TRUNC, 0600);

    while (write(descriptor, page, sizeof page) > 0)
        continue;
    EXPECT(errno, ENOSPC);
    close(descriptor);
}

static void expect_written(const char *path)
{
    int descriptor = open(path, O_RDONLY);
    uint8_t block[BLOCK];

    for (uint32 lbn = 0; lbn < RX50 / BLOCK; lbn++) {
        EXPECT(read(descriptor, block, sizeof block), BLOCK);
        EXPECT(block[0] == lbn / WRITE_LIMIT + 1 && memcmp(block, block + 1, BLOCK - 1) == 0, true);
    }
    close(descriptor);
}

/* A drive of 11 MB has no room on a disk of 2 MB. One of 409,600 bytes has room, and needs no more when the disk is
   filled and the guest writes each block. */
static void full_disk(void)
{
    EXPECT(rq_set_type(rq_dev.units, UDA50_RD51, NULL, NULL), SCPE_OK);
    REFUSED(&rq_dev, "small/new", 0);
    PRINTED(FULL);
    make_file("small/disk", 1024);
    REFUSED(&rq_dev, "small/disk", 1024);
    PRINTED(FULL);
    attach(&rq_dev, 0, "small/disk");
    fill("small/rest");
    EXPECT(written(&rq_dev, 0, RX50 / BLOCK), 0);
    EXPECT(rq_dev.detach(rq_dev.units), SCPE_OK);
    expect_written("small/disk");
    PRINTED("");
}

/* A file system that can't reserve room: the file is attached, and a line says so. */
static void no_reservation(void)
{
    EXPECT(rq_dev.attach(rq_dev.units, "bare/disk"), SCPE_OK);
    PRINTED(no_reservations);
    EXPECT(written(&rq_dev, 0, RX50 / BLOCK), 0);
    EXPECT(rq_dev.detach(rq_dev.units), SCPE_OK);
    expect_written("bare/disk");
}

int main(int argc, char **argv)
{
    EXPECT(rq_dev.reset(&rq_dev), SCPE_OK);
    EXPECT(rqb_dev.reset(&rqb_dev), SCPE_OK);
    boots();
    failing_files();
    short_file();
    for (int n = 0; n < 2; n++) {
        set_way(n == 0 ? 0 : MMAP);
        states();
        buses();
        locked_files(n == 0 ? 0 : MMAP);
    }
    refused_files();
    attached_way();
    if (argc > 1 && strcmp(argv[1], "full") == 0) {
        full_disk();
        no_reservation();
    }
    unlink("rq0");
    unlink("rq1");
    unlink("short");
    return ended();
}
