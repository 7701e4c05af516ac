/* blocks.c: turns with called images, compared with those of a controller with the same images in memory.
   First each command with each of its blocks failing; what must write nothing; blocks that aren't ready; large
   commands, and missing memory. Then random guests of both profiles, with memory that is one array, by calls or mapped.
   Any block may fail. Both controllers must do the same. What the calls moved must be what the end messages
   say.
   Usage: blocks [GUESTS [ROUNDS]] */
#include <stdint.h>

enum { MEMORY = 0x10000 };
static uint8_t memory[MEMORY];

#define HAS_MEMORY
#include "guest.h"
#include "uda50_machine.h"
#include "uda50_steps.h"

#include <stdlib.h>

enum { PAGES = MEMORY / BLOCK, FRAMES = PAGES + 8, PHYSICAL = FRAMES * BLOCK, LARGEST = 100, PIECE = 32, TURNS = 40 };
enum { ABORT = 1, AVAILABLE = 8, ACCESS = 16, ERASE = 18, COMPARE = 32 };
enum { DIFFERENT = 7, PROTECTED = 0x2006, SOFT_PROTECTED = 0x1006, DRIVE_ERROR = 0x0b, NO_BUFFER = 0x69 };
enum { ARRAY, CALLS, MAPPED, WAYS }; /* how memory is reached */

static const uint32_t VALID = 0x80000000, NEVER = UINT32_MAX;

/* Unit 2 is write-protected. That of unit 3 is in memory for both controllers. */
static const uint32_t sizes[UDA50_UNITS] = { LARGEST, 37, 20, 64 };

typedef struct machine {
    uda50 uda;
    uint8_t disks[UDA50_UNITS][LARGEST * BLOCK], physical[PHYSICAL], window[MEMORY];
    uint32_t registers[PAGES];
    uda50_map map;
    uda50_machine reached; /* as the way says, with the functions of the called images */
    int way;
} machine;

static machine called, held; /* called images, and images in memory */

/* ---- Memory that the library gets ---- */

void *__real_malloc(size_t bytes), *__real_realloc(void *at, size_t bytes);
void *__wrap_malloc(size_t bytes), *__wrap_realloc(void *at, size_t bytes);

static uint32_t allocations, allowed = UINT32_MAX;

void *__wrap_malloc(size_t bytes)
{
    return allocations++ < allowed ? __real_malloc(bytes) : NULL;
}

void *__wrap_realloc(void *at, size_t bytes)
{
    return allocations++ < allowed ? __real_realloc(at, bytes) : NULL;
}

/* ---- The called images ---- */

/* What the calls of a turn moved. The one after `fails_after` blocks fails. */
static struct {
    uint32_t calls, unit, first, end;
    bool writes, failed;
} moved;
static uint32_t fails_after = UINT32_MAX;

/* Notes a call, which must go on where the one before it ended. Returns how many of its blocks can be moved. */
static uint32_t note(uint32_t unit, uint32_t lbn, uint32_t count, bool writes)
{
    uint32_t can;

    if (moved.calls++ == 0) {
        moved.unit = unit;
        moved.first = moved.end = lbn;
        moved.writes = writes;
    }
    EXPECT(moved.unit, unit);
    EXPECT(moved.end, lbn);
    EXPECT(moved.writes, writes);
    EXPECT(moved.failed, false);
    EXPECT(count >= 1 && count <= PIECE && lbn + count <= sizes[unit], true);
    can = fails_after - (moved.end - moved.first);
    can = can < count ? can : count;
    moved.end += can;
    moved.failed = can < count;
    return can;
}

/* The blocks after the failing one are no blocks of the image. */
static uint32_t read_blocks(void *context, uint32_t lbn, uint32_t count, uint8_t *to)
{
    uint32_t unit = (uint32_t)((uint8_t (*)[LARGEST * BLOCK])context - called.disks);
    uint32_t can = note(unit, lbn, count, false);

    memset(to, 0xee, count * BLOCK);
    memcpy(to, called.disks[unit] + lbn * BLOCK, can * BLOCK);
    return moved.failed ? can : count + any(2) * any(UINT32_MAX - PIECE);
}

/* The first half of the failing block is written, as by uda50_inject_failure. */
static uint32_t write_blocks(void *context, uint32_t lbn, uint32_t count, const uint8_t *from)
{
    uint32_t unit = (uint32_t)((uint8_t (*)[LARGEST * BLOCK])context - called.disks);
    uint32_t can = note(unit, lbn, count, true);

    memcpy(called.disks[unit] + lbn * BLOCK, from, can * BLOCK + (moved.failed ? BLOCK / 2 : 0));
    return moved.failed ? can : count + any(2) * any(UINT32_MAX - PIECE);
}

static const uda50_called images[3] = {
    { sizeof(uda50_called), called.disks[0], read_blocks, write_blocks },
    { sizeof(uda50_called), called.disks[1], read_blocks, write_blocks },
    { sizeof(uda50_called), called.disks[2], read_blocks, NULL },
};

/* ---- The bus, page by page ---- */

/* Copies bytes of the bus to `to` or, if that is null, from `from`. Returns whether each address leads somewhere. */
static bool copy(machine *it, uda50_range range, uint8_t *to, const uint8_t *from)
{
    bool whole = true;

    for (uint32_t n = 0, bytes; n < range.bytes; n += bytes) {
        uint32_t address = range.at + n, left = BLOCK - address % BLOCK, found = it->registers[address / BLOCK];
        uint8_t *at = it->physical + (found & ~VALID) * BLOCK + address % BLOCK;

        bytes = left < range.bytes - n ? left : range.bytes - n;
        if ((found & VALID) == 0) {
            whole = false;
            if (to != NULL)
                memset(to + n, 0, bytes);
        } else if (to != NULL)
            memcpy(to + n, at, bytes);
        else
            memcpy(at, from + n, bytes);
    }
    return whole;
}

static uint32_t reads; /* calls of read_bytes */

static bool read_bytes(void *context, uint32_t address, uint32_t bytes, uint8_t *to)
{
    reads++;
    return copy(context, (uda50_range){ address, bytes }, to, NULL);
}

static void write_bytes(void *context, uint32_t address, uint32_t bytes, const uint8_t *from)
{
    copy(context, (uda50_range){ address, bytes }, NULL, from);
}

/* The guest's memory goes to the bus of both machines, and comes from that of the first. */
static void show(void)
{
    write_bytes(&called, 0, MEMORY, memory);
    write_bytes(&held, 0, MEMORY, memory);
}

static void see(void)
{
    read_bytes(&called, 0, MEMORY, memory);
}

/* ---- Machines ---- */

static void reach(machine *it, int way)
{
    it->map = (uda50_map){ .registers = it->registers, .count = PAGES, .page = 9, .frame = ~VALID, .valid = VALID, .scale = 9 };
    it->way = way;
    if (way == ARRAY)
        it->reached = (uda50_machine){ .memory = it->physical, .length = MEMORY };
    else if (way == CALLS)
        it->reached = (uda50_machine){ .context = it, .read = read_bytes, .write = write_bytes };
    else
        it->reached = (uda50_machine){ .memory = it->physical, .length = PHYSICAL, .map = &it->map };
    it->reached.size = sizeof it->reached;
    if (way != ARRAY) {
        it->reached.window = it->window;
        it->reached.addresses = MEMORY;
    }
    for (uint32_t unit = 0; it == &called && unit < 3; unit++)
        it->reached.images[unit] = &images[unit];
    for (uint32_t n = 0; n < PAGES; n++)
        it->registers[n] = VALID | n;
}

static void attach(machine *it, uint32_t unit)
{
    uda50_image image = { it->disks[unit], sizes[unit] * BLOCK };

    if (it == &called && unit < 3)
        EXPECT(uda50_attach_called(&it->uda, unit, sizes[unit], unit == 2), UDA50_OK);
    else
        EXPECT(uda50_attach(&it->uda, unit, &image, unit == 2), UDA50_OK);
}

/* A struct gets the bytes of an image in memory, and stays empty for a called image. */
static void expect_image(const machine *it, uint32_t unit, uda50_image image)
{
    bool empty = it == &called && unit < 3;

    EXPECT(image.length, empty ? 0 : sizes[unit] * BLOCK);
    EXPECT(image.at == (empty ? NULL : it->disks[unit]), true);
}

static void detach(machine *it, uint32_t unit)
{
    uda50_image image = { NULL, 0 };

    EXPECT(uda50_detach(&it->uda, unit, &image), UDA50_OK);
    expect_image(it, unit, image);
}

static void make(machine *it, bool compatible)
{
    EXPECT(uda50_new(&it->uda, compatible), UDA50_OK);
    for (uint32_t unit = 0; unit < UDA50_UNITS; unit++)
        attach(it, unit);
}

static void free_machine(machine *it)
{
    uda50_image returned[UDA50_UNITS] = { { NULL, 0 } };

    EXPECT(uda50_free(&it->uda, returned), UDA50_OK);
    for (uint32_t unit = 0; unit < UDA50_UNITS; unit++)
        expect_image(it, unit, returned[unit]);
}

static void write_sa(machine *it, uint16_t word)
{
    if (it == &called || it->way == CALLS || any(2) == 0)
        EXPECT(uda50_machine_write_sa(&it->uda, word, &it->reached), UDA50_OK);
    else if (it->way == ARRAY)
        EXPECT(uda50_write_sa(&it->uda, word, it->physical, MEMORY), UDA50_OK);
    else
        EXPECT(uda50_write_sa_mapped(&it->uda, word, it->physical, PHYSICAL, &it->map), UDA50_OK);
}

static uint32_t plain_turn(machine *it)
{
    return it->way == CALLS || any(2) == 0 ? uda50_machine_turn(&it->uda, &it->reached)
           : it->way == ARRAY              ? uda50_turn(&it->uda, it->physical, MEMORY)
                                           : uda50_run_mapped(&it->uda, 1, it->physical, PHYSICAL, &it->map);
}

/* A turn of the controller with images in memory. Of a unit whose other image is a called one the same block
   fails. */
static uint32_t held_turn(void)
{
    uint32_t result;

    for (uint32_t unit = 0; unit < 3; unit++)
        EXPECT(uda50_inject_failure(&held.uda, unit, fails_after + 1), UDA50_OK);
    result = plain_turn(&held);
    for (uint32_t unit = 0; unit < 3; unit++)
        EXPECT(uda50_inject_failure(&held.uda, unit, 0), UDA50_OK);
    return result;
}

/* What the calls moved is what the end message says, and only a turn that executes a command makes calls. */
static void expect_told(uint32_t result)
{
    uint32_t count = moved.end - moved.first;
    uda50_turn_record told = { .size = sizeof told };

    EXPECT(uda50_get_last_turn(&called.uda, &told), UDA50_OK);
    if (result != UDA50_EXECUTED || moved.calls == 0) {
        EXPECT(moved.calls, 0);
        EXPECT(result == UDA50_EXECUTED && told.status == DRIVE_ERROR, false);
        return;
    }
    EXPECT(told.unit, moved.unit);
    EXPECT(moved.writes, told.code == (END | WRITE) || told.code == (END | ERASE));
    if (told.code == (END | COMPARE) && told.status == DIFFERENT)
        EXPECT(told.bytes < count * BLOCK, true);
    else if (moved.failed)
        EXPECT(told.status == DRIVE_ERROR && told.bytes == count * BLOCK, true);
    else
        EXPECT(told.status == 0 && (told.bytes + BLOCK - 1) / BLOCK == count, true);
}

/* A turn of the controller with called images. Whatever is in a window has no influence. */
static uint32_t called_turn(void)
{
    uint32_t result;

    memset(&moved, 0, sizeof moved);
    if (called.way != ARRAY)
        memset(called.window, (int)any(256), MEMORY);
    result = uda50_machine_turn(&called.uda, &called.reached);
    expect_told(result);
    return result;
}

/* Of the states all but whether a failure was ever injected, the byte 88 of unit 0. */
static bool same(void)
{
    static uint8_t one[UDA50_STATE_LENGTH], two[UDA50_STATE_LENGTH];

    EXPECT(uda50_save(&called.uda, one, sizeof one), UDA50_OK);
    EXPECT(uda50_save(&held.uda, two, sizeof two), UDA50_OK);
    for (uint32_t unit = 0; unit < UDA50_UNITS; unit++)
        two[88 + 8 * unit] = 0;
    return memcmp(one, two, sizeof one) == 0 && memcmp(called.physical, held.physical, PHYSICAL) == 0
           && memcmp(called.disks, held.disks, sizeof called.disks) == 0;
}

/* The same turn of both. Returns what it did. */
static uint32_t both_turn(void)
{
    uint32_t result = called_turn();

    EXPECT(held_turn(), result);
    EXPECT(same(), true);
    return result;
}

static uint16_t two_commands = 1; /* 0 for a command ring of one descriptor */

static void start_machine(machine *it, int way)
{
    const uint16_t words[] = { (uint16_t)(0x8080 | two_commands << 11 | 2 << 8 | VECTOR / 4), BASE, 0, 1 };

    reach(it, way);
    uda50_write_ip(&it->uda, 0);
    for (int n = 0; n < 4; n++)
        write_sa(it, words[n]);
}

/* From here on both have the same memory, blocks and state. */
static void start_both(int way)
{
    static uint8_t state[UDA50_STATE_LENGTH];

    memcpy(held.physical, called.physical, PHYSICAL);
    memcpy(held.disks, called.disks, sizeof held.disks);
    start_machine(&called, way);
    start_machine(&held, way);
    EXPECT(uda50_save(&called.uda, state, sizeof state), UDA50_OK);
    EXPECT(uda50_restore(&held.uda, state, sizeof state), UDA50_OK);
    EXPECT(uda50_restore(&called.uda, state, sizeof state), UDA50_OK);
    EXPECT(same(), true);
    see();
}

/* ---- A guest that waits for each response ---- */

static uint32_t posted; /* commands since the start-up */
static uint32_t moves; /* calls of the images for the last commands */

/* Has commands executed that are in the ring: one, or two at once. Returns the status of the last end message. */
static uint32_t executed(uint32_t count)
{
    uint32_t last = (posted + count - 1) % RESPONSES, result = UDA50_FETCHED;

    for (uint32_t n = 0; n < count; n++)
        give_response((posted + n) % RESPONSES);
    show();
    EXPECT(uda50_read_ip(&called.uda), uda50_read_ip(&held.uda));
    moves = 0;
    for (uint32_t n = 0; n < TURNS && result != UDA50_IDLE && result != UDA50_DEAD; n++) {
        result = both_turn();
        moves += moved.calls;
    }
    EXPECT(result, UDA50_IDLE);
    posted += count;
    see();
    return get16(response_at(last) + 10);
}

static uint32_t status_after(command c)
{
    post(posted % COMMANDS, c);
    return executed(1);
}

static uint32_t bytes_told(void)
{
    uint32_t at = response_at((posted - 1) % RESPONSES) + 12;

    return get16(at) | get16(at + 2) << 16;
}

static void begin(int way)
{
    start_both(way);
    posted = 0;
    for (uint16_t unit = 0; unit < UDA50_UNITS; unit++)
        EXPECT(status_after((command){ ONLINE, unit, unit, 0, 0 }), 0);
}

/* Fills the blocks of both, and memory from the buffer on. */
static void fill(void)
{
    for (uint32_t unit = 0; unit < UDA50_UNITS; unit++)
        for (uint32_t n = 0; n < LARGEST * BLOCK; n++)
            called.disks[unit][n] = (uint8_t)any(256);
    memcpy(held.disks, called.disks, sizeof held.disks);
    for (uint32_t n = BUFFER; n < MEMORY; n++)
        memory[n] = (uint8_t)any(256);
}

/* ---- Each block of a command fails ---- */

/* Executes a command of this many blocks, or a partial block less, with a failing one or with none. */
static void fail_at(uint8_t opcode, uint32_t count, uint32_t failing, bool partial)
{
    enum { FIRST = 11 };
    static uint8_t disk[LARGEST * BLOCK], before[MEMORY];
    uint32_t done = failing < count ? failing : count, bytes = count * BLOCK - (partial ? 100 : 0);

    fill();
    memcpy(disk, called.disks[0], sizeof disk);
    if (opcode == COMPARE)
        memcpy(memory + BUFFER, disk + FIRST * BLOCK, count * BLOCK);
    memcpy(before, memory, MEMORY);
    fails_after = failing;
    EXPECT(status_after((command){ opcode, 0, failing, bytes, FIRST }), failing < count ? DRIVE_ERROR : 0);
    EXPECT(bytes_told(), failing < count ? done * BLOCK : bytes);
    fails_after = NEVER;
    for (uint32_t n = 0; n < count * BLOCK; n++) {
        uint8_t old = disk[FIRST * BLOCK + n], written = opcode == ERASE || n >= bytes ? 0 : before[BUFFER + n];
        bool writes = opcode == WRITE || opcode == ERASE, told = n < done * BLOCK;

        if (n < done * BLOCK || n >= (done + 1) * BLOCK)
            EXPECT(called.disks[0][FIRST * BLOCK + n], writes && told ? written : old);
        EXPECT(memory[BUFFER + n], opcode == READ && told && n < bytes ? old : before[BUFFER + n]);
    }
    EXPECT(memcmp(disk, called.disks[0], FIRST * BLOCK), 0);
    EXPECT(memcmp(disk + (FIRST + count) * BLOCK, called.disks[0] + (FIRST + count) * BLOCK, sizeof disk - (FIRST + count) * BLOCK), 0);
}

static void each_block_fails(void)
{
    static const uint8_t opcodes[] = { READ, WRITE, ERASE, ACCESS, COMPARE };

    for (int way = 0; way < WAYS; way++) {
        begin(way);
        for (uint32_t n = 0; n < sizeof opcodes; n++)
            for (uint32_t failing = 0; failing <= 70; failing += 1 + any(3))
                fail_at(opcodes[n], 70, failing, failing % 2 == 0);
        for (uint32_t n = 0; n < sizeof opcodes; n++)
            fail_at(opcodes[n], 70, 70, true);
        for (uint32_t n = 0; n < sizeof opcodes; n++) /* up to PIECE blocks are one call of the image */
            for (uint32_t failing = 0; failing <= PIECE; failing++)
                fail_at(opcodes[n], PIECE, failing, failing % 2 == 0);
    }
}

/* A Compare Host Data that finds a difference tells nothing of a block that fails after it. */
static void difference_before_a_failure(void)
{
    begin(ARRAY);
    fill();
    memcpy(memory + BUFFER, called.disks[1], 4 * BLOCK);
    memory[BUFFER + BLOCK + 3] ^= 1;
    fails_after = 2;
    EXPECT(status_after((command){ COMPARE, 1, 1, 4 * BLOCK, 0 }), DIFFERENT);
    EXPECT(bytes_told(), BLOCK + 3);
    fails_after = 1;
    EXPECT(status_after((command){ COMPARE, 1, 1, 4 * BLOCK, 0 }), DRIVE_ERROR);
    fails_after = NEVER;
}

/* ---- What moves nothing ---- */

static void expect_no_moves(command c, uint32_t status)
{
    EXPECT(status_after(c), status);
    EXPECT(moves, 0);
}

static void missing_buffer(void)
{
    begin(MAPPED);
    fill();
    called.registers[BUFFER / BLOCK + 1] &= ~VALID;
    held.registers[BUFFER / BLOCK + 1] &= ~VALID;
    expect_no_moves((command){ WRITE, 0, 1, 2 * BLOCK, 0 }, NO_BUFFER);
    expect_no_moves((command){ READ, 0, 2, 2 * BLOCK, 0 }, NO_BUFFER);
    expect_no_moves((command){ COMPARE, 0, 3, 2 * BLOCK, 0 }, NO_BUFFER);
}

/* A unit that is protected or available, a range or a byte count that isn't right, no bytes, and an image in memory. */
static void rejected_moves(void)
{
    uint32_t n;

    begin(ARRAY);
    expect_no_moves((command){ WRITE, 2, 4, BLOCK, 0 }, PROTECTED);
    expect_no_moves((command){ ERASE, 2, 5, BLOCK, 0 }, PROTECTED);
    expect_no_moves((command){ WRITE, 1, 6, BLOCK, 37 }, 0x1c01);
    expect_no_moves((command){ READ, 1, 7, 2 * BLOCK, 36 }, 0x0c01);
    expect_no_moves((command){ WRITE, 1, 8, 1, 0 }, 0x49);
    expect_no_moves((command){ WRITE, 0, 9, 0, 0 }, 0);
    expect_no_moves((command){ WRITE, 3, 10, BLOCK, 0 }, 0);
    EXPECT(status_after((command){ AVAILABLE, 1, 11, 0, 0 }), 0);
    expect_no_moves((command){ WRITE, 1, 12, BLOCK, 0 }, 4);
    n = posted % COMMANDS; /* with software protection */
    post(n, (command){ ONLINE, 1, 13, 0, 0 });
    put16(command_at(n) + 10, 4);
    put16(command_at(n) + 14, 0x1000);
    EXPECT(executed(1), 0);
    expect_no_moves((command){ WRITE, 1, 14, BLOCK, 0 }, SOFT_PROTECTED);
}

/* An Abort that comes with the Write. */
static void aborted_write(void)
{
    uint32_t n;

    begin(ARRAY);
    n = posted % COMMANDS;
    post(n, (command){ WRITE, 0, 15, BLOCK, 0 });
    post(1 - n, (command){ ABORT, 0, 16, 15, 0 });
    EXPECT(executed(2), 0);
    EXPECT(moves, 0);
    EXPECT(get16(response_at((posted - 2) % RESPONSES) + 10), 2);
}

/* ---- The calls below ---- */

/* Takes a turn that makes no block ready, in memory that is its own window. */
static uint32_t bare_turn(void)
{
    uda50_turn_use use = { .size = sizeof use, .controller = 1 };

    EXPECT(uda50_get_descriptors(&called.uda, called.physical, MEMORY, &use), UDA50_OK);
    EXPECT(uda50_get_body(&called.uda, called.physical, MEMORY, &use), UDA50_OK);
    return uda50_turn_at(&called.uda, called.physical, MEMORY, &use);
}

/* Takes such turns until one does nothing. */
static void bare_run(void)
{
    uint32_t turns = 0;

    while (turns++ < TURNS && bare_turn() != UDA50_IDLE)
        ;
    EXPECT(turns <= TURNS, true);
}

/* Posts a Read of unit 0 and takes turns until it is pending, with the whole window in memory. */
static void make_pending(uint8_t opcode, uint32_t bytes)
{
    post(posted % COMMANDS, (command){ opcode, 0, 1, bytes, 5 });
    give_response(posted++ % RESPONSES);
    show();
    EXPECT(uda50_read_ip(&called.uda), 0);
    EXPECT(bare_turn(), UDA50_FETCHED);
}

/* Takes the steps of a turn up to its blocks. */
static uda50_blocks ask(uda50_turn_use *use)
{
    memset(use, 0x99, sizeof *use);
    use->size = sizeof *use;
    use->controller = 1;
    use->lent = (uda50_image){ NULL, 0 };
    EXPECT(uda50_get_descriptors(&called.uda, called.physical, MEMORY, use), UDA50_OK);
    EXPECT(use->blocks.use == 0 && use->ready == 0 && use->missing == 0, true);
    EXPECT(uda50_get_body(&called.uda, called.physical, MEMORY, use), UDA50_OK);
    return use->blocks;
}

/* Ends the pending command, delivers its end message, and returns its byte count. */
static uint32_t bytes_after(uint32_t status)
{
    uda50_turn_record told = { .size = sizeof told };

    EXPECT(bare_turn(), UDA50_EXECUTED);
    EXPECT(uda50_get_last_turn(&called.uda, &told), UDA50_OK);
    EXPECT(told.status, status);
    bare_run();
    see();
    return told.bytes;
}

static bool are(uda50_blocks blocks, uint32_t use, uint32_t count)
{
    return blocks.use == use && blocks.unit == 0 && blocks.first == (count == 0 ? 0 : 5) && blocks.count == count;
}

/* A command whose blocks aren't ready ends at the first of them. */
static void not_ready(void)
{
    static const uint8_t opcodes[] = { READ, WRITE, ERASE, ACCESS, COMPARE };

    for (uint32_t n = 0; n < sizeof opcodes; n++) {
        begin(ARRAY);
        fill();
        make_pending(opcodes[n], 3 * BLOCK);
        EXPECT(bytes_after(DRIVE_ERROR), 0);
        make_pending(opcodes[n], 3 * BLOCK);
        bare_run();
        see();
        EXPECT(get16(response_at((posted - 1) % RESPONSES) + 10), DRIVE_ERROR);
    }
}

/* Takes the turn of these steps, which executes the command. Returns the byte count of the end message, and delivers
   that. */
static uint32_t bytes_of(uda50_turn_use *use, uint32_t ready, uint32_t status)
{
    uda50_turn_record told = { .size = sizeof told };

    use->ready = ready;
    EXPECT(uda50_turn_at(&called.uda, called.physical, MEMORY, use), UDA50_EXECUTED);
    EXPECT(uda50_get_last_turn(&called.uda, &told), UDA50_OK);
    EXPECT(told.status, status);
    EXPECT(uda50_machine_run(&called.uda, TURNS, &called.reached), UDA50_IDLE);
    see();
    return told.bytes;
}

static bool reads_bytes(uint8_t opcode)
{
    return opcode == READ || opcode == COMPARE;
}

/* Blocks are ready for one turn: the next one finds none, also if it has fewer blocks. Each number of them can be
   ready. */
static void ready_once(void)
{
    static const uint8_t opcodes[] = { READ, WRITE, ERASE, ACCESS, COMPARE };
    static uint8_t bytes[3 * BLOCK];
    uda50_turn_use use;

    for (uint32_t n = 0; n < sizeof opcodes; n++) {
        begin(ARRAY);
        fill();
        for (uint32_t ready = 0; ready <= 3; ready++) {
            make_pending(opcodes[n], 3 * BLOCK);
            EXPECT(ask(&use).count, 3);
            memcpy(bytes, memory + BUFFER, sizeof bytes);
            use.lent = (uda50_image){ bytes, reads_bytes(opcodes[n]) ? ready * BLOCK : 7 };
            EXPECT(bytes_of(&use, ready, ready == 3 ? 0 : DRIVE_ERROR), ready * BLOCK);
            EXPECT(use.lent.at == bytes && use.lent.length == (reads_bytes(opcodes[n]) ? ready * BLOCK : 7), true);
            make_pending(opcodes[n], 2 * BLOCK);
            EXPECT(ask(&use).count, 2);
            EXPECT(bytes_of(&use, 0, DRIVE_ERROR), 0);
        }
    }
}

/* A Read gets the bytes that were lent for this turn. Those of a turn that wasn't taken have no effect. */
static void lent_bytes(void)
{
    static uint8_t bytes[8 * BLOCK];
    uda50_turn_use use;

    begin(ARRAY);
    EXPECT(are(ask(&use), UDA50_NO_BLOCKS, 0), true);
    fill();
    for (uint32_t n = 0; n < sizeof bytes; n++)
        bytes[n] = (uint8_t)any(256);
    make_pending(READ, 8 * BLOCK);
    EXPECT(are(ask(&use), UDA50_READS, 8), true);
    use.lent = (uda50_image){ bytes + BLOCK, 2 * BLOCK };
    use.ready = 2;
    EXPECT(are(ask(&use), UDA50_READS, 8), true);
    EXPECT(use.ready == 0 && use.lent.at == NULL && use.lent.length == 0, true);
    use.lent = (uda50_image){ bytes, 6 * BLOCK };
    EXPECT(bytes_of(&use, 6, DRIVE_ERROR), 6 * BLOCK);
    EXPECT(memcmp(memory + BUFFER, bytes, 6 * BLOCK), 0);
    EXPECT(memcmp(memory + BUFFER + 6 * BLOCK, bytes + 6 * BLOCK, BLOCK) != 0, true);
    make_pending(READ, BLOCK); /* uda50_machine_turn begins again */
    EXPECT(are(ask(&use), UDA50_READS, 1), true);
    EXPECT(called_turn(), UDA50_EXECUTED);
    see();
    EXPECT(memcmp(memory + BUFFER, called.disks[0] + 5 * BLOCK, BLOCK), 0);
}

/* After a turn the struct has the bytes that C lent, as they were, whether the command used them all or not. The library
   has none of them: a Read without ready blocks gets none, and leaves its buffer as it is. */
static void lent_for_one_turn(void)
{
    static const uint8_t opcodes[] = { READ, COMPARE, WRITE, ACCESS };
    uda50_turn_use use;

    for (uint32_t n = 0; n < 4 * sizeof opcodes; n++) {
        uint8_t opcode = opcodes[n / 4], *bytes = malloc(3 * BLOCK), kept[3 * BLOCK];
        uint32_t ready = n % 4;

        begin(ARRAY);
        fill();
        make_pending(opcode, 3 * BLOCK);
        ask(&use);
        memcpy(bytes, memory + BUFFER, 3 * BLOCK);
        memcpy(kept, bytes, 3 * BLOCK);
        use.lent = (uda50_image){ bytes, reads_bytes(opcode) ? ready * BLOCK : 3 * BLOCK };
        EXPECT(bytes_of(&use, ready, ready == 3 ? 0 : DRIVE_ERROR), ready * BLOCK);
        EXPECT(use.lent.at == bytes && use.lent.length == (reads_bytes(opcode) ? ready * BLOCK : 3 * BLOCK), true);
        EXPECT(memcmp(bytes, kept, 3 * BLOCK), 0);
        memset(bytes, 0x77, 3 * BLOCK);
        free(bytes);
        memset(memory + BUFFER, 0x11, 3 * BLOCK);
        make_pending(READ, 3 * BLOCK);
        EXPECT(are(ask(&use), UDA50_READS, 3), true);
        EXPECT(bytes_of(&use, 0, DRIVE_ERROR), 0);
        for (uint32_t at = 0; at < 3 * BLOCK; at++)
            EXPECT(memory[BUFFER + at], 0x11);
        make_pending(READ, 3 * BLOCK); /* without the steps before uda50_turn_at */
        EXPECT(bytes_after(DRIVE_ERROR), 0);
        for (uint32_t at = 0; at < 3 * BLOCK; at++)
            EXPECT(memory[BUFFER + at], 0x11);
    }
}

/* The bytes of a Write, from any block on, and those of an Erase. */
static void told_bytes(void)
{
    static uint8_t bytes[3 * BLOCK], zeros[BLOCK];
    uda50_turn_use use;

    begin(ARRAY);
    fill();
    make_pending(WRITE, 3 * BLOCK - 100);
    EXPECT(are(ask(&use), UDA50_WRITES, 3), true);
    EXPECT(uda50_get_written(&called.uda, called.physical, MEMORY, &use, 0, bytes, 3 * BLOCK), UDA50_OK);
    EXPECT(memcmp(bytes, memory + BUFFER, 3 * BLOCK - 100), 0);
    EXPECT(memcmp(bytes + 3 * BLOCK - 100, zeros, 100), 0);
    EXPECT(uda50_get_written(&called.uda, called.physical, MEMORY, &use, 1, bytes, BLOCK), UDA50_OK);
    EXPECT(memcmp(bytes, memory + BUFFER + BLOCK, BLOCK), 0);
    EXPECT(uda50_get_written(&called.uda, called.physical, MEMORY, &use, 2, bytes, 2 * BLOCK), UDA50_BAD_LENGTH);
    EXPECT(uda50_get_written(&called.uda, called.physical, MEMORY, &use, 4, bytes, BLOCK), UDA50_BAD_LENGTH);
    EXPECT(memcmp(bytes, memory + BUFFER + BLOCK, BLOCK), 0);
    EXPECT(bytes_of(&use, 2, DRIVE_ERROR), 2 * BLOCK);
    make_pending(ERASE, 2 * BLOCK);
    EXPECT(are(ask(&use), UDA50_WRITES, 2), true);
    EXPECT(uda50_get_written(&called.uda, called.physical, MEMORY, &use, 1, bytes, BLOCK), UDA50_OK);
    EXPECT(memcmp(bytes, zeros, BLOCK), 0);
    EXPECT(bytes_of(&use, 2, 0), 2 * BLOCK);
    make_pending(ACCESS, 3 * BLOCK);
    EXPECT(are(ask(&use), UDA50_CHECKS, 3), true);
    EXPECT(uda50_get_written(&called.uda, called.physical, MEMORY, &use, 0, bytes, BLOCK), UDA50_BAD_LENGTH);
    EXPECT(bytes_of(&use, 3, 0), 3 * BLOCK);
}

/* What uda50_turn_at refuses. It changes nothing, so the call is repeated with what is right. */
static void refused_blocks(void)
{
    static uint8_t before[UDA50_STATE_LENGTH], after[UDA50_STATE_LENGTH], bytes[4 * BLOCK];
    uda50_turn_use use;

    begin(ARRAY);
    fill();
    make_pending(READ, 3 * BLOCK);
    EXPECT(are(ask(&use), UDA50_READS, 3), true);
    EXPECT(uda50_save(&called.uda, before, sizeof before), UDA50_OK);
    for (uint32_t n = 0; n < 5; n++) {
        static const size_t lengths[] = { 4 * BLOCK, 3 * BLOCK - 1, 2 * BLOCK, 0, 3 * BLOCK + 1 };

        use.ready = n == 0 ? 4 : 3;
        use.lent = (uda50_image){ bytes, lengths[n] };
        EXPECT(uda50_turn_at(&called.uda, called.physical, MEMORY, &use), UDA50_BAD_LENGTH);
        EXPECT(use.lent.at == bytes && use.lent.length == lengths[n], true);
    }
    use.lent = (uda50_image){ bytes, 3 * BLOCK };
    EXPECT(uda50_turn_at(&called.uda, called.physical, MEMORY - 1, &use), UDA50_BAD_LENGTH);
    EXPECT(use.lent.at == bytes && use.lent.length == 3 * BLOCK, true);
    EXPECT(uda50_save(&called.uda, after, sizeof after), UDA50_OK);
    EXPECT(memcmp(before, after, sizeof before), 0);
    allocations = 0;
    allowed = 0; /* a turn allocates nothing */
    EXPECT(bytes_of(&use, 3, 0), 3 * BLOCK);
    allowed = UINT32_MAX;
    EXPECT(memcmp(memory + BUFFER, bytes, 3 * BLOCK), 0);
    make_pending(WRITE, 3 * BLOCK);
    ask(&use);
    use.ready = 4;
    EXPECT(uda50_turn_at(&called.uda, called.physical, MEMORY, &use), UDA50_BAD_LENGTH);
    EXPECT(bytes_of(&use, 3, 0), 3 * BLOCK);
    ask(&use); /* a turn without blocks */
    use.ready = 1;
    EXPECT(uda50_turn_at(&called.uda, called.physical, MEMORY, &use), UDA50_BAD_LENGTH);
    use.ready = 0;
    EXPECT(uda50_turn_at(&called.uda, called.physical, MEMORY, &use), UDA50_IDLE);
}

/* A run ends after the first turn that does nothing, and after as many turns as it gets. */
static void ended_runs(void)
{
    begin(CALLS);
    reads = 0;
    EXPECT(uda50_machine_run(&called.uda, 1000, &called.reached), UDA50_IDLE);
    EXPECT(reads <= 5, true);
    post(posted % COMMANDS, (command){ GET_UNIT_STATUS, 0, 1, 0, 0 });
    give_response(posted++ % RESPONSES);
    show();
    uda50_read_ip(&called.uda);
    EXPECT(uda50_machine_run(&called.uda, 1, &called.reached), UDA50_FETCHED);
    EXPECT(uda50_machine_run(&called.uda, 2, &called.reached), UDA50_DELIVERED);
    EXPECT(uda50_machine_run(&called.uda, 2, &called.reached), UDA50_IDLE);
}

/* A run goes on after an attention message. */
static void run_after_attention(void)
{
    uda50_state state = { .size = sizeof state };

    begin(CALLS);
    post(posted % COMMANDS, (command){ SET_CONTROLLER, 0, 1, 0x800000, 0 }); /* it asks for attention messages */
    EXPECT(executed(1), 0);
    give_response(posted % RESPONSES);
    give_response((posted + 1) % RESPONSES);
    give_response((posted + 2) % RESPONSES);
    show();
    for (uint32_t unit = 1; unit < UDA50_UNITS; unit++) {
        detach(&called, unit);
        attach(&called, unit);
    }
    EXPECT(uda50_get_state(&called.uda, &state), UDA50_OK);
    EXPECT(state.attentions, 0xe);
    EXPECT(uda50_machine_run(&called.uda, 2, &called.reached), UDA50_NOTIFIED);
    EXPECT(uda50_get_state(&called.uda, &state), UDA50_OK);
    EXPECT(state.attentions, 8);
    EXPECT(uda50_machine_run(&called.uda, TURNS, &called.reached), UDA50_IDLE);
    EXPECT(uda50_get_state(&called.uda, &state), UDA50_OK);
    EXPECT(state.attentions, 0);
}

static void statuses_of_images(void)
{
    static uint8_t block[BLOCK];
    static uda50 none;
    uda50 *uda = &called.uda;
    uda50_image full = { block, BLOCK }, empty = { NULL, 0 };

    EXPECT(uda50_attach_called(&none, 4, 0, false), UDA50_NO_CONTROLLER);
    EXPECT(uda50_attach_called(uda, 4, 0, false), UDA50_NO_SUCH_UNIT);
    EXPECT(uda50_attach_called(uda, 0, 0, false), UDA50_ALREADY_ATTACHED);
    EXPECT(uda50_attach(uda, 0, &full, false), UDA50_ALREADY_ATTACHED);
    EXPECT(uda50_set_type(uda, 0, UDA50_RD54), UDA50_ALREADY_ATTACHED);
    EXPECT(uda50_detach(uda, 0, &full), UDA50_NOT_EMPTY);
    EXPECT(uda50_inject_failure(uda, 0, 1), UDA50_OTHER_KIND);
    EXPECT(uda50_inject_failure(uda, 0, 0), UDA50_OTHER_KIND);
    EXPECT(uda50_detach(uda, 1, &empty), UDA50_OK);
    EXPECT(uda50_attach_called(uda, 1, 0, false), UDA50_BAD_LENGTH);
    EXPECT(uda50_attach_called(uda, 1, (uint32_t)UDA50_MAX_BLOCKS + 1, false), UDA50_TOO_LARGE);
    EXPECT(uda50_attach_called(uda, 1, ((uint64_t)1 << 32) + 5, false), UDA50_TOO_LARGE);
    EXPECT(uda50_attach_called(uda, 1, (uint64_t)1 << 32, false), UDA50_TOO_LARGE);
    EXPECT(uda50_attach_called(uda, 1, UINT64_MAX, false), UDA50_TOO_LARGE);
    EXPECT(uda50_detach(uda, 1, &empty), UDA50_NOT_ATTACHED);
    EXPECT(uda50_attach_called(uda, 1, sizes[1], false), UDA50_OK);
}

static void statuses_of_turns(void)
{
    static uint8_t bytes[BLOCK];
    static uda50 none;
    uda50 *uda = &called.uda;
    uda50_machine odd, large;
    uda50_turn_use use;

    begin(ARRAY);
    odd = large = called.reached;
    odd.length--;
    large.length = (4 << 20) + 2;
    make_pending(WRITE, BLOCK);
    EXPECT(are(ask(&use), UDA50_WRITES, 1), true);
    EXPECT(uda50_get_written(&none, called.physical, 1, &use, 0, bytes, BLOCK), UDA50_NO_CONTROLLER);
    EXPECT(uda50_get_written(uda, called.physical, MEMORY - 1, &use, 0, bytes, BLOCK), UDA50_BAD_LENGTH);
    EXPECT(uda50_machine_turn(&none, &odd), UDA50_NO_CONTROLLER);
    EXPECT(uda50_machine_turn(uda, &odd), UDA50_BAD_LENGTH);
    EXPECT(uda50_machine_turn(uda, &large), UDA50_TOO_LARGE);
    EXPECT(uda50_machine_run(&none, 0, &odd), UDA50_NO_CONTROLLER);
    EXPECT(uda50_machine_run(uda, 1, &odd), UDA50_BAD_LENGTH);
    EXPECT(uda50_machine_run(uda, 0, &large), UDA50_TOO_LARGE);
    EXPECT(uda50_machine_run(uda, 0, &called.reached), UDA50_IDLE);
    memset(&moved, 0, sizeof moved);
    EXPECT(uda50_machine_run(uda, 1, &called.reached), UDA50_EXECUTED);
    EXPECT(moved.end - moved.first, 1);
    EXPECT(uda50_machine_run(uda, TURNS, &called.reached), UDA50_IDLE);
}

/* What a call over this machine returns, and that nothing has changed. */
static void refused(const uda50_machine *reached, uint32_t turn, uint32_t write_sa)
{
    static uint8_t before[UDA50_STATE_LENGTH], after[UDA50_STATE_LENGTH], bytes[PHYSICAL];

    memset(&moved, 0, sizeof moved);
    memcpy(bytes, called.physical, PHYSICAL);
    EXPECT(uda50_save(&called.uda, before, sizeof before), UDA50_OK);
    EXPECT(uda50_machine_turn(&called.uda, reached), turn);
    EXPECT(uda50_machine_run(&called.uda, TURNS, reached), turn);
    EXPECT(uda50_machine_write_sa(&called.uda, 1, reached), write_sa);
    EXPECT(uda50_save(&called.uda, after, sizeof after), UDA50_OK);
    EXPECT(memcmp(before, after, sizeof before), 0);
    EXPECT(memcmp(bytes, called.physical, PHYSICAL), 0);
    EXPECT(moved.calls, 0);
}

/* Machines without what a turn needs: memory, a window that is long enough, valid map registers, or a function of a
   called image. A running port ignores a word for SA. */
static void refused_machines(void)
{
    static uda50_called partial;
    static uda50 none;
    uda50_machine it;
    uda50_map map;

    for (int way = 0; way < WAYS; way++) {
        begin(way);
        make_pending(way == CALLS ? READ : WRITE, BLOCK);
        it = called.reached;
        it.size--;
        refused(&it, UDA50_BAD_MACHINE, UDA50_BAD_MACHINE);
        it = called.reached;
        it.memory = NULL;
        it.write = NULL;
        refused(&it, UDA50_BAD_MACHINE, UDA50_BAD_MACHINE);
        EXPECT(uda50_machine_turn(&none, &it), UDA50_BAD_MACHINE);
        it = called.reached;
        it.memory = NULL;
        it.map = &called.map;
        it.read = read_bytes;
        it.write = write_bytes;
        refused(&it, UDA50_BAD_MACHINE, UDA50_BAD_MACHINE);
        it = called.reached;
        it.images[0] = NULL;
        refused(&it, UDA50_NO_FUNCTIONS, UDA50_OK);
        partial = images[0];
        partial.size--;
        it.images[0] = &partial;
        refused(&it, UDA50_BAD_MACHINE, UDA50_BAD_MACHINE);
        partial = images[0];
        partial.read = way == CALLS ? NULL : partial.read;
        partial.write = way == CALLS ? partial.write : NULL;
        refused(&it, UDA50_NO_FUNCTIONS, UDA50_OK);
        it = called.reached;
        it.window = NULL;
        if (way != ARRAY)
            refused(&it, UDA50_NO_WINDOW, UDA50_NO_WINDOW);
        it = called.reached;
        it.addresses = MEMORY - 2;
        if (way == MAPPED)
            refused(&it, UDA50_NO_WINDOW, UDA50_NO_WINDOW);
        it.addresses = MEMORY - 1;
        if (way == CALLS)
            refused(&it, UDA50_BAD_LENGTH, UDA50_OK);
        it.addresses = 0;
        if (way != ARRAY)
            refused(&it, UDA50_NO_WINDOW, UDA50_NO_WINDOW);
        map = called.map;
        map.page = 32;
        it = called.reached;
        it.map = &map;
        if (way == MAPPED)
            refused(&it, UDA50_BAD_MAP, UDA50_BAD_MAP);
        it = called.reached;
        it.map = way == MAPPED ? &map : NULL;
        it.window = NULL;
        EXPECT(uda50_machine_run(&none, 0, &it), UDA50_NO_CONTROLLER);
        EXPECT(uda50_machine_write_sa(&none, 0, &it), UDA50_NO_CONTROLLER);
        called.reached.size += 8; /* as a later program has it */
        EXPECT(called_turn(), UDA50_EXECUTED);
        EXPECT(moved.end - moved.first, 1);
        EXPECT(uda50_machine_run(&called.uda, TURNS, &called.reached), UDA50_IDLE);
    }
}

/* A function that is missing ends a run before the turn that needs it, also if all are missing. */
static void missing_functions(void)
{
    uda50_machine it;
    uda50_state state = { .size = sizeof state };

    for (int way = 0; way < WAYS; way++) {
        begin(way);
        it = called.reached;
        it.images[0] = NULL;
        for (int n = 0; n < 2; n++) {
            post(posted % COMMANDS, (command){ READ, 0, 1, 2 * BLOCK, 5 });
            give_response(posted++ % RESPONSES);
            show();
            uda50_read_ip(&called.uda);
            memset(&moved, 0, sizeof moved);
            EXPECT(uda50_machine_run(&called.uda, TURNS, &it), UDA50_NO_FUNCTIONS);
            EXPECT(uda50_get_state(&called.uda, &state), UDA50_OK);
            EXPECT(state.pending, 1);
            EXPECT(moved.calls, 0);
            EXPECT(uda50_machine_run(&called.uda, TURNS, &called.reached), UDA50_IDLE);
            EXPECT(moved.end - moved.first, 2);
            see();
            EXPECT(get16(response_at((posted - 1) % RESPONSES) + 10), 0);
            it.images[1] = it.images[2] = NULL;
        }
    }
}

/* What the calls that make no blocks ready return, and that nothing has changed if they refuse. */
static void expect_plain(uint32_t wanted, size_t length, const uda50_map *map)
{
    static uint8_t before[UDA50_STATE_LENGTH], after[UDA50_STATE_LENGTH], bytes[PHYSICAL];
    uda50 *uda = &called.uda;

    memcpy(bytes, called.physical, PHYSICAL);
    EXPECT(uda50_save(uda, before, sizeof before), UDA50_OK);
    EXPECT(uda50_write_sa(uda, 0x8000, called.physical, length), wanted);
    EXPECT(uda50_write_sa_mapped(uda, 0x8000, called.physical, PHYSICAL, map), wanted);
    EXPECT(uda50_turn(uda, called.physical, length), wanted);
    EXPECT(uda50_run(uda, 1, called.physical, length), wanted);
    EXPECT(uda50_run(uda, 0, called.physical, length), wanted);
    EXPECT(uda50_run_mapped(uda, 1, called.physical, PHYSICAL, map), wanted);
    EXPECT(uda50_run_mapped(uda, 0, called.physical, PHYSICAL, map), wanted);
    EXPECT(uda50_save(uda, after, sizeof after), UDA50_OK);
    EXPECT(memcmp(before, after, sizeof before) == 0, wanted != UDA50_OK);
    EXPECT(memcmp(bytes, called.physical, PHYSICAL), 0);
}

/* The turns and the words for SA of uda50.h refuse a controller that has a called image, before they judge memory or a map. */
static void refused_calls(void)
{
    static uint8_t block[BLOCK], state[UDA50_STATE_LENGTH];
    uda50_image image = { block, BLOCK };
    uda50_called partial = images[0];
    uda50_machine reached;
    uda50_map none;

    reach(&called, MAPPED);
    none = called.map;
    none.page = 32;
    uda50_write_ip(&called.uda, 0);
    expect_plain(UDA50_OTHER_KIND, 1, &none);
    expect_plain(UDA50_OTHER_KIND, MEMORY, &called.map);
    EXPECT(uda50_save(&called.uda, state, sizeof state), UDA50_OK);
    EXPECT(uda50_restore(&called.uda, state, sizeof state), UDA50_OK);
    for (uint32_t unit = 0; unit < 3; unit++) {
        expect_plain(UDA50_OTHER_KIND, MEMORY, &called.map);
        detach(&called, unit);
    }
    expect_plain(UDA50_OK, MEMORY, &called.map);
    reached = called.reached; /* with functions that nothing needs */
    reached.window = NULL;
    uda50_write_ip(&called.uda, 0);
    EXPECT(uda50_machine_write_sa(&called.uda, 0x8000, &reached), UDA50_OK);
    EXPECT(uda50_machine_run(&called.uda, 1, &reached), UDA50_IDLE);
    partial.size--;
    reached.images[0] = &partial;
    EXPECT(uda50_machine_write_sa(&called.uda, BASE, &reached), UDA50_BAD_MACHINE);
    EXPECT(uda50_machine_run(&called.uda, 1, &reached), UDA50_BAD_MACHINE);
    for (uint32_t unit = 0; unit < 3; unit++) {
        uda50_write_ip(&called.uda, 0);
        attach(&called, unit);
        expect_plain(UDA50_OTHER_KIND, MEMORY, &called.map);
        if (unit < 2) {
            EXPECT(uda50_attach(&called.uda, 2, &image, false), UDA50_OK);
            expect_plain(UDA50_OTHER_KIND, MEMORY, &called.map);
            EXPECT(uda50_detach(&called.uda, 2, &image), UDA50_OK);
            expect_plain(UDA50_OTHER_KIND, MEMORY, &called.map);
            detach(&called, unit);
            expect_plain(UDA50_OK, MEMORY, &called.map);
        }
    }
    attach(&called, 0);
    attach(&called, 1);
}

/* A window that is longer than the bus has addresses, which end where the map ends. Images in memory need none. */
static void any_window(void)
{
    static uint8_t window[2 * MEMORY];
    uda50_machine it;

    begin(MAPPED);
    make_pending(READ, 3 * BLOCK);
    it = called.reached;
    it.window = window;
    it.addresses = sizeof window;
    memset(window, 0x99, sizeof window);
    memset(&moved, 0, sizeof moved);
    EXPECT(uda50_machine_turn(&called.uda, &it), UDA50_EXECUTED);
    EXPECT(moved.end - moved.first, 3);
    EXPECT(uda50_machine_run(&called.uda, TURNS, &called.reached), UDA50_IDLE);
    see();
    EXPECT(memcmp(memory + BUFFER, called.disks[0] + 5 * BLOCK, 3 * BLOCK), 0);
    for (uint32_t n = MEMORY; n < sizeof window; n++)
        EXPECT(window[n], 0x99);
    post(posted % COMMANDS, (command){ READ, 0, 1, 2 * BLOCK, 0 });
    put32(command_at(posted % COMMANDS) + 16, MEMORY - BLOCK);
    give_response(posted % RESPONSES);
    show();
    uda50_read_ip(&called.uda);
    memset(&moved, 0, sizeof moved);
    EXPECT(uda50_machine_run(&called.uda, TURNS, &it), UDA50_IDLE);
    see();
    EXPECT(get16(response_at(posted++ % RESPONSES) + 10), NO_BUFFER);
    EXPECT(moved.calls, 0);
    reach(&held, MAPPED);
    held.reached.window = NULL;
    EXPECT(uda50_machine_turn(&held.uda, &held.reached) < UDA50_DEAD, true);
    EXPECT(uda50_machine_write_sa(&held.uda, 1, &held.reached), UDA50_OK);
}

/* ---- Memory ---- */

/* A Read takes its turn when there is memory for its blocks, and until then nothing changes. */
static void missing_memory(void)
{
    static uint8_t before[UDA50_STATE_LENGTH], after[UDA50_STATE_LENGTH], bytes[MEMORY];

    detach(&called, 0); /* with the memory that it had */
    attach(&called, 0);
    begin(CALLS);
    fill();
    make_pending(READ, 70 * BLOCK);
    memcpy(bytes, called.physical, MEMORY);
    EXPECT(uda50_save(&called.uda, before, sizeof before), UDA50_OK);
    for (allowed = 0; allowed < 20; allowed++) {
        uint32_t result;

        allocations = 0;
        memset(&moved, 0, sizeof moved);
        result = uda50_machine_turn(&called.uda, &called.reached);
        EXPECT(uda50_save(&called.uda, after, sizeof after), UDA50_OK);
        if (result != UDA50_NO_MEMORY)
            break;
        EXPECT(memcmp(before, after, sizeof before), 0);
        EXPECT(memcmp(bytes, called.physical, MEMORY), 0);
    }
    EXPECT(allowed > 0 && allowed < 20, true);
    allowed = UINT32_MAX;
    see();
    EXPECT(memcmp(memory + BUFFER, called.disks[0] + 5 * BLOCK, 70 * BLOCK), 0);
    expect_told(UDA50_EXECUTED);
}

/* Up to PIECE blocks are one call of the image. Only a Read and a Compare Host Data of more allocate. */
static void sizes_of_commands(void)
{
    static const uint8_t opcodes[] = { READ, COMPARE, ACCESS, WRITE };
    static const uint32_t counts[] = { 1, PIECE - 1, PIECE, PIECE + 1, 2 * PIECE, 2 * PIECE + 1 };

    begin(CALLS);
    for (uint32_t n = 0; n < 24; n++) {
        uint8_t opcode = opcodes[n / 6];
        uint32_t count = counts[n % 6];

        fill();
        if (opcode == COMPARE)
            memcpy(memory + BUFFER, called.disks[0] + 5 * BLOCK, count * BLOCK);
        make_pending(opcode, count * BLOCK);
        allocations = 0;
        memset(&moved, 0, sizeof moved);
        EXPECT(uda50_machine_turn(&called.uda, &called.reached), UDA50_EXECUTED);
        EXPECT(allocations, reads_bytes(opcode) && count > PIECE ? 1 : 0);
        EXPECT(moved.calls, (count + PIECE - 1) / PIECE);
        EXPECT(moved.first == 5 && moved.end == 5 + count, true);
        expect_told(UDA50_EXECUTED);
        see();
        if (opcode != ACCESS)
            EXPECT(memcmp(memory + BUFFER, called.disks[0] + 5 * BLOCK, count * BLOCK), 0);
        EXPECT(uda50_machine_run(&called.uda, TURNS, &called.reached), UDA50_IDLE);
    }
}

static uint32_t blocks_moved;

static uint32_t read_nothing(void *context, uint32_t lbn, uint32_t count, uint8_t *to)
{
    EXPECT(context == NULL && lbn == blocks_moved && to != NULL, true);
    blocks_moved += count;
    return count;
}

static uint32_t write_nothing(void *context, uint32_t lbn, uint32_t count, const uint8_t *from)
{
    EXPECT(from[0] == 0 && from[count * BLOCK - 1] == 0, true);
    return read_nothing(context, lbn, count, (uint8_t *)from);
}

/* The largest Access and Erase of the largest image. */
static void large_commands(void)
{
    static const uda50_called nothing = { sizeof nothing, NULL, read_nothing, write_nothing };
    static const uint8_t opcodes[] = { ONLINE, ACCESS, ERASE };

    detach(&called, 1);
    EXPECT(uda50_attach_called(&called.uda, 1, UDA50_MAX_BLOCKS, false), UDA50_OK);
    start_machine(&called, ARRAY);
    called.reached.images[1] = &nothing;
    see();
    posted = 0;
    for (uint32_t n = 0; n < sizeof opcodes; n++) {
        uint32_t bytes = n == 0 ? 0 : 0xfffffffe;

        post(posted % COMMANDS, (command){ opcodes[n], 1, n, bytes, 0 });
        give_response(posted++);
        show();
        uda50_read_ip(&called.uda);
        allocations = blocks_moved = 0;
        EXPECT(uda50_machine_run(&called.uda, TURNS, &called.reached), UDA50_IDLE);
        see();
        EXPECT(get16(response_at(n) + 10), 0);
        EXPECT(bytes_told(), n == 0 ? bytes_told() : bytes);
        EXPECT(blocks_moved, n == 0 ? 0 : 8388608);
        EXPECT(allocations, 0);
    }
    EXPECT(uda50_detach(&called.uda, 1, &(uda50_image){ NULL, 0 }), UDA50_OK);
    attach(&called, 1);
}

/* ---- The bus of a map ---- */

/* Any register: one page for two, or a page that is missing. Those of the rings mostly lead somewhere. */
static void lead_anywhere(void)
{
    for (uint32_t n = 0; n < PAGES; n++) {
        uint32_t way = any(n >= BUFFER / BLOCK ? 16 : 512);

        called.registers[n] = VALID | (way == 0 ? any(FRAMES) : n);
        if (way == 1)
            called.registers[n] &= ~VALID;
    }
    for (uint32_t n = 0; n < PAGES; n++) { /* exchange pages */
        uint32_t k = any(PAGES), kept = called.registers[n];

        if (n >= BUFFER / BLOCK && k >= BUFFER / BLOCK) {
            called.registers[n] = called.registers[k];
            called.registers[k] = kept;
        }
    }
    memcpy(held.registers, called.registers, sizeof held.registers);
}

/* Copies through map registers are those of the pages. */
static void copies(void)
{
    static uint8_t one[MEMORY], two[MEMORY];

    reach(&called, MAPPED);
    for (uint32_t n = 0; n < 300; n++) {
        uint32_t at = any(MEMORY), bytes = any(MEMORY - at + 1);
        bool whole;

        lead_anywhere();
        fill();
        memcpy(held.physical, called.physical, PHYSICAL);
        memset(one, 0xee, MEMORY);
        memset(two, 0xee, MEMORY);
        whole = copy(&called, (uda50_range){ at, bytes }, one, NULL);
        EXPECT(uda50_read_mapped(called.physical, PHYSICAL, &called.map, at, two, bytes), whole ? UDA50_OK : UDA50_NOWHERE);
        EXPECT(memcmp(one, two, MEMORY), 0);
        EXPECT(uda50_write_mapped(called.physical, PHYSICAL, &called.map, at, memory, bytes), UDA50_OK);
        write_bytes(&held, at, bytes, memory);
        EXPECT(memcmp(called.physical, held.physical, PHYSICAL), 0);
    }
}

/* Maps that no bus has, and addresses past the end of a bus. */
static void refused_copies(void)
{
    static uint8_t one[MEMORY], two[MEMORY];
    uda50_map map;

    reach(&called, MAPPED);
    memcpy(held.physical, called.physical, PHYSICAL);
    map = called.map;
    for (uint32_t n = 0; n < 3; n++) {
        uint32_t wanted = n == 0 ? UDA50_BAD_MAP : n == 1 ? UDA50_TOO_LARGE : UDA50_BAD_LENGTH;

        map.page = n == 0 ? 32 : n == 1 ? 31 : 0;
        map.count = n == 2 ? 3 : PAGES;
        memset(one, 0xee, MEMORY);
        memset(two, 0xee, MEMORY);
        EXPECT(uda50_read_mapped(called.physical, PHYSICAL, &map, 0, two, 4), wanted);
        EXPECT(uda50_write_mapped(called.physical, PHYSICAL, &map, 0, memory, 4), wanted);
        EXPECT(memcmp(one, two, MEMORY), 0);
        EXPECT(memcmp(called.physical, held.physical, PHYSICAL), 0);
    }
    map = called.map;
    EXPECT(uda50_read_mapped(called.physical, PHYSICAL, &map, MEMORY - 2, two, 4), UDA50_NOWHERE);
    EXPECT(uda50_read_mapped(called.physical, PHYSICAL, &map, UINT32_MAX, two, 4), UDA50_NOWHERE);
    EXPECT(uda50_write_mapped(called.physical, PHYSICAL, &map, UINT32_MAX, memory, 4), UDA50_OK);
    EXPECT(memcmp(called.physical, held.physical, PHYSICAL), 0);
}

/* ---- Random guests ---- */

static bool is_ports(uint32_t descriptor)
{
    return memory[BASE + 4 * descriptor + 3] & 0x80;
}

/* Any command, a Compare Host Data often of what the last command moved. */
static void post_any(uint32_t n, bool compatible)
{
    static const uint8_t opcodes[] = { READ, WRITE, READ, WRITE, READ, WRITE, ERASE, ACCESS, ONLINE, GET_UNIT_STATUS, AVAILABLE,
                                       COMPARE, COMPARE, COMPARE, ABORT, 11 };
    static command last;
    static uint32_t buffer = BUFFER, reference;
    command c = { opcodes[any(compatible ? 16 : 11)], (uint16_t)any(4), ++reference, (any(81) + 1) * BLOCK, any(LARGEST + 2) };

    if (c.opcode == COMPARE && any(4) != 0) {
        c = last;
        c.opcode = COMPARE;
        if (any(4) == 0 && buffer + c.bytes < MEMORY)
            memory[buffer + any(c.bytes + 1)] ^= (uint8_t)any(2);
    } else {
        buffer = (any(16) == 0 ? any(MEMORY) : BUFFER + any(MEMORY - BUFFER)) & ~1u;
        c.bytes = any(3) == 0 ? c.bytes - any(BLOCK / 2) * 2 : any(2) ? c.bytes : any(4) * BLOCK;
        c.lbn = any(4) == 0 ? any(4) : c.lbn % (sizes[c.unit] + 2);
    }
    last = c;
    if (c.opcode == ABORT) /* of the command before */
        c.bytes = reference - 1;
    if (any(64) == 0)
        c.unit = 4;
    post(n, c);
    put32(command_at(n) + 16, buffer);
    memory[command_at(n) + 15] |= (uint8_t)(c.opcode == ACCESS && any(64) == 0 ? 0xff : 0);
}

/* Gives the port commands for which it has credits, and most response descriptors. */
static void post_some(bool compatible)
{
    uda50_state state = { .size = sizeof state };

    EXPECT(uda50_get_state(&called.uda, &state), UDA50_OK);
    for (uint32_t n = 0; n < RESPONSES; n++)
        if (!is_ports(n) && any(8) != 0)
            give_response(n);
    for (uint32_t n = 0; n < state.commands.count && n < state.credits; n++) {
        uint32_t k = (state.commands.next + n) % state.commands.count;

        if (is_ports(RESPONSES + k) || any(8) == 0)
            break;
        post_any(k, compatible);
    }
}

/* What happens now and then between turns: volumes are exchanged, and the state is saved and restored. */
static void do_something_rare(void)
{
    static uint8_t state[UDA50_STATE_LENGTH];
    uint32_t unit = any(UDA50_UNITS);

    if (any(2)) {
        detach(&called, unit);
        detach(&held, unit);
        attach(&called, unit);
        attach(&held, unit);
    } else {
        EXPECT(uda50_save(&called.uda, state, sizeof state), UDA50_OK);
        EXPECT(uda50_restore(&called.uda, state, sizeof state), UDA50_OK);
        EXPECT(uda50_restore(&held.uda, state, sizeof state), UDA50_OK);
    }
}

/* Returns whether the port is dead. */
static bool play_round(bool compatible)
{
    uint32_t result = UDA50_FETCHED;

    see();
    post_some(compatible);
    show();
    EXPECT(uda50_read_ip(&called.uda), uda50_read_ip(&held.uda));
    for (uint32_t n = 0; n < TURNS && result != UDA50_IDLE && result != UDA50_DEAD; n++) {
        fails_after = any(3) == 0 ? any(any(8) == 0 ? 90 : 6) : NEVER;
        result = both_turn();
        if (any(128) == 0)
            do_something_rare();
    }
    fails_after = NEVER;
    return result == UDA50_DEAD;
}

static void start_any(int way)
{
    memset(memory, 0, BUFFER);
    two_commands = (uint16_t)any(2);
    start_both(way);
    if (way != ARRAY)
        lead_anywhere();
    posted = 0;
    for (uint16_t n = 0; n < UDA50_UNITS; n++) { /* a page of the rings may be missing */
        see();
        give_response(n);
        post(two_commands * n % COMMANDS, (command){ ONLINE, n, n, 0, 0 });
        show();
        uda50_read_ip(&called.uda);
        uda50_read_ip(&held.uda);
        for (uint32_t turn = 0; turn < 3; turn++)
            both_turn();
    }
}

static void random_guest(bool compatible, uint32_t rounds)
{
    make(&called, compatible);
    make(&held, compatible);
    start_both(ARRAY);
    fill();
    show();
    for (uint32_t n = 0; n < rounds && failures == 0; n++) {
        if (n % 64 == 0)
            start_any((int)any(WAYS));
        if (play_round(compatible))
            start_any(called.way);
    }
    free_machine(&called);
    free_machine(&held);
}

int main(int count, char **arguments)
{
    uint32_t guests = count > 1 ? (uint32_t)strtoul(arguments[1], NULL, 10) : 8;
    uint32_t rounds = count > 2 ? (uint32_t)strtoul(arguments[2], NULL, 10) : 400;

    make(&called, true);
    make(&held, true);
    each_block_fails();
    difference_before_a_failure();
    missing_buffer();
    rejected_moves();
    aborted_write();
    not_ready();
    ready_once();
    lent_bytes();
    lent_for_one_turn();
    told_bytes();
    refused_blocks();
    statuses_of_images();
    statuses_of_turns();
    refused_machines();
    missing_functions();
    any_window();
    ended_runs();
    run_after_attention();
    missing_memory();
    sizes_of_commands();
    copies();
    refused_copies();
    refused_calls();
    large_commands();
    free_machine(&called);
    free_machine(&held);
    for (uint32_t n = 0; n < guests && failures == 0; n++)
        random_guest(n % 2 == 0, rounds);
    return ended();
}
