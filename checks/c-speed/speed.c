/* speed.c: what the port costs a program in C, in processor time: turns, and Reads of 32 blocks and of one through
   rings of eight descriptors, over an image that is mapped. Then the same over a called image and memory that the bus
   reaches through map registers: by a call for each turn, and by a call for all turns until the port rests.

   Usage: speed IMAGE ROUNDS; prints a line for each work. */
#define _POSIX_C_SOURCE 200809L
#include "uda50.h"
#include "uda50_file.h"
#include "uda50_machine.h"

#include <stdio.h>
#include <stdlib.h>
#include <string.h>
#include <time.h>

enum { SIZE = 262144, RINGS = 0x1000, RESPONSES = 0x2000, COMMANDS = 0x3000, PACKET = 64, BUFFER = 0x10000 };
enum { COUNT = 8, ROUND = 512 };
enum { GET_UNIT_STATUS = 3, SET_CONTROLLER = 4, ONLINE = 9, READ = 33 };

typedef struct {
    const char *name;
    uint8_t opcode;
    uint32_t blocks;
} errand;

static uint8_t memory[SIZE], window[SIZE];
static uda50 uda;
static uint32_t place, turns; /* the next descriptor of both rings, and how often turns were asked for */

/* The called image, and a machine whose bus addresses lead to the same ones of memory. */
static const uint8_t *blocks;

static uint32_t read_blocks(void *context, uint32_t lbn, uint32_t count, uint8_t *to)
{
    (void)context;
    memcpy(to, blocks + (size_t)lbn * 512, (size_t)count * 512);
    return count;
}

static uint32_t registers[SIZE >> 13];
static const uda50_map map = {.registers = registers, .count = SIZE >> 13, .page = 13, .frame = 0x3fffff};
static const uda50_called image = {.size = sizeof image, .read = read_blocks};
static const uda50_machine mapped = {.size = sizeof mapped, .memory = memory, .length = SIZE, .map = &map, .window = window,
                                     .addresses = SIZE, .images = {&image}};

static uint32_t turn_of_array(void)
{
    return uda50_turn(&uda, memory, SIZE);
}

static uint32_t turn_of_mapped(void)
{
    return uda50_machine_turn(&uda, &mapped);
}

static uint32_t run_of_mapped(void)
{
    return uda50_machine_run(&uda, 1000, &mapped);
}

static uint32_t (*take_turn)(void) = turn_of_array;

static void put16(uint32_t at, uint32_t word)
{
    memory[at] = (uint8_t)word;
    memory[at + 1] = (uint8_t)(word >> 8);
}

static void put32(uint32_t at, uint32_t number)
{
    put16(at, number);
    put16(at + 2, number >> 16);
}

/* Gives the port a descriptor of packet `n` from `packets` on. */
static void give(uint32_t descriptor, uint32_t packets, uint32_t n)
{
    uint32_t at = packets + PACKET * n + 4;

    put16(at - 4, 60);
    put16(at - 2, 0);
    put16(descriptor, at);
    put16(descriptor + 2, 0x8000);
}

static void post(errand of, uint32_t n, uint32_t block)
{
    uint32_t at = COMMANDS + PACKET * n + 4;

    memset(memory + at, 0, 48);
    put32(at, block + 1);
    memory[at + 8] = of.opcode;
    put32(at + 12, 512 * of.blocks);
    put32(at + 16, BUFFER);
    put32(at + 28, block);
    give(RINGS + 4 * n, RESPONSES, n);
    give(RINGS + 4 * (COUNT + n), COMMANDS, n);
}

/* That many of them at once, and their turns; false where one failed. */
static bool done(errand of, uint32_t block, uint32_t count)
{
    uint32_t turn, failed = 0;

    for (uint32_t i = 0; i < count; i++)
        post(of, (place + i) % COUNT, block + i * of.blocks);
    uda50_read_ip(&uda);
    do {
        turn = take_turn();
        turns++;
    } while (turn != UDA50_IDLE && turn < UDA50_DEAD);
    for (uint32_t i = 0; i < count; i++, place = (place + 1) % COUNT) {
        const uint8_t *status = memory + RESPONSES + PACKET * place + 4 + 10;
        failed |= status[0] | status[1];
    }
    return turn == UDA50_IDLE && failed == 0;
}

static bool start(void)
{
    static const uint16_t words[] = {0x8000 | 3 << 11 | 3 << 8, RINGS, 0, 1};
    static const errand first[] = {{"", SET_CONTROLLER, 0}, {"", ONLINE, 0}};

    place = 0;
    for (size_t i = 0; i < sizeof words / sizeof *words; i++)
        if (take_turn == turn_of_array)
            uda50_write_sa(&uda, words[i], memory, SIZE);
        else
            uda50_machine_write_sa(&uda, words[i], &mapped);
    return done(first[0], 0, 1) && done(first[1], 0, 1);
}

static double now(void)
{
    struct timespec time;

    clock_gettime(CLOCK_PROCESS_CPUTIME_ID, &time);
    return (double)time.tv_sec + (double)time.tv_nsec * 1e-9;
}

/* Prints a line for each work, of that many rounds. */
static bool measure(const char *how, uint32_t rounds)
{
    static const errand errands[] = {{"status 0", GET_UNIT_STATUS, 0}, {"read 1", READ, 1}, {"read 32", READ, 32}};

    for (size_t i = 0; i < sizeof errands / sizeof *errands; i++) {
        double since = now(), spent;

        turns = 0;
        for (uint32_t round = 0; round < rounds; round++)
            for (uint32_t group = 0; group < ROUND; group++)
                if (!done(errands[i], group * COUNT * errands[i].blocks, COUNT))
                    return false;
        spent = now() - since;
        printf("%s: %-12s %12.0f commands/s %12.0f calls/s\n", how, errands[i].name, rounds * ROUND * COUNT / spent,
               turns / spent);
    }
    return true;
}

int main(int argc, char **argv)
{
    uda50_image images[UDA50_UNITS] = {{NULL, 0}};
    uda50_file file;

    if (argc != 3 || uda50_file_open(&file, argv[1], true) != UDA50_FILE_OK || uda50_new(&uda, true) != UDA50_OK
        || uda50_file_attach(&uda, 0, &file) != UDA50_OK || !start())
        return 2;
    if (!measure("from C", (uint32_t)atoi(argv[2])))
        return 1;
    uda50_free(&uda, images);
    blocks = images[0].at;
    for (uint32_t n = 0; n < SIZE >> 13; n++)
        registers[n] = n << 13;
    take_turn = turn_of_mapped;
    if (uda50_new(&uda, true) != UDA50_OK || uda50_attach_called(&uda, 0, images[0].length / 512, true) != UDA50_OK || !start())
        return 2;
    if (!measure("mapped, by calls", (uint32_t)atoi(argv[2])))
        return 1;
    take_turn = run_of_mapped;
    if (!measure("mapped, in runs", (uint32_t)atoi(argv[2])))
        return 1;
    uda50_free(&uda, (uda50_image[UDA50_UNITS]){{NULL, 0}});
    return uda50_file_close(&file) == UDA50_FILE_OK ? 0 : 1;
}
