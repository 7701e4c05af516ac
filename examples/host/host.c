/* host.c: a guest's side of a UDA50 in C. It starts the port up, posts a handful of commands through rings of
   one descriptor, and prints each end message.

   Usage: host IMAGE; the image is changed in its block 2. */
#include "uda50.h"
#include "uda50_file.h"

#include <stdio.h>
#include <string.h>

enum { SIZE = 65536, RINGS = 0x1000, RESPONSE = 0x2004, COMMAND = 0x3004, BUFFER = 0x4000 };

enum { GET_UNIT_STATUS = 3, SET_CONTROLLER = 4, ONLINE = 9, FIRST_TRANSFER = 16, READ = 33, WRITE = 34 };

static uint8_t memory[SIZE];
static uda50 uda;

static void put16(uint32_t at, uint32_t word)
{
    memory[at] = (uint8_t)word;
    memory[at + 1] = (uint8_t)(word >> 8);
}

static void put32(uint32_t at, uint32_t number)
{
    put16(at, number);
    put16(at + 2, number >> 16);
}

static uint32_t get16(uint32_t at)
{
    return memory[at] | (uint32_t)memory[at + 1] << 8;
}

static uint32_t get32(uint32_t at)
{
    return get16(at) | get16(at + 2) << 16;
}

static void write_sa(uint16_t word)
{
    uda50_write_sa(&uda, word, memory, SIZE);
    printf("SA <- %04x, then reads %04x\n", word, uda50_read_sa(&uda));
}

/* Executes one command; false if the port died of it. */
static bool post(const char *name, uint8_t opcode, uint16_t unit, uint32_t bytes, uint32_t block)
{
    static uint32_t reference;
    uint32_t turn;

    memset(memory + COMMAND, 0, 48);
    put32(COMMAND, ++reference);
    put16(COMMAND + 4, unit);
    memory[COMMAND + 8] = opcode;
    put32(COMMAND + 12, bytes);
    put32(COMMAND + 16, BUFFER);
    put32(COMMAND + 28, block);
    put16(COMMAND - 4, 48); /* the envelopes */
    put16(COMMAND - 2, 0);
    put16(RESPONSE - 4, 60);
    put16(RINGS, RESPONSE); /* the descriptors, given to the port */
    put16(RINGS + 2, 0x8000);
    put16(RINGS + 4, COMMAND);
    put16(RINGS + 6, 0x8000);
    uda50_read_ip(&uda);
    do {
        turn = uda50_turn(&uda, memory, SIZE);
    } while (turn != UDA50_IDLE && turn < UDA50_DEAD);
    if (turn != UDA50_IDLE) {
        printf("%s: answer %u, SA reads %04x\n", name, (unsigned)turn, uda50_read_sa(&uda));
        return false;
    }
    printf("%-18s reference %u, end %02x, status %04x", name, (unsigned)get32(RESPONSE), memory[RESPONSE + 8],
           (unsigned)get16(RESPONSE + 10));
    if (opcode >= FIRST_TRANSFER)
        printf(", bytes %u", (unsigned)get32(RESPONSE + 12));
    printf("\n");
    return true;
}

static bool posts(uint32_t blocks)
{
    if (!post("Set Controller", SET_CONTROLLER, 0, 0, 0) || !post("Get Unit Status 0", GET_UNIT_STATUS, 0, 0, 0)
        || !post("Get Unit Status 1", GET_UNIT_STATUS, 1, 0, 0) || !post("Read", READ, 0, 512, 1)
        || !post("Online", ONLINE, 0, 0, 0) || !post("Read", READ, 0, 512, 1))
        return false;
    printf("  block 1 begins \"%.7s\"\n", (char *)memory + BUFFER);
    memcpy(memory + BUFFER, "written by host", 16);
    if (!post("Write", WRITE, 0, 512, 2))
        return false;
    memset(memory + BUFFER, 0, 512);
    if (!post("Read", READ, 0, 512, 2))
        return false;
    printf("  block 2 begins \"%.15s\"\n", (char *)memory + BUFFER);
    return post("Read past the end", READ, 0, 512, blocks);
}

int main(int argc, char **argv)
{
    uda50_file file;
    uda50_image images[UDA50_UNITS] = { { NULL, 0 } };
    uint16_t vector = 0;
    bool done;

    if (argc != 2) {
        fprintf(stderr, "usage: host IMAGE\n");
        return 2;
    }
    int fault = uda50_file_open(&file, argv[1], false);
    if (fault != UDA50_FILE_OK) {
        fprintf(stderr, "%s: %s\n", argv[1], uda50_file_text(fault));
        return 1;
    }
    if (uda50_new(&uda, true) != UDA50_OK || uda50_file_attach(&uda, 0, &file) != UDA50_OK)
        return 1;
    printf("SA reads %04x\n", uda50_read_sa(&uda));
    write_sa(0x8080 | 0x154 / 4); /* rings of one descriptor; interrupts at the vector 154 */
    write_sa(RINGS);
    write_sa(0);
    while (uda50_take_interrupt(&uda, &vector))
        printf("an interrupt at %03x\n", vector);
    write_sa(1);
    done = posts((uint32_t)(file.length / 512));
    uda50_free(&uda, images);
    fault = uda50_file_close(&file);
    if (fault != UDA50_FILE_OK)
        fprintf(stderr, "%s: %s\n", argv[1], uda50_file_text(fault));
    return done && fault == UDA50_FILE_OK ? 0 : 1;
}
