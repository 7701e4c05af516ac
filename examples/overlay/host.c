/* host.c: a disk that is an overlay. A block is read from a base file, which stays as it is, until the guest writes it.
   Then it is in a second file. That has a bit for each block after its blocks, and so it keeps them for the next run.
   Usage: host BASE OVERLAY; it prints what a guest's commands end with. */
#include "uda50_machine.h"
#include <stdio.h>
#include <string.h>
enum { BLOCK = 512, BLOCKS = 8, SIZE = 32768, RINGS = 0x1000, RESPONSE = 0x2004, COMMAND = RINGS + 12, BUFFER = 0x4000 };
static FILE *base, *second;
static uint8_t bits[BLOCKS / 8], memory[SIZE]; /* a bit for each block of `second`, and the guest's memory */
static uda50 uda;

/* Opens the second file, which may be new, and reads its bits. A new file has none. */
static bool open_second(const char *path)
{
    FILE *made = fopen(path, "ab");
    return made != NULL && fclose(made) == 0 && (second = fopen(path, "rb+")) != NULL
           && fseek(second, BLOCKS * BLOCK, SEEK_SET) == 0 && (fread(bits, sizeof bits, 1, second) == 1 || !ferror(second));
}

static bool write_at(long at, const uint8_t *from, size_t bytes)
{
    return fseek(second, at, SEEK_SET) == 0 && fwrite(from, bytes, 1, second) == 1 && fflush(second) == 0;
}

static uint32_t read_blocks(void *context, uint32_t lbn, uint32_t count, uint8_t *to)
{
    const uint8_t *written = context;
    for (uint32_t n = 0; n < count; n++, lbn++, to += BLOCK) {
        FILE *from = written[lbn / 8] >> lbn % 8 & 1 ? second : base;
        if (fseek(from, (long)lbn * BLOCK, SEEK_SET) != 0 || fread(to, BLOCK, 1, from) != 1)
            return n; /* the command ends with a drive error at this block */
    }
    return count;
}

static uint32_t write_blocks(void *context, uint32_t lbn, uint32_t count, const uint8_t *from)
{
    uint8_t *written = context;
    for (uint32_t n = 0; n < count; n++, lbn++, from += BLOCK) {
        uint8_t byte = (uint8_t)(written[lbn / 8] | 1 << lbn % 8);
        if (!write_at((long)lbn * BLOCK, from, BLOCK) || !write_at(BLOCKS * BLOCK + lbn / 8, &byte, 1))
            return n;
        written[lbn / 8] = byte;
    }
    return count;
}

static const uda50_called image = {sizeof image, bits, read_blocks, write_blocks};
static const uda50_machine machine = {.size = sizeof machine, .memory = memory, .length = SIZE, .images = {&image}};

static void post(const char *name, uint8_t opcode, uint8_t lbn)
{
    const uint8_t posted[60] = {RESPONSE & 255, RESPONSE >> 8, 0, 0x80, COMMAND & 255, COMMAND >> 8, 0, 0x80, /* the rings */
                                48, [20] = opcode, [25] = BLOCK >> 8, [29] = BUFFER >> 8, [40] = lbn};
    memcpy(memory + RINGS, posted, sizeof posted);
    uda50_read_ip(&uda);
    uda50_machine_run(&uda, 100, &machine);
    printf("%s %u: status %02x, the buffer begins \"%.7s\"\n", name, lbn, memory[RESPONSE + 10], (char *)memory + BUFFER);
}

int main(int argc, char **argv)
{
    if (argc != 3 || (base = fopen(argv[1], "rb")) == NULL || !open_second(argv[2]) || uda50_new(&uda, true) != UDA50_OK
        || uda50_attach_called(&uda, 0, BLOCKS, false) != UDA50_OK)
        return 1;
    for (int n = 0; n < 4; n++)
        uda50_machine_write_sa(&uda, (const uint16_t[]){0x8000, RINGS, 0, 1}[n], &machine);
    post("Online", 9, 0);
    post("Read", 33, 1);
    post("Read", 33, 2);
    memcpy(memory + BUFFER, "written", 8);
    post("Write", 34, 2);
    post("Read", 33, 2);
    post("Read", 33, 7);
    return uda50_free(&uda, (uda50_image[UDA50_UNITS]){{NULL, 0}}) == UDA50_OK && fclose(second) == 0 ? 0 : 1;
}
