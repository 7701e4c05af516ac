/* guest.h: what the programs of this folder share: a line for each value that isn't the wanted one, and a guest with rings
   of four responses and two commands in a memory of its own. A program with threads defines PER_THREAD as __thread: then
   each thread has a count of failures and a guest. A program that has a `memory` already defines HAS_MEMORY. */
#ifndef GUEST_H
#define GUEST_H

#include "uda50.h"

#include <stdio.h>
#include <string.h>

enum { BLOCK = 512, SIZE = 0x4000, BASE = 0x1000, RESPONSES = 4, COMMANDS = 2, BUFFER = 0x2000, VECTOR = 0x154 };
enum { GET_UNIT_STATUS = 3, SET_CONTROLLER = 4, ONLINE = 9, READ = 33, WRITE = 34, END = 0x80 };

#ifndef PER_THREAD
#define PER_THREAD
#endif

/* How the guest's words for SA and the turns go to the port. A program whose controllers have called images defines both. */
#ifndef WRITE_SA
#define WRITE_SA uda50_write_sa
#define RUN uda50_run
#endif

static PER_THREAD int failures;
#ifndef HAS_MEMORY
static PER_THREAD uint8_t memory[SIZE];
#endif

static void expect(unsigned long answer, unsigned long wanted, const char *what, int line)
{
    if (answer == wanted)
        return;
    printf("line %d: %s is %lu and not %lu\n", line, what, answer, wanted);
    failures++;
}

#define EXPECT(answer, wanted) expect((unsigned long)(answer), (unsigned long)(wanted), #answer, __LINE__)

/* What a program prints and returns at its end. */
static int ended(void)
{
    printf("%s\n", failures == 0 ? "all as written" : "not as written");
    return failures == 0 ? 0 : 1;
}

static PER_THREAD uint64_t seed = 88172645463325252u;

/* Returns a random number below this one. */
static inline uint32_t any(uint32_t below)
{
    seed ^= seed << 13;
    seed ^= seed >> 7;
    seed ^= seed << 17;
    return (uint32_t)(seed >> 32) % below;
}

static void put16(uint32_t at, uint32_t word)
{
    memory[at] = (uint8_t)word;
    memory[at + 1] = (uint8_t)(word >> 8);
}

static void put32(uint32_t at, uint32_t number)
{
    put16(at, number);
    put16(at + 2, number >> 16);
}

static uint32_t get16(uint32_t at)
{
    return memory[at] | (uint32_t)memory[at + 1] << 8;
}

/* The texts of response `n` and of command `n`. */
static uint32_t response_at(uint32_t n)
{
    return 0x1104 + 0x40 * n;
}

static uint32_t command_at(uint32_t n)
{
    return 0x1404 + 0x40 * n;
}

/* Starts the port up, with interrupts at VECTOR. */
static inline void start(uda50 *uda)
{
    memset(memory, 0, sizeof memory);
    uda50_write_ip(uda, 0);
    EXPECT(WRITE_SA(uda, 0x8080 | 1 << 11 | 2 << 8 | VECTOR / 4, memory, SIZE), UDA50_OK);
    EXPECT(WRITE_SA(uda, BASE, memory, SIZE), UDA50_OK);
    EXPECT(WRITE_SA(uda, 0, memory, SIZE), UDA50_OK);
    EXPECT(WRITE_SA(uda, 1, memory, SIZE), UDA50_OK);
}

/* Gives the port the response descriptor `n`. */
static inline void give_response(uint32_t n)
{
    put16(response_at(n) - 4, 60);
    put16(BASE + 4 * n, response_at(n));
    put16(BASE + 4 * n + 2, 0x8000);
}

typedef struct {
    uint8_t opcode;
    uint16_t unit;
    uint32_t reference, bytes, lbn;
} command;

/* Posts a command as number `n` of its ring. */
static inline void post(uint32_t n, command c)
{
    uint32_t at = command_at(n);

    memset(memory + at, 0, 48);
    put32(at, c.reference);
    put16(at + 4, c.unit);
    memory[at + 8] = c.opcode;
    put32(at + 12, c.bytes);
    put32(at + 16, BUFFER);
    put32(at + 28, c.lbn);
    put16(at - 4, 48);
    put16(at - 2, 0);
    put16(BASE + 4 * (RESPONSES + n), at);
    put16(BASE + 4 * (RESPONSES + n) + 2, 0x8000);
}

/* Starts the port up and executes one command. Returns the status that its end message has. */
static inline uint32_t status_of(uda50 *uda, command c)
{
    static PER_THREAD uint32_t response, place;

    if (c.opcode == SET_CONTROLLER) {
        start(uda);
        response = place = 0;
    }
    give_response(response % RESPONSES);
    post(place % COMMANDS, c);
    uda50_read_ip(uda);
    EXPECT(RUN(uda, 100, memory, SIZE), UDA50_IDLE);
    place++;
    return get16(response_at(response++ % RESPONSES) + 10);
}

#endif
