/* test.c: a class driver in C under test. It is run against a strict controller whose unit fails at a call that
   the test names, and then with a rule of the rings broken, of which the port dies with a code that tells which. */
#include "driver.h"
#include "uda50.h"

#include <stdio.h>
#include <string.h>

enum { BLOCKS = 8, MEMORY = 0x1000, TURNS = 1000 };

typedef struct {
    bus bus;
    uda50 uda;
} machine;

static uint8_t disk[BLOCKS * DRIVER_BLOCK];
static uint8_t memory[MEMORY];
static bool tracing;

static machine *machine_of(bus *bus)
{
    return (machine *)bus;
}

static void write_ip(bus *bus, uint16_t word)
{
    uda50_write_ip(&machine_of(bus)->uda, word);
}

static uint16_t read_ip(bus *bus)
{
    return uda50_read_ip(&machine_of(bus)->uda);
}

static void write_sa(bus *bus, uint16_t word)
{
    uda50_write_sa(&machine_of(bus)->uda, word, bus->memory, bus->length);
}

static uint16_t read_sa(bus *bus)
{
    return uda50_read_sa(&machine_of(bus)->uda);
}

/* Turn by turn, so that each can be state; uda50_run does the same in one call. */
static void wait_traced(bus *bus)
{
    char line[96];
    uint32_t turn;

    if (!tracing) {
        uda50_run(&machine_of(bus)->uda, TURNS, bus->memory, bus->length);
        return;
    }
    do {
        turn = uda50_turn(&machine_of(bus)->uda, bus->memory, bus->length);
        if (turn != UDA50_IDLE
            && uda50_format_last_turn(&machine_of(bus)->uda, (uint8_t *)line, sizeof line) == UDA50_OK)
            printf("  %s\n", line);
    } while (turn != UDA50_IDLE && turn < UDA50_DEAD);
}

static bool make(machine *made)
{
    uda50_image image = { disk, sizeof disk };

    memset(memory, 0, sizeof memory);
    memset(made, 0, sizeof *made);
    made->bus = (bus){ memory, MEMORY, write_ip, read_ip, write_sa, read_sa, wait_traced };
    return uda50_new(&made->uda, false) == UDA50_OK && uda50_attach(&made->uda, 0, &image, false) == UDA50_OK;
}

static void unmake(machine *made)
{
    uda50_image images[UDA50_UNITS] = { { NULL, 0 } };

    uda50_free(&made->uda, images);
}

/* The driver over a unit that fails once, at its call number `call`. */
static void over_a_failing_unit(uint32_t call)
{
    machine machine;
    driver driver = { &machine.bus, RULE_NONE, 0, 0 };
    uint8_t from[DRIVER_BLOCK], to[DRIVER_BLOCK];
    unsigned written, read;

    memset(from, 'w', sizeof from);
    memset(to, 0, sizeof to);
    if (!make(&machine) || driver_start(&driver) != 0)
        return;
    uda50_inject_failure(&machine.uda, 0, call);
    written = driver_write(&driver, 3, from);
    read = driver_read(&driver, 3, to);
    printf("failing at call %u: written %04x, read %04x, %u repeated, %s\n", (unsigned)call, written, read,
           (unsigned)driver.retried, memcmp(from, to, sizeof to) == 0 ? "the same bytes" : "other bytes");
    unmake(&machine);
}

/* The driver with a rule broken: the code that SA shows, and what the library tells of it. */
static void with_a_rule_broken(rule broken)
{
    static const char *const names[RULE_COUNT] = { "none", "credits", "address", "response" };
    machine machine;
    driver driver = { &machine.bus, broken, 0, 0 };
    uda50_state state = { .size = sizeof state };
    uda50_turn_record last = { .size = sizeof last };
    char line[96];

    if (!make(&machine))
        return;
    driver_start(&driver);
    uda50_get_state(&machine.uda, &state);
    uda50_get_last_turn(&machine.uda, &last);
    uda50_format_last_turn(&machine.uda, (uint8_t *)line, sizeof line);
    printf("rule broken: %-8s SA %04x, phase %u, last turn %u code %u (%s)\n", names[broken], state.sa,
           (unsigned)state.phase, (unsigned)last.kind, last.code, line);
    unmake(&machine);
}

int main(void)
{
    tracing = true;
    over_a_failing_unit(1);
    tracing = false;
    for (uint32_t call = 0; call <= 3; call++)
        over_a_failing_unit(call);
    for (int broken = RULE_NONE; broken < RULE_COUNT; broken++)
        with_a_rule_broken((rule)broken);
    return 0;
}
