/* driver.c: the driver. See driver.h. */
#include "driver.h"

#include <string.h>

enum { RINGS = 0x100, RESPONSE = 0x204, COMMAND = 0x304, BUFFER = 0x400 };
enum { SET_CONTROLLER = 4, ONLINE = 9, READ = 33, WRITE = 34, END = 0x80 };
enum { STATUS_MAJOR = 0x1f, DRIVE_ERROR = 11 };

static void put16(bus *bus, size_t at, uint32_t word)
{
    bus->memory[at] = (uint8_t)word;
    bus->memory[at + 1] = (uint8_t)(word >> 8);
}

static void put32(bus *bus, size_t at, uint32_t number)
{
    put16(bus, at, number);
    put16(bus, at + 2, number >> 16);
}

static uint32_t get16(const bus *bus, size_t at)
{
    return bus->memory[at] | (uint32_t)bus->memory[at + 1] << 8;
}

static uint32_t get32(const bus *bus, size_t at)
{
    return get16(bus, at) | get16(bus, at + 2) << 16;
}

static void put_command(driver *driver, uint8_t opcode, uint32_t bytes, uint32_t block)
{
    bus *bus = driver->bus;

    memset(bus->memory + COMMAND, 0, 48);
    put32(bus, COMMAND, ++driver->reference);
    bus->memory[COMMAND + 8] = opcode;
    put32(bus, COMMAND + 12, bytes);
    put32(bus, COMMAND + 16, BUFFER);
    put32(bus, COMMAND + 28, block);
    put16(bus, COMMAND - 4, 48);
    put16(bus, COMMAND - 2, 0);
}

/* Gives the port a command and a buffer for its end. */
static void give(driver *driver)
{
    bus *bus = driver->bus;

    put16(bus, RESPONSE - 4, driver->broken == RULE_RESPONSE ? 40 : 60);
    put16(bus, RINGS, RESPONSE);
    put16(bus, RINGS + 2, 0x8000);
    put16(bus, RINGS + 4, COMMAND + (driver->broken == RULE_ADDRESS));
    put16(bus, RINGS + 6, 0x8000);
    bus->read_ip(bus);
}

/* Executes one command. */
static unsigned ask(driver *driver, uint8_t opcode, uint32_t bytes, uint32_t block)
{
    bus *bus = driver->bus;

    put_command(driver, opcode, bytes, block);
    give(driver);
    if (driver->broken == RULE_CREDITS) {
        put16(bus, RINGS + 2, 0); /* no end may come, and with it no credit */
        bus->wait(bus);
        give(driver);
    }
    bus->wait(bus);
    if (bus->read_sa(bus) != 0)
        return DRIVER_DEAD;
    if (get32(bus, RESPONSE) != driver->reference || bus->memory[RESPONSE + 8] != (opcode | END))
        return DRIVER_LOST;
    return get16(bus, RESPONSE + 10);
}

unsigned driver_start(driver *driver)
{
    bus *bus = driver->bus;
    unsigned status;

    bus->write_ip(bus, 0);
    bus->write_sa(bus, 0x8000);
    bus->write_sa(bus, RINGS);
    bus->write_sa(bus, 0);
    bus->write_sa(bus, 1);
    if (bus->read_sa(bus) != 0)
        return DRIVER_DEAD;
    status = ask(driver, SET_CONTROLLER, 0, 0);
    return status != 0 ? status : ask(driver, ONLINE, 0, 0);
}

static unsigned transfer(driver *driver, uint8_t opcode, uint32_t block)
{
    unsigned status = ask(driver, opcode, DRIVER_BLOCK, block);

    for (int left = DRIVER_RETRIES; left > 0 && (status & STATUS_MAJOR) == DRIVE_ERROR; left--) {
        driver->retried++;
        status = ask(driver, opcode, DRIVER_BLOCK, block);
    }
    return status;
}

unsigned driver_read(driver *driver, uint32_t block, uint8_t *to)
{
    unsigned status = transfer(driver, READ, block);

    if (status == 0)
        memcpy(to, driver->bus->memory + BUFFER, DRIVER_BLOCK);
    return status;
}

unsigned driver_write(driver *driver, uint32_t block, const uint8_t *from)
{
    memcpy(driver->bus->memory + BUFFER, from, DRIVER_BLOCK);
    return transfer(driver, WRITE, block);
}
