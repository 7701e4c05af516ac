/* driver.h: a small class driver for a UDA50, to be tested: one command at a time, through rings of one
   descriptor. It knows a controller by its registers and its memory alone, which `bus` has. */
#ifndef DRIVER_H
#define DRIVER_H

#include <stdbool.h>
#include <stddef.h>
#include <stdint.h>

/* What a driver has of a machine. */
typedef struct bus {
    uint8_t *memory;
    size_t length;
    void (*write_ip)(struct bus *bus, uint16_t word);
    uint16_t (*read_ip)(struct bus *bus);
    void (*write_sa)(struct bus *bus, uint16_t word);
    uint16_t (*read_sa)(struct bus *bus);
    void (*wait)(struct bus *bus); /* until the controller has nothing more to do */
} bus;

/* A rule that the driver can be made to break. */
typedef enum {
    RULE_NONE,
    RULE_CREDITS,  /* posts a command for which it has no credit */
    RULE_ADDRESS,  /* points a command's descriptor to an odd address */
    RULE_RESPONSE, /* gives a response buffer of fewer bytes than an end message has */
    RULE_COUNT
} rule;

enum { DRIVER_BLOCK = 512, DRIVER_RETRIES = 2 };

/* How a request went: 0 for done, else the status word of its end, or one of these. */
enum { DRIVER_DEAD = 0x8000, DRIVER_LOST = 0x7fff };

typedef struct {
    bus *bus;
    rule broken;
    uint32_t reference;
    uint32_t retried; /* how many requests it had to repeat */
} driver;

/* Starts the controller up and brings unit 0 online. */
unsigned driver_start(driver *driver);

/* Reads or writes one block of unit 0; a drive error is tried again. */
unsigned driver_read(driver *driver, uint32_t block, uint8_t *to);
unsigned driver_write(driver *driver, uint32_t block, const uint8_t *from);

#endif
