/* uda50_machine.h: turns over any guest memory and any images. The memory is one array, an array that the bus reaches
   through map registers, or whatever the emulator reaches by calls of its own. The images are in memory, or called ones,
   which the emulator reads and writes by calls of its own. Any memory goes with any images. docs/C.md has an example of each.

   While a controller has no called image, these calls do what those of uda50.h do over one array or over a map. */
#ifndef UDA50_MACHINE_H
#define UDA50_MACHINE_H

#include "uda50.h"

#ifdef __cplusplus
extern "C" {
#endif

/* How the blocks of a called image are read and written. Each function moves `count` blocks of 512 bytes, 1 to 32, from
   block `lbn` on, in rising order. It returns how many it moved before the first that failed. `count` says that none
   failed, and so does any larger number. A function that isn't called may be null: `write` of a write-protected unit.

   The functions are called within a turn. So they make no call of the library with this handle, and no turn of another
   controller over the same window. Nor do they run the guest, or let a device write to its memory. */
typedef struct {
    size_t size; /* sizeof(uda50_called): later members go last */
    void *context;
    uint32_t (*read)(void *context, uint32_t lbn, uint32_t count, uint8_t *to);
    uint32_t (*write)(void *context, uint32_t lbn, uint32_t count, const uint8_t *from);
} uda50_called;

/* A guest's memory and its images. Set to zero what a machine doesn't have. The struct holds no state: each call may get
   another one, and its map registers may change between two calls. Save, restore and interrupts are those of the handle.

   The memory is one of these:
     - `memory` with `length` bytes, and no `map`: byte n of it has bus address n, and it is used in place. The length is
       even, at most 4,194,304, and no more than the bus has memory.
     - `memory` with `length` bytes, and a `map`: memory that the bus reaches through map registers. It may have any length.
     - no `memory` and no `map`, but `read` and `write`: memory by calls. `read` copies the bytes from a bus address on to
       `to`, and 0 for each whose address leads nowhere. It returns whether each address leads somewhere. `write` copies the
       bytes to a bus address on, in rising order, except those whose address leads nowhere. Neither touches the window,
       takes a turn over it, or makes a call of the library with this handle.

   `window` has `addresses` bytes. Memory by calls needs one with as many bytes as the bus has addresses, an even number:
   253,952 of a UNIBUS or 4,194,304 of a Q-bus. Memory through a map needs one with at least as many bytes while the
   controller has a called image. What is in it before a call has no influence. Controllers may share a window, one
   after the other. During a call it is this controller's alone: otherwise a disk would get bytes of another controller,
   with status 0. If uda50_machine.c is compiled with UDA50_DEBUG, an assertion fails when what a turn has read into the
   window has changed. Over map registers any change of the window fails it.

   images[n] has the functions of unit n, if its image was attached by uda50_attach_called. Those of another unit aren't
   called, and may be null. */
typedef struct {
    size_t size; /* sizeof(uda50_machine): later members go last */
    uint8_t *memory;
    size_t length;
    const uda50_map *map;
    void *context;
    bool (*read)(void *context, uint32_t at, uint32_t bytes, uint8_t *to);
    void (*write)(void *context, uint32_t at, uint32_t bytes, const uint8_t *from);
    uint8_t *window;
    size_t addresses;
    const uda50_called *images[UDA50_UNITS];
} uda50_machine;

/* Further statuses, of the functions below. */
enum {
    UDA50_BAD_MACHINE = 96, /* `size` of a struct is too small; or a machine has no `memory`, and a `map` or not both of
                               `read` and `write` */
    UDA50_NO_WINDOW = 97,   /* a window is needed, and is null or has too few bytes */
    UDA50_NO_FUNCTIONS = 98 /* a turn needs a function of a called image that is null */
};

/* These do what uda50_turn, uda50_run and uda50_write_sa do. A turn first reads what it may need: two descriptors of each
   ring at which it looks, and a packet or a buffer. For a transfer of 0 bytes that is at most one byte, at its buffer's
   address. Then it writes the ranges that it has changed, in the order of a controller's writes. Of the buffer of a Read
   that is as many bytes as its end message counts. An address that leads nowhere is treated as by the calls over mapped
   memory (uda50.h).

   Before a turn that executes a command they read or write the blocks that the command uses of a called image, in pieces of
   up to 32. A block that fails is a drive error: the command ends with status 0x000B and the byte count of the blocks
   before. No block after it is read or written. So each Write is written when its end message is made. These calls wait for
   the functions. An emulator with asynchronous I/O makes the calls of uda50_steps.h.

   Each returns the first that holds of UDA50_BAD_MACHINE, UDA50_NO_CONTROLLER, what uda50_run_mapped returns for a `map`
   that no bus has, UDA50_NO_WINDOW, and what uda50_run returns for a length that no memory has. Then nothing has changed.
   uda50_machine_write_sa returns UDA50_OK otherwise, or UDA50_NO_MEMORY. It accepts any length.

   Otherwise uda50_machine_turn and uda50_machine_run return what uda50_turn and uda50_run do. Or they return
   UDA50_NO_FUNCTIONS, or UDA50_NO_MEMORY if there is no memory for a window, or for more than 32 blocks of a Read or a
   Compare Host Data. Then that turn isn't taken, and the next call tries again. uda50_machine_run may have taken turns before
   it, so take the interrupt all the same. */
uint32_t uda50_machine_turn(uda50 *handle, const uda50_machine *machine);
uint32_t uda50_machine_run(uda50 *handle, uint32_t turns, const uda50_machine *machine);
uint32_t uda50_machine_write_sa(uda50 *handle, uint16_t word, const uda50_machine *machine);

#ifdef __cplusplus
}
#endif

#endif
