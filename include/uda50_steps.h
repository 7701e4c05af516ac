/* uda50_steps.h: the single steps of a turn, for an emulator that does something between them, such as asynchronous
   I/O. Others use uda50_machine.h, whose uda50_machine.c makes these calls for them, or the turns of uda50.h.

   Over map registers uda50_run_to_blocks takes whole turns, and the emulator only moves the blocks of called images.
   Over other memory a turn is taken by steps.

   The emulator has a window with as many bytes as the bus has addresses. Memory that is one array is its own window. It
   sets a uda50_turn_use to zero, then `size`, and `controller` to a number that none of its other controllers has, such
   as the address of the handle. Then each turn is:
     1. uda50_get_descriptors begins it. The emulator copies these ranges into the window from the guest's memory, and
        sets the bits of `missing` for the first and the third of them.
     2. uda50_get_body. The emulator copies that range if `reads_body` is 1, and sets that bit of `missing` in any case.
        The buffer of a Read need not be copied: only its addresses must lead somewhere.
     3. If `blocks.count` isn't 0 and the body isn't missing, the emulator moves these blocks in rising order, in pieces
        of any size. It ends at the first block that it can't read or write. It sets `ready` to the number of those
        before, and by `use`:
          UDA50_READS: it reads the blocks, and sets `lent` to the bytes of those that it could read.
          UDA50_CHECKS: it reads them, and drops their bytes.
          UDA50_WRITES: it gets their bytes by uda50_get_written, and writes them.
     4. uda50_turn_at takes the turn.
     5. It copies the written ranges to the guest's memory, in their order.
   Memory that is its own window needs no copies, and its `missing` stays 0. A byte whose address leads nowhere is 0 in
   the window. The rest of the window has no influence. It stays as it is, except in the buffer of a Read that fails. If
   step 4 isn't taken, nothing has happened.

   For a word for SA it asks uda50_get_zeroed, tests the addresses of that range, calls uda50_write_sa_at, and copies
   out the range that this fills in.

   A step is refused with UDA50_STALE, and nothing changes, if it is of another controller, of an earlier turn, or out
   of order:
     - The struct has another `controller` than the one with which this controller began a turn last.
     - The controller was changed since the struct's turn began. These calls change it, also when they fail: turns,
       writes and reads of IP, writes of SA, uda50_take_interrupt, uda50_attach, uda50_attach_called, uda50_detach,
       uda50_set_type, uda50_set_protected, uda50_restore and uda50_inject_failure. uda50_turn_at does if it takes a turn,
       and uda50_run_to_blocks unless it is refused.
     - uda50_get_body doesn't come right after uda50_get_descriptors. Or another step comes neither after uda50_get_body
       nor after a run that stopped at blocks. Such steps are uda50_get_written, uda50_turn_at, and uda50_run_to_blocks
       with a struct that has blocks.
   Then begin the turn anew. A struct of another controller isn't noticed if both have the same number and have begun as
   many turns by steps. A controller that was freed, and the next one of its handle, are two controllers: drop the structs
   of the first, or give the second another number.

   Between the first step of a turn and the last, and while a run waits for blocks:
     - The guest doesn't run, and no device writes to its memory: the turn goes by what steps 1 and 2 have read. The last
       step writes only what the turn has written. Of the buffer of a Read that fails it leaves the rest as it is.
     - No other controller uses the window.
     - A reset may happen: uda50_write_ip. It drops the command. Then the steps that are left return UDA50_STALE, and
       may be left out. Blocks that the emulator has written stay written, and no end message tells of them. I/O of the
       dropped command may end late: what it has read is dropped with the struct. No block is ready between two calls,
       so it can't count for a later command. */
#ifndef UDA50_STEPS_H
#define UDA50_STEPS_H

#include "uda50.h"

#ifdef __cplusplus
extern "C" {
#endif

/* ---- Memory ---- */

/* Bytes from a bus address on. `bytes` may be 0. Otherwise all of them are within the window. */
typedef struct {
    uint32_t at;
    uint32_t bytes;
} uda50_range;

/* The bits of `missing`: the ranges that have an address that leads nowhere. */
enum {
    UDA50_MISSING_COMMAND = 1,  /* the first descriptor: the next one of the command ring */
    UDA50_MISSING_RESPONSE = 2, /* the third: the next one of the response ring */
    UDA50_MISSING_BODY = 4      /* the body */
};

/* ---- Blocks of called images ---- */

/* How a turn uses blocks. */
enum {
    UDA50_NO_BLOCKS = 0,
    UDA50_READS = 1,  /* a Read or a Compare Host Data: it needs their bytes */
    UDA50_CHECKS = 2, /* an Access: it needs to know that they can be read */
    UDA50_WRITES = 3  /* a Write or an Erase */
};

/* The blocks that a turn uses of a called image. If there are none, `use` is UDA50_NO_BLOCKS and all else 0. */
typedef struct {
    uint32_t use;   /* UDA50_NO_BLOCKS to UDA50_WRITES */
    uint32_t unit;  /* 0 to 3 */
    uint32_t first; /* the first block */
    uint32_t count; /* how many blocks */
} uda50_blocks;

/* ---- A turn ---- */

/* What the next turn uses. `size`, `controller`, `missing`, `ready`, `lent` and `turns` are the emulator's to set. */
typedef struct {
    size_t size;                /* sizeof(uda50_turn_use): later members go last */
    uint64_t controller;        /* a number of its own for each controller, such as the address of its handle */
    uint64_t count;             /* the library's: which of the controller's turns that were begun by these calls this is */
    uint32_t step;              /* the library's: the step that was done last */
    uda50_range descriptors[4]; /* the next one of the command ring, the one before it; the same of the response ring;
                                   empty for a ring at which the turn doesn't look */
    uda50_range body;           /* the packet, or the buffer of a command or a message; at most one byte of it for a
                                   transfer of 0 bytes */
    uda50_range written[4];     /* what the turn has written, in the order of its writes: of the buffer of a Read the bytes
                                   that its end message counts */
    uint32_t place;             /* the command that the turn executes, if it executes one, by its index */
    uint32_t missing;
    uint32_t reads_body;        /* 1 if the turn reads the body; 0 if its addresses need only lead somewhere */
    uda50_blocks blocks;        /* the blocks that the turn uses of a called image, unless the body is missing */
    uint32_t ready;             /* how many of these, from the first on, the emulator has moved */
    uda50_image lent;           /* the bytes of those blocks, for UDA50_READS */
    uint32_t turns;             /* for uda50_run_to_blocks: how many turns to take; when it stops at blocks, how many
                                   are left, with the one before which it stopped */
} uda50_turn_use;

/* Begins a turn: fills the descriptors of *turn, and sets all else to 0 but `size`, `controller` and `turns`. Of the
   window only the length matters. Returns UDA50_OK, or the first that holds of UDA50_NO_CONTROLLER, UDA50_BAD_LENGTH,
   also for a `size` that is too small, and UDA50_TOO_LARGE. */
uint32_t uda50_get_descriptors(uda50 *handle, const uint8_t *window, size_t length, uda50_turn_use *turn);

/* Fills the body, the place and the blocks of *turn. Returns UDA50_OK, or the first that holds of UDA50_NO_CONTROLLER,
   UDA50_STALE, UDA50_BAD_LENGTH, also for a `size` that is too small, and UDA50_TOO_LARGE. */
uint32_t uda50_get_body(uda50 *handle, const uint8_t *window, size_t length, uda50_turn_use *turn);

/* Fills `to` with bytes that the turn will write, from block number `skip` of its blocks on. A partial last block is
   padded with zeros, and an Erase writes only zeros. Returns as uda50_get_body does, and UDA50_BAD_LENGTH also if there
   aren't that many bytes. */
uint32_t uda50_get_written(uda50 *handle, const uint8_t *window, size_t length, const uda50_turn_use *turn,
                           uint32_t skip, uint8_t *to, size_t bytes);

/* Runs one turn, and fills the written ranges of *turn. The first `ready` blocks are ready for this turn only. At the
   first that isn't, the command fails: it ends with status 0x000B, a drive error, and the byte count of the blocks
   before. A missing address is treated as by the calls over mapped memory.

   The bytes of `lent` are the library's during the call, as those of an image. The library reads them in place. When the
   call returns, `lent` is as it was, with the same bytes. They must exist in each call that gets the struct, so empty
   `lent` before you free them. uda50_get_descriptors empties it too, and so does a run that stops at blocks, so keep the
   address of your buffer elsewhere. A turn without blocks, and one that doesn't read them, ignores `lent`. A Write is
   written before this call, so its end message tells which blocks were written.

   Returns what uda50_turn does, or the first that holds of UDA50_NO_CONTROLLER, UDA50_STALE, UDA50_BAD_LENGTH, also for
   a `size` that is too small, and UDA50_TOO_LARGE. Then UDA50_BAD_LENGTH if `ready` is above `blocks.count`, or `lent`
   hasn't 512 bytes for each ready block that the turn reads. Then the turn isn't taken, nothing has changed, and the
   call may be repeated. */
uint32_t uda50_turn_at(uda50 *handle, uint8_t *window, size_t length, uda50_turn_use *turn);

/* ---- Runs over map registers ---- */

/* Runs as many turns as `turns` of the struct says, or fewer, over `memory`, which the bus reaches through `map` and
   which may have any length. It stops after a turn that is UDA50_IDLE or UDA50_DEAD. It also stops before each turn that
   uses blocks of a called image, and returns UDA50_NEEDS_BLOCKS. So it takes the place of all other steps except
   uda50_get_written, and the emulator only moves the blocks. It allocates nothing. The controller may be one without
   called images.

   A run begins with a struct without blocks: one that is zero except for `size`, `controller` and `turns`, or the struct
   of a run that is over. The window has as many bytes as the bus has addresses, and what is in it then has no influence.

   After UDA50_NEEDS_BLOCKS the window has what the turn reads. The struct has the `place`, the `missing` addresses and
   the `blocks` of the turn, and in `turns` how many turns are left. Its `ready` is 0 and its `lent` empty. It has no
   descriptors and no body. The emulator moves the blocks as in step 3 of a turn. Then it makes the call again with the
   same struct, memory, map and window. The library takes that turn as uda50_turn_at does, by what the window has. It
   copies what the turn has written to the memory, and goes on. Until then the window is this controller's. Turns may have
   been taken before the stop, so an interrupt request may be pending. Take it when the run is over: uda50_take_interrupt
   makes the struct stale.

   Otherwise it returns what the last turn did, or UDA50_IDLE if there was none. The struct has no blocks then, and its
   `lent` is as it was. It may begin another run after `turns` is set again.

   A call is refused with the first that holds of these. Then no turn was taken, and nothing has changed:
     - UDA50_NO_CONTROLLER.
     - UDA50_BAD_LENGTH for a `size` that is too small.
     - What uda50_run_mapped returns for a `map` that no bus has.
     - UDA50_BAD_LENGTH for a window that hasn't as many bytes as the bus has addresses.
     - If the struct has blocks, what uda50_turn_at returns. After UDA50_STALE begin another run, with a struct as at
       first. */
uint32_t uda50_run_to_blocks(uda50 *handle, uint8_t *memory, size_t length, const uda50_map *map, uint8_t *window,
                             size_t bytes, uda50_turn_use *turn);

/* ---- Words for SA ---- */

/* Fills *area with the range that the word sets to zero if it is written to SA. Returns UDA50_OK or
   UDA50_NO_CONTROLLER. */
uint32_t uda50_get_zeroed(uda50 *handle, uint16_t word, const uint8_t *window, size_t length, uda50_range *area);

/* Writes SA for the guest, as uda50_write_sa does, and fills *area with the range that was set to zero in the window.
   `missing` says that an address of the area leads nowhere. Returns UDA50_OK or UDA50_NO_CONTROLLER. */
uint32_t uda50_write_sa_at(uda50 *handle, uint16_t word, uint8_t *window, size_t length, bool missing,
                           uda50_range *area);

#ifdef __cplusplus
}
#endif

#endif
