/* uda50.h: a simulated UDA50 disk controller, for an emulator of a PDP-11 or a VAX.

   The functions are in groups: lifecycle, drives, registers, turns, mapped memory, called images, inspection, save and
   restore, and failures for tests. uda50_machine.h has turns over any memory and any images. The project's docs/C.md shows
   how an emulator uses them, and docs/PORT.md says what the controller does.

   A `uda50` is the handle of one controller. Set it to zero before its first use, pass its address, and neither copy
   it nor write into it. Every function accepts every handle. On a handle without a controller, each function except
   uda50_new and uda50_new_as changes nothing, and returns UDA50_NO_CONTROLLER, or 0 or false if its result is no
   status.

   Pass no null pointer. Only the `at` of an empty image, and the `registers` of a map whose `count` is 0, may be null.
   The handle, image structs, images, maps and their registers, guest memory, windows and what a call fills must not
   overlap. The library can't detect an overlap. One array for two units is an overlap, and so is an image inside guest
   memory.

   Guest memory is passed to each call that uses it, as a pointer and a number of bytes. Byte n is what the guest's
   bus shows at address n: pass no more bytes than the bus has memory. Only the calls with a map get all of the
   machine's memory. The library reads and writes it in place, only during that call, so the next call may pass other
   memory. No other thread writes it during the call. A word is
   stored low byte first: an array of uint16_t serves on a little-endian machine only.

   One call at a time uses a handle. A handle may go from one thread to another, if a lock or the start or end of a
   thread orders the calls. Threads may use different handles at once. No call blocks. Only uda50_new, uda50_new_as,
   uda50_format_last_turn, uda50_run_mapped and uda50_write_sa_mapped allocate memory. */
#ifndef UDA50_H
#define UDA50_H

#include <stdbool.h>
#include <stddef.h>
#include <stdint.h>

#ifdef __cplusplus
extern "C" {
#endif

/* The version of this header: 10000 * major + 100 * minor + patch. */
#define UDA50_VERSION_MAJOR 0
#define UDA50_VERSION_MINOR 1
#define UDA50_VERSION_PATCH 0
#define UDA50_VERSION (10000 * UDA50_VERSION_MAJOR + 100 * UDA50_VERSION_MINOR + UDA50_VERSION_PATCH)

typedef struct {
    void *at;
} uda50;

enum { UDA50_UNITS = 4, UDA50_MAX_BLOCKS = 2147483647 };

/* The bytes of a disk image, 512 for each block. If `length` is 0 there are none, and `at` may be null: such a struct
   is empty, as one that is set to zero.

   The struct says who has the bytes. uda50_attach takes them and leaves the struct empty. uda50_detach and uda50_free
   put them into an empty struct. While a unit has the bytes, nothing else reads, writes or frees them. A called
   image has no bytes in memory, and no struct. */
typedef struct {
    uint8_t *at;
    size_t length;
} uda50_image;

/* The status that a call returns. A call that fails changes nothing. */
enum {
    UDA50_OK = 0,
    UDA50_NO_CONTROLLER = 64,    /* the handle has no controller */
    UDA50_NO_MEMORY = 65,        /* an allocation failed */
    UDA50_NO_SUCH_UNIT = 66,     /* the unit isn't 0 to 3 */
    UDA50_ALREADY_ATTACHED = 67, /* the unit has an image */
    UDA50_NOT_ATTACHED = 68,     /* the unit has no image */
    UDA50_BAD_LENGTH = 69,       /* an image isn't one or more whole blocks, guest memory or a bus has an odd length, or a
                                    saved state hasn't UDA50_STATE_LENGTH bytes. Or bytes aren't those of whole blocks,
                                    or go past their end. Or the `size` of a struct is too small, or a window hasn't as
                                    many bytes as its bus has addresses */
    UDA50_TOO_LARGE = 70,        /* an image has more than UDA50_MAX_BLOCKS blocks, or guest memory that is one array, or
                                    a bus, more than 4,194,304 bytes */
    UDA50_NOT_EMPTY = 71,        /* a struct that an image is to be put into isn't empty */
    UDA50_HAS_CONTROLLER = 72,   /* the handle has a controller */
    UDA50_NO_SUCH_BUS = 73,      /* the bus isn't UDA50_UNIBUS or UDA50_QBUS */
    UDA50_NO_SUCH_TYPE = 74,     /* the drive type isn't below UDA50_DRIVE_TYPE_COUNT */
    UDA50_OTHER_VERSION = 75,    /* a saved state has another version */
    UDA50_BAD_STATE = 76,        /* no controller has the saved state */
    UDA50_OTHER_IMAGES = 77,     /* the images aren't as many and as long as the saved ones, or not as protected */
    UDA50_BAD_FIRST_UNIT = 78,   /* first_unit is above 65,532: the last unit's would be above 65,535 */
    UDA50_BAD_MAP = 79,          /* `page` or `scale` of a map is above 31 */
    UDA50_OTHER_KIND = 80,       /* the unit's image is in memory and the call needs a called one, or the reverse; or a unit
                                    has a called image, and the call accepts none */
    UDA50_NOWHERE = 81,          /* an address leads nowhere; all others were copied */
    UDA50_STALE = 82,            /* a step of a turn is of another controller, of an earlier turn, or out of order */
    UDA50_NEEDS_BLOCKS = 83      /* uda50_run_to_blocks stopped before a turn that uses blocks of a called image */
};

/* What a turn did. Each call that takes turns returns it. */
enum {
    UDA50_IDLE = 0,      /* nothing: the port is in the initialization, has nothing to do or no response descriptor */
    UDA50_FETCHED = 1,   /* it fetched a packet from the command ring */
    UDA50_EXECUTED = 2,  /* it executed a command and queued its end message */
    UDA50_DELIVERED = 3, /* it delivered an end message to the response ring */
    UDA50_NOTIFIED = 4,  /* it delivered an attention message to the response ring */
    UDA50_DEAD = 5       /* the port is dead, perhaps since this turn; SA has the code of the fatal error */
};

/* Further kinds of a uda50_turn_record. For the three that fetch, uda50_turn and uda50_run return UDA50_FETCHED. */
enum {
    UDA50_INVALID_COMMAND = 6, /* it fetched an invalid command, and queued its end message */
    UDA50_NO_TURN = 7,         /* there was no turn yet */
    UDA50_ANSWERED = 8,        /* it fetched a command that is ended at once, and queued its end message */
    UDA50_ABORTED = 9          /* it fetched an Abort that removed a pending command: both end messages are queued */
};

/* The buses of a compatible controller: a UDA50's, with addresses of 18 bits, and an RQDX3's, with 22. */
enum { UDA50_UNIBUS = 0, UDA50_QBUS = 1 };

/* The drive types that a compatible controller reports: the name of each, its number, and its usual size in blocks. An
   emulator makes a table of them by a macro X of its own. The numbers are UDA50_RX50 to UDA50_DRIVE_TYPE_COUNT - 1. */
#define UDA50_DRIVE_TYPES(X) \
    X(RX50, 0, 800)          \
    X(RX33, 1, 2400)         \
    X(RD51, 2, 21600)        \
    X(RD31, 3, 41560)        \
    X(RD52, 4, 60480)        \
    X(RD53, 5, 138672)       \
    X(RD54, 6, 311200)       \
    X(RA60, 7, 400176)       \
    X(RA81, 8, 891072)       \
    X(RA82, 9, 1216665)      \
    X(RA71, 10, 1367310)     \
    X(RA72, 11, 1953300)     \
    X(RA90, 12, 2376153)     \
    X(RA92, 13, 2940951)     \
    X(RRD40, 14, 1331200)

#define UDA50_NUMBER_OF(name, number, blocks) UDA50_##name = number,
enum { UDA50_DRIVE_TYPES(UDA50_NUMBER_OF) UDA50_DRIVE_TYPE_COUNT };
#undef UDA50_NUMBER_OF

/* The port's phases. */
enum {
    UDA50_PHASE_STEP_1 = 1,
    UDA50_PHASE_STEP_2 = 2,
    UDA50_PHASE_STEP_3 = 3,
    UDA50_PHASE_PURGE_TEST = 4, /* it waits for 0 in SA */
    UDA50_PHASE_POLL_TEST = 5,  /* it waits for a read of IP */
    UDA50_PHASE_STEP_4 = 6,
    UDA50_PHASE_RUNNING = 7,
    UDA50_PHASE_DEAD = 8,
    UDA50_PHASE_WRAP = 9 /* SA shows each word that is written to it, until IP is written */
};

/* ---- Lifecycle ---- */

/* Returns the library's version, in the form of UDA50_VERSION. */
uint32_t uda50_version(void);

/* Makes a controller without images, in step 1 of the initialization. If `compatible` is set, its profile is the
   compatible one, for software that was written for other controllers: on a UNIBUS, with units from 0 on. If not, it
   is the strict one, for tests of drivers. Returns UDA50_OK, or the first that holds of UDA50_HAS_CONTROLLER and
   UDA50_NO_MEMORY. */
uint32_t uda50_new(uda50 *handle, bool compatible);

/* Makes a compatible controller as uda50_new does, on this bus. The guest knows its units by the numbers from
   first_unit on: a PDP-11's second controller usually has 4 to 7. The calls of this library number the units 0 to 3
   all the same. first_unit is at most 65,532. Returns UDA50_OK, or the first that holds of UDA50_NO_SUCH_BUS,
   UDA50_HAS_CONTROLLER, UDA50_BAD_FIRST_UNIT and UDA50_NO_MEMORY. */
uint32_t uda50_new_as(uda50 *handle, uint32_t bus, uint16_t first_unit);

/* Frees the controller and returns its images. images[n], which must be empty, is then the image of unit n, as the
   commands left it. It stays empty if the unit has none, or a called one. Returns UDA50_OK, or the first that holds of
   UDA50_NO_CONTROLLER and UDA50_NOT_EMPTY. */
uint32_t uda50_free(uda50 *handle, uda50_image images[UDA50_UNITS]);

/* ---- Drives ---- */

/* Attaches an image to unit 0 to 3, also while the guest runs. Then the unit is available, and *image is empty. If
   `write_protected` is set, no command changes the image, until uda50_set_protected says otherwise. Call uda50_run
   afterwards: an attention message may be due. Returns UDA50_OK, or the first that holds of UDA50_NO_CONTROLLER,
   UDA50_NO_SUCH_UNIT, UDA50_ALREADY_ATTACHED, UDA50_BAD_LENGTH and UDA50_TOO_LARGE. */
uint32_t uda50_attach(uda50 *handle, uint32_t unit, uda50_image *image, bool write_protected);

/* Sets the drive type of a unit without an image: a number of UDA50_DRIVE_TYPES, at first UDA50_RA81. A compatible
   controller reports it, with an image or without, and write-protects an image that is attached to an RRD40. The size
   of a unit is that of its image, whatever the type. Returns UDA50_OK, or the first that holds of UDA50_NO_CONTROLLER,
   UDA50_NO_SUCH_UNIT, UDA50_NO_SUCH_TYPE and UDA50_ALREADY_ATTACHED. */
uint32_t uda50_set_type(uda50 *handle, uint32_t unit, uint32_t drive_type);

/* Moves the write-protect button of a unit's drive while an image is attached. If `write_protected` is set, no command
   changes the image from now on. An image whose drive type is read-only stays protected. Nothing else changes: the unit
   stays online or available, and so do its software protection and an injected failure. The guest sees the button in the
   unit flags of the next end message that has them. Returns UDA50_OK, or the first that holds of UDA50_NO_CONTROLLER,
   UDA50_NO_SUCH_UNIT and UDA50_NOT_ATTACHED. */
uint32_t uda50_set_protected(uda50 *handle, uint32_t unit, bool write_protected);

/* Detaches a unit's image. *image, which must be empty, is then that image, as the commands left it. It stays empty if
   the image is a called one. Returns UDA50_OK, or the first that holds of UDA50_NO_CONTROLLER, UDA50_NO_SUCH_UNIT,
   UDA50_NOT_ATTACHED and UDA50_NOT_EMPTY. */
uint32_t uda50_detach(uda50 *handle, uint32_t unit, uda50_image *image);

/* ---- Registers ---- */

/* Writes IP for the guest, whatever the word: the initialization begins anew. The controller drops commands, end and
   attention messages and an interrupt request, clears the controller flags, and makes its units available, without
   software protection. Images, drive types and an injected failure stay. Call it for a reset of the guest's bus too. */
void uda50_write_ip(uda50 *handle, uint16_t word);

/* Reads IP for the guest: a running port begins to poll its command ring, and a port in the poll test goes on to
   step 4. Returns 0. */
uint16_t uda50_read_ip(uda50 *handle);

/* Writes SA for the guest: one step of the initialization. Step 3 sets the communication area in guest memory, which
   is the rings and the words before them, to zero. If the area isn't entirely within `length` bytes, the port fails
   with code 7, and memory is as it was. Any length is accepted, also an odd one. A running or dead port and
   the poll test ignore the word. In wrap mode SA shows it. Returns UDA50_OK, or the first that holds of
   UDA50_NO_CONTROLLER and UDA50_OTHER_KIND. UDA50_OTHER_KIND is a controller that has a called image: write SA by
   uda50_machine_write_sa there. */
uint32_t uda50_write_sa(uda50 *handle, uint16_t word, uint8_t *memory, size_t length);

/* Reads SA for the guest. Returns the word of the step; 0 in the purge and poll tests and while the port runs; the
   last word written in wrap mode; or bit 15 with the code of the fatal error. */
uint16_t uda50_read_sa(uda50 *handle);

/* Takes the pending interrupt request, if there is one. Returns true, and *vector is the address of its vector, 4 to
   0x1FC; or returns false, and *vector is as it was. Call it after each register access, after uda50_turn or
   uda50_run, and when a run of uda50_steps.h is over. A strict controller has no requests. */
bool uda50_take_interrupt(uda50 *handle, uint16_t *vector);

/* ---- Turns ---- */

/* Runs one turn of the port: it fetches, executes or delivers one thing, or nothing. Returns UDA50_IDLE to UDA50_DEAD;
   or the first that holds of UDA50_NO_CONTROLLER, UDA50_OTHER_KIND, UDA50_BAD_LENGTH and UDA50_TOO_LARGE.
   UDA50_OTHER_KIND is a controller that has a called image. It takes its turns by uda50_machine_turn and
   uda50_machine_run. */
uint32_t uda50_turn(uda50 *handle, uint8_t *memory, size_t length);

/* Runs up to `turns` turns, and stops after one of UDA50_IDLE or UDA50_DEAD. Returns what the last turn did, or
   UDA50_IDLE if `turns` is 0; or fails as uda50_turn does.

   Call it after each read of IP and after uda50_attach. Call it again soon while it returns UDA50_FETCHED,
   UDA50_EXECUTED, UDA50_DELIVERED or UDA50_NOTIFIED: then the turns were used up. A guest can keep the port busy
   without end, so execute instructions of the guest before the next call. After UDA50_DEAD only a write of IP helps.
   After UDA50_IDLE nothing is left to do until the guest accesses a register, unless a message waits for a response
   descriptor, which the guest gives by a write to its memory. Then call it again now and then, while `queued` or
   `attentions` of uda50_get_state isn't 0. */
uint32_t uda50_run(uda50 *handle, uint32_t turns, uint8_t *memory, size_t length);

/* ---- Mapped memory ---- */

/* Map registers, through which a bus reaches the guest's memory, which is mapped memory then. Bus address a leads to byte
       ((registers[a >> page] & frame) << scale) + (a & ((1 << page) - 1))
   of memory, if that register exists and has all bits of `valid` set, and the byte is in memory. Otherwise it leads
   nowhere. Two registers may lead to one page. Set to zero what a machine doesn't have.

     PDP-11/70 UNIBUS map    count 31, page 13, frame 0x3fffff
     VAX-11/780 UBA          count 496, page 9, frame 0x1fffff, valid 0x80000000, scale 9
     MicroVAX Q-bus          in_memory 8192, page 9, frame 0xfffff, valid 0x80000000, scale 9

   Registers that lie in the guest's memory are `in_memory` longwords, low byte first, from byte `at` on. `registers` and
   `count` are ignored then. */
typedef struct {
    const uint32_t *registers;
    size_t count;
    uint32_t page;  /* how many low bits of an address are the offset in a page */
    uint32_t frame; /* the bits of a register that say where its page begins */
    uint32_t valid; /* the bits that are set in a register in use */
    uint32_t scale; /* by how many places the bits of `frame` are shifted to the left */
    uint64_t at;
    uint32_t in_memory;
} uda50_map;

/* These do what uda50_run and uda50_write_sa do, in mapped memory, which may have any length. A turn first reads from the
   bus what it needs: two descriptors of each ring at which it looks, and a packet or a buffer, but not that of a Read. Then
   it writes the ranges that it has changed, in the order of a controller's writes, and the bytes of each by rising address.
   Of the buffer of a Read that is as many bytes as its end message counts. Of the rest of memory it reads only registers
   that lie there.

   An address that leads nowhere is as one past the end of memory. A command ends with status 0x0069 because of its
   buffer, unless an earlier check fails. These are fatal: a packet, the buffer of a message, the communication area,
   and the next descriptor of a ring when a turn needs it. A descriptor before the next one counts as the host's, and an
   interrupt indicator isn't written. Nothing else is affected.

   The first call, and one for a bus with another number of addresses, allocates a window of that many bytes. Each
   returns the first that holds of UDA50_NO_CONTROLLER, UDA50_OTHER_KIND, UDA50_BAD_MAP, UDA50_TOO_LARGE,
   UDA50_BAD_LENGTH and UDA50_NO_MEMORY. UDA50_OTHER_KIND is a controller that has a called image. Otherwise
   uda50_run_mapped returns what uda50_run does, and uda50_write_sa_mapped returns UDA50_OK. */
uint32_t uda50_run_mapped(uda50 *handle, uint32_t turns, uint8_t *memory, size_t length, const uda50_map *map);
uint32_t uda50_write_sa_mapped(uda50 *handle, uint16_t word, uint8_t *memory, size_t length, const uda50_map *map);

/* Copies the bytes of the bus from this address on to `to`, and 0 for each whose address leads nowhere. Returns UDA50_OK,
   or UDA50_NOWHERE if an address leads nowhere; or the first that holds of UDA50_BAD_MAP, UDA50_TOO_LARGE and
   UDA50_BAD_LENGTH, and then nothing is copied. */
uint32_t uda50_read_mapped(const uint8_t *memory, size_t length, const uda50_map *map, uint32_t address, uint8_t *to,
                           size_t bytes);

/* Copies bytes to the bus from this address on, in rising order, except those whose address leads nowhere. Returns
   UDA50_OK; or the first that holds of UDA50_BAD_MAP, UDA50_TOO_LARGE and UDA50_BAD_LENGTH, and then nothing is copied. */
uint32_t uda50_write_mapped(uint8_t *memory, size_t length, const uda50_map *map, uint32_t address,
                            const uint8_t *from, size_t bytes);

/* ---- Called images ---- */

/* A called image has a size and no bytes in memory: the emulator reads and writes its blocks by calls of its own. Such
   images are overlays, compressed files, and files whose blocks may fail. A controller that has one takes its turns and
   its words for SA by the calls of uda50_machine.h, or by those of uda50_steps.h. uda50_turn, uda50_run, uda50_write_sa
   and their mapped forms return UDA50_OTHER_KIND. */

/* Attaches a called image of this many blocks to unit 0 to 3. Otherwise it does what uda50_attach does. Returns UDA50_OK,
   or the first that holds of UDA50_NO_CONTROLLER, UDA50_NO_SUCH_UNIT, UDA50_ALREADY_ATTACHED, UDA50_BAD_LENGTH and
   UDA50_TOO_LARGE. UDA50_BAD_LENGTH is 0 blocks, and UDA50_TOO_LARGE any number above UDA50_MAX_BLOCKS. */
uint32_t uda50_attach_called(uda50 *handle, uint32_t unit, uint64_t blocks, bool write_protected);

/* ---- Inspection ---- */

/* A ring of descriptors. */
typedef struct {
    uint32_t base;  /* the address of the first descriptor */
    uint16_t count; /* how many descriptors it has */
    uint16_t next;  /* the index of the next one that the port will use */
} uda50_ring;

/* Three functions fill a struct whose first member says how large it is. Set it before the call: it stays as it is. If the
   struct is smaller than the library's, the call returns UDA50_BAD_LENGTH. Of a larger one, as a later header may have
   it, the library fills the members that it knows. */

/* The state of a port. Until the initialization has set the rings, each is one descriptor at 0. In UDA50_PHASE_DEAD
   `pending`, `queued`, `polling` and `attentions` are left from before the fatal error, and mean no work. */
typedef struct {
    size_t size;          /* sizeof(uda50_state): later members go last */
    uint32_t phase;       /* UDA50_PHASE_STEP_1 to UDA50_PHASE_WRAP */
    uda50_ring responses;
    uda50_ring commands;
    uint32_t pending;     /* commands that were fetched and not yet executed */
    uint32_t queued;      /* end messages that were not yet delivered */
    uint16_t sa;          /* as uda50_read_sa returns it */
    uint16_t credits;     /* commands that the guest may still post */
    uint16_t polling;     /* 1 while the port polls its command ring, else 0 */
    uint16_t vector;      /* the address of the interrupt vector, 0 if there is none */
    uint32_t attentions;  /* units for which an attention message is due: bit u for unit u */
} uda50_state;

/* Fills *state. Returns UDA50_OK; or the first that holds of UDA50_NO_CONTROLLER and UDA50_BAD_LENGTH, and then *state is
   as it was. */
uint32_t uda50_get_state(uda50 *handle, uda50_state *state);

/* A record of what a turn did. A field that doesn't apply is 0: of UDA50_NOTIFIED all but the kind. The unit is 0 to 3
   for the controller's own, whatever their first number. Any other is the guest's number minus that of the first unit,
   modulo 65,536. */
typedef struct {
    size_t size;          /* sizeof(uda50_turn_record): later members go last */
    uint32_t kind;        /* UDA50_IDLE to UDA50_DEAD, or UDA50_INVALID_COMMAND to UDA50_ABORTED */
    uint32_t reference;   /* the command's reference number */
    uint32_t lbn;         /* the first block of a transfer that was fetched */
    uint32_t bytes;       /* the byte count of a transfer: as requested, or as its end message has it */
    uint16_t unit;        /* the command's unit */
    uint16_t code;        /* the opcode of a command, the end code of an end message, or the code of a fatal error */
    uint16_t status;      /* the status of an end message */
} uda50_turn_record;

/* Fills *turn with what the last turn did; after uda50_run that is the last of its turns. Returns UDA50_OK; or the first
   that holds of UDA50_NO_CONTROLLER and UDA50_BAD_LENGTH, and then *turn is as it was. */
uint32_t uda50_get_last_turn(uda50 *handle, uda50_turn_record *turn);

/* The state of a unit, for a display. Without an image all but the drive type is 0. */
typedef struct {
    size_t size;              /* sizeof(uda50_unit): later members go last */
    uint32_t blocks;          /* how many blocks the image has */
    uint32_t drive_type;      /* a number of UDA50_DRIVE_TYPES, as uda50_set_type or uda50_restore set it */
    uint16_t attached;        /* 1 if the unit has an image, else 0 */
    uint16_t called;          /* 1 if that is a called image, else 0 */
    uint16_t online;          /* 1 while the guest has the unit online, 0 while it is available */
    uint16_t write_protected; /* 1 if the image is write-protected, by the button or a read-only type, else 0 */
    uint16_t soft_protected;  /* 1 while the guest has write-protected the unit by software, else 0 */
} uda50_unit;

/* Fills *info with the state of unit 0 to 3. Returns UDA50_OK; or the first that holds of UDA50_NO_CONTROLLER,
   UDA50_NO_SUCH_UNIT and UDA50_BAD_LENGTH, and then *info is as it was. */
uint32_t uda50_get_unit(uda50 *handle, uint32_t unit, uda50_unit *info);

/* Writes what the last turn did as a line of text, such as "executed 3 Read unit 0 status 0x0000 bytes 512", with a 0
   after it. A line that is too long for the buffer is cut off; 96 bytes are enough for any. A buffer of length 0 gets
   nothing. Before the first turn the line is empty. Returns UDA50_OK; or UDA50_NO_CONTROLLER or UDA50_NO_MEMORY, and
   then the buffer is as it was. */
uint32_t uda50_format_last_turn(uda50 *handle, uint8_t *buffer, size_t length);

/* ---- Save and restore ---- */

/* The number of bytes of a saved state, and their version, which is their first word. docs/PORT.md describes them. */
enum { UDA50_STATE_LENGTH = 1576, UDA50_STATE_VERSION = 1 };

/* Copies the state of the controller to `state`, between any two calls: all that decides what a guest will see, but
   images and guest memory, which are the emulator's. Returns UDA50_OK, or the first that holds of UDA50_NO_CONTROLLER
   and UDA50_BAD_LENGTH; then `state` is as it was. */
uint32_t uda50_save(uda50 *handle, uint8_t *state, size_t length);

/* Continues from a saved state. Make a controller and attach the images first, to the units that had one, as long and
   as write-protected as they were. The image of a compatible controller's RRD40 was write-protected. The controller's
   own state is dropped, also its profile, bus, first unit and drive types: the saved drive types replace those that were
   set. If images and guest memory have the bytes that they had when the state was saved, the guest sees from then on what
   it would have seen. There is no last turn.

   Returns UDA50_OK, or the first that holds of UDA50_NO_CONTROLLER, UDA50_OTHER_VERSION, UDA50_BAD_LENGTH,
   UDA50_BAD_STATE and UDA50_OTHER_IMAGES. So a state of another version may have any length.

   A state that breaks a rule of docs/PORT.md or docs/C.md is UDA50_BAD_STATE. The rules don't judge what a command or an
   end message says. So uda50_take_interrupt returns only what it says above, after any accepted state. */
uint32_t uda50_restore(uda50 *handle, const uint8_t *state, size_t length);

/* ---- Failures for tests ---- */

/* Makes the unit's block call number `call` from now on fail, and no other; none if `call` is 0. A block call reads
   or writes one block; reads and writes are counted together, from 1. A transfer that meets the failure ends with
   status 0x000B, a drive error, and the byte count of the blocks before. If it is a Write or an Erase, the first 256
   bytes of that block are then new and the last 256 are old. A Read leaves that block's part of the buffer as it was.
   The unit's mode doesn't change. A later call replaces an earlier one, and uda50_detach ends it. A called image is
   UDA50_OTHER_KIND: there the emulator says itself which blocks fail. Returns UDA50_OK, or the first that holds of
   UDA50_NO_CONTROLLER, UDA50_NO_SUCH_UNIT, UDA50_NOT_ATTACHED and UDA50_OTHER_KIND. */
uint32_t uda50_inject_failure(uda50 *handle, uint32_t unit, uint32_t call);

#ifdef __cplusplus
}
#endif

#endif
