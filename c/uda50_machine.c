/* uda50_machine.c: turns over any guest memory and any images. See uda50_machine.h. */
#include "uda50_machine.h"
#include "uda50_steps.h"

#include <stddef.h>
#include <stdlib.h>
#ifdef UDA50_DEBUG
#include <assert.h>
#endif

enum { BLOCK = 512, PIECE = 32, RANGES = 4 };

/* The sizes of the structs as they first were. */
enum {
    FIRST_MACHINE = offsetof(uda50_machine, images) + sizeof ((uda50_machine *)0)->images,
    FIRST_CALLED = offsetof(uda50_called, write) + sizeof ((uda50_called *)0)->write
};

/* Where the library finds the guest's bytes: in a window that is filled from the machine's memory, or in that memory. */
typedef struct {
    uda50 *handle;
    const uda50_machine *machine;
    uint8_t *bytes;
    size_t length;
    bool is_window;
} view;

/* ---- A machine's memory ---- */

/* Reads a range into the window. Returns whether each of its addresses leads somewhere. */
static bool fetch(const view *it, uda50_range range)
{
    const uda50_machine *m = it->machine;
    uint8_t *to;

    if (!it->is_window || range.bytes == 0)
        return true;
    to = it->bytes + range.at;
    if (m->memory == NULL)
        return m->read(m->context, range.at, range.bytes, to);
    return uda50_read_mapped(m->memory, m->length, m->map, range.at, to, range.bytes) == UDA50_OK;
}

/* Writes a range from the window. */
static void store(const view *it, uda50_range range)
{
    const uda50_machine *m = it->machine;
    const uint8_t *from;

    if (!it->is_window || range.bytes == 0)
        return;
    from = it->bytes + range.at;
    if (m->memory == NULL)
        m->write(m->context, range.at, range.bytes, from);
    else
        uda50_write_mapped(m->memory, m->length, m->map, range.at, from, range.bytes);
}

static bool is_long_enough(const uda50_called *image)
{
    return image == NULL || image->size >= FIRST_CALLED;
}

/* Whether a machine has memory of one kind, and its structs are long enough. */
static bool is_whole(const uda50_machine *m)
{
    return m->size >= FIRST_MACHINE && is_long_enough(m->images[0]) && is_long_enough(m->images[1])
           && is_long_enough(m->images[2]) && is_long_enough(m->images[3])
           && (m->memory != NULL || (m->map == NULL && m->read != NULL && m->write != NULL));
}

/* How many addresses the bus of a valid map has. */
static size_t addresses_of(const uda50_map *map)
{
    return (map->in_memory != 0 ? map->in_memory : map->count) << map->page;
}

/* Returns UDA50_OK, or UDA50_NO_CONTROLLER. */
static uint32_t look_for_controller(uda50 *handle)
{
    uint8_t none = 0;
    uda50_range area;

    return uda50_get_zeroed(handle, 0, &none, 0, &area);
}

/* Finds where the library finds the guest's bytes. Returns UDA50_OK, or why no turn can be taken there. */
static uint32_t open_view(uda50 *handle, const uda50_machine *m, view *it)
{
    uint8_t none = 0;
    uint32_t status = UDA50_OK;

    *it = (view){handle, m, m->window, m->addresses, true};
    if (m->memory != NULL && m->map == NULL) {
        *it = (view){handle, m, m->memory, m->length, false};
        return UDA50_OK;
    }
    if (m->memory != NULL) {
        status = uda50_read_mapped(m->memory, m->length, m->map, 0, &none, 0);
        it->length = status == UDA50_OK ? addresses_of(m->map) : 0;
    }
    if (status == UDA50_OK && (m->window == NULL || m->addresses == 0 || m->addresses < it->length))
        status = look_for_controller(handle) == UDA50_OK ? UDA50_NO_WINDOW : UDA50_NO_CONTROLLER;
    return status;
}

/* ---- A turn ---- */

/* Reads the next descriptor of a ring and the one before it. If they are side by side and there, one call reads both,
   and in a ring of one they are the same. Returns whether the next one is there. One before it that isn't there counts
   as one that the host owns. */
static bool fetch_pair(const view *it, uda50_range next, uda50_range before)
{
    uda50_range both = {before.at, before.bytes + next.bytes};

    if (before.at + before.bytes == next.at && fetch(it, both))
        return true;
    if (before.at != next.at)
        fetch(it, before);
    return fetch(it, next);
}

#ifdef UDA50_DEBUG
static uint32_t add_bytes(uint32_t sum, const view *it, uda50_range range)
{
    for (uint32_t n = 0; n < range.bytes; n++)
        sum = (sum ^ it->bytes[range.at + n]) * 16777619;
    return sum;
}

/* Returns a sum of what a turn has read into the window. */
static uint32_t sum_of(const view *it, const uda50_turn_use *turn)
{
    uint32_t sum = 1;

    for (int i = 0; i < RANGES; i++)
        sum = add_bytes(sum, it, turn->descriptors[i]);
    return add_bytes(sum, it, turn->body);
}
#endif

/* Notes what a turn has read into the window, in a range that the turn fills later. Does nothing without UDA50_DEBUG. */
static void note_window(const view *it, uda50_turn_use *turn)
{
#ifdef UDA50_DEBUG
    turn->written[0].at = it->is_window ? sum_of(it, turn) : 0;
#else
    (void)it, (void)turn;
#endif
}

/* Notes the window of a run over map registers, which doesn't tell what its turn has read: all of it. */
static void note_run(const view *it, uda50_turn_use *turn)
{
#ifdef UDA50_DEBUG
    turn->body = (uda50_range){0, (uint32_t)it->length};
#endif
    note_window(it, turn);
}

/* Fails if the window has changed since it was noted. Does nothing without UDA50_DEBUG. */
static void expect_window(const view *it, const uda50_turn_use *turn)
{
#ifdef UDA50_DEBUG
    assert(!it->is_window || turn->written[0].at == sum_of(it, turn));
#else
    (void)it, (void)turn;
#endif
}

/* Reads the descriptors of the next turn into the window. */
static void fetch_descriptors(const view *it, uda50_turn_use *turn)
{
    const uda50_range *of = turn->descriptors;

    if (!fetch_pair(it, of[0], of[1]))
        turn->missing |= UDA50_MISSING_COMMAND;
    if (!fetch_pair(it, of[2], of[3]))
        turn->missing |= UDA50_MISSING_RESPONSE;
}

/* Reads what the next turn may need. */
static uint32_t begin_turn(const view *it, uda50_turn_use *turn)
{
    uint32_t status = uda50_get_descriptors(it->handle, it->bytes, it->length, turn);

    if (status != UDA50_OK)
        return status;
    if (it->is_window)
        fetch_descriptors(it, turn);
    status = uda50_get_body(it->handle, it->bytes, it->length, turn);
    if (status == UDA50_OK && !fetch(it, turn->body))
        turn->missing |= UDA50_MISSING_BODY;
    note_window(it, turn);
    return status;
}

/* Takes the turn, and writes its ranges. */
static uint32_t end_turn(const view *it, uda50_turn_use *turn)
{
    uint32_t status;

    expect_window(it, turn);
    status = uda50_turn_at(it->handle, it->bytes, it->length, turn);
    if (it->is_window)
        for (int i = 0; i < RANGES; i++)
            store(it, turn->written[i]);
    return status;
}

/* ---- The blocks of a called image ---- */

static uint32_t least(uint32_t one, uint32_t other)
{
    return one < other ? one : other;
}

/* Reads or writes the blocks of the turn in pieces, up to the first block that fails. The bytes of a Read are at `bytes`,
   one block after the other. Those of another command are there piece by piece. */
static uint32_t move_blocks(const view *it, uda50_turn_use *turn, const uda50_called *image, uint8_t *bytes)
{
    bool writes = turn->blocks.use == UDA50_WRITES, reads = turn->blocks.use == UDA50_READS;
    uint32_t lbn, wanted, moved, status = UDA50_OK;
    uint8_t *piece = bytes;

    do {
        lbn = turn->blocks.first + turn->ready;
        wanted = least(turn->blocks.count - turn->ready, PIECE);
        if (writes)
            status = uda50_get_written(it->handle, it->bytes, it->length, turn, turn->ready, piece, wanted * BLOCK);
        if (status != UDA50_OK)
            return status;
        moved = writes ? image->write(image->context, lbn, wanted, piece) : image->read(image->context, lbn, wanted, piece);
        moved = least(moved, wanted);
        turn->ready += moved;
        if (reads)
            piece += (size_t)moved * BLOCK;
    } while (moved == wanted && turn->ready < turn->blocks.count);
    if (reads)
        turn->lent = (uda50_image){bytes, (size_t)turn->ready * BLOCK};
    return UDA50_OK;
}

/* How a turn goes on when its blocks are moved. */
typedef uint32_t next_step(const view *it, uda50_turn_use *turn);

/* Moves the blocks of the turn in pieces, and goes on with it. All blocks of a Read are moved to one place. */
static uint32_t go_on_by_pieces(const view *it, uda50_turn_use *turn, const uda50_called *image, uint8_t *piece,
                                next_step *go_on)
{
    bool reads = turn->blocks.use == UDA50_READS;
    uint8_t *bytes = reads ? malloc((size_t)turn->blocks.count * BLOCK) : piece;
    uint32_t status;

    if (bytes == NULL)
        return UDA50_NO_MEMORY;
    status = move_blocks(it, turn, image, bytes);
    if (status == UDA50_OK)
        status = go_on(it, turn);
    turn->lent = (uda50_image){NULL, 0};
    if (reads)
        free(bytes);
    return status;
}

/* Moves the blocks of the turn, and goes on with it. Up to PIECE blocks that aren't written are one call of the image. */
static uint32_t go_on_with_blocks(const view *it, uda50_turn_use *turn, next_step *go_on)
{
    const uda50_called *image = it->machine->images[turn->blocks.unit];
    const uda50_blocks *blocks = &turn->blocks;
    uint8_t piece[PIECE * BLOCK];
    uint32_t status;

    if (image == NULL || (blocks->use == UDA50_WRITES ? image->write == NULL : image->read == NULL))
        return UDA50_NO_FUNCTIONS;
    if (blocks->use == UDA50_WRITES || blocks->count > PIECE)
        return go_on_by_pieces(it, turn, image, piece, go_on);
    turn->ready = least(image->read(image->context, blocks->first, blocks->count, piece), blocks->count);
    if (blocks->use == UDA50_READS)
        turn->lent = (uda50_image){piece, (size_t)turn->ready * BLOCK};
    status = go_on(it, turn);
    turn->lent = (uda50_image){NULL, 0};
    return status;
}

/* ---- Turns ---- */

/* Whether the machine is to move blocks for the turn. */
static bool uses_blocks(const uda50_turn_use *turn)
{
    return turn->blocks.count != 0 && (turn->missing & UDA50_MISSING_BODY) == 0;
}

static uint32_t take_turn(const view *it, uda50_turn_use *turn)
{
    uint32_t status = begin_turn(it, turn);

    if (status != UDA50_OK)
        return status;
    return uses_blocks(turn) ? go_on_with_blocks(it, turn, end_turn) : end_turn(it, turn);
}

/* Runs the turns in memory that is one array or that a map leads to. Returns UDA50_OTHER_KIND, and does nothing, if the
   controller has a called image, or if the machine has no such memory. */
static uint32_t run_at_once(uda50 *handle, uint32_t turns, const uda50_machine *m)
{
    if (m->memory == NULL)
        return UDA50_OTHER_KIND;
    return m->map == NULL ? uda50_run(handle, turns, m->memory, m->length)
                          : uda50_run_mapped(handle, turns, m->memory, m->length, m->map);
}

/* Does the same with a word for SA. */
static uint32_t write_at_once(uda50 *handle, uint16_t word, const uda50_machine *m)
{
    if (m->memory == NULL)
        return UDA50_OTHER_KIND;
    return m->map == NULL ? uda50_write_sa(handle, word, m->memory, m->length)
                          : uda50_write_sa_mapped(handle, word, m->memory, m->length, m->map);
}

/* Runs turns over map registers, up to the next that uses blocks of a called image. */
static uint32_t run_to_blocks(const view *it, uda50_turn_use *turn)
{
    const uda50_machine *m = it->machine;
    uint32_t status = uda50_run_to_blocks(it->handle, m->memory, m->length, m->map, it->bytes, it->length, turn);

    if (status == UDA50_NEEDS_BLOCKS)
        note_run(it, turn);
    return status;
}

/* Goes on with a run over map registers, with the blocks that were moved. */
static uint32_t resume_run(const view *it, uda50_turn_use *turn)
{
    expect_window(it, turn);
    return run_to_blocks(it, turn);
}

/* Runs the turns over map registers, and moves the blocks of called images between them. */
static uint32_t run_over_map(const view *it, uda50_turn_use *turn)
{
    uint32_t status = run_to_blocks(it, turn);

    while (status == UDA50_NEEDS_BLOCKS)
        status = go_on_with_blocks(it, turn, resume_run);
    return status;
}

/* Runs the turns one by one, each by single steps. */
static uint32_t run_by_turns(const view *it, uda50_turn_use *turn)
{
    uint32_t status = UDA50_OK;

    if (turn->turns == 0)
        return uda50_get_descriptors(it->handle, it->bytes, it->length, turn); /* or why no turn can be taken */
    for (uint32_t left = turn->turns; left > 0 && status < UDA50_DEAD; left--) {
        status = take_turn(it, turn);
        if (status == UDA50_IDLE)
            break;
    }
    return status;
}

/* Runs the turns by the calls of uda50_steps.h. */
static uint32_t run_by_steps(uda50 *handle, uint32_t turns, const uda50_machine *machine)
{
    uda50_turn_use turn = {.size = sizeof turn, .controller = (uintptr_t)handle, .turns = turns};
    view it;
    uint32_t status = open_view(handle, machine, &it);

    if (status != UDA50_OK)
        return status;
    return machine->memory != NULL && machine->map != NULL ? run_over_map(&it, &turn) : run_by_turns(&it, &turn);
}

uint32_t uda50_machine_run(uda50 *handle, uint32_t turns, const uda50_machine *machine)
{
    uint32_t status = is_whole(machine) ? run_at_once(handle, turns, machine) : UDA50_BAD_MACHINE;

    return status == UDA50_OTHER_KIND ? run_by_steps(handle, turns, machine) : status;
}

uint32_t uda50_machine_turn(uda50 *handle, const uda50_machine *machine)
{
    return uda50_machine_run(handle, 1, machine);
}

/* Writes a word to SA by the calls of uda50_steps.h. */
static uint32_t write_by_steps(uda50 *handle, uint16_t word, const uda50_machine *machine)
{
    view it;
    uda50_range area = {0, 0};
    uint32_t status = open_view(handle, machine, &it);
    bool missing;

    if (status == UDA50_OK)
        status = uda50_get_zeroed(handle, word, it.bytes, it.length, &area);
    if (status != UDA50_OK)
        return status;
    missing = !fetch(&it, area);
    status = uda50_write_sa_at(handle, word, it.bytes, it.length, missing, &area);
    store(&it, area);
    return status;
}

uint32_t uda50_machine_write_sa(uda50 *handle, uint16_t word, const uda50_machine *machine)
{
    uint32_t status = is_whole(machine) ? write_at_once(handle, word, machine) : UDA50_BAD_MACHINE;

    return status == UDA50_OTHER_KIND ? write_by_steps(handle, word, machine) : status;
}
