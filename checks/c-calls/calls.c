/* calls.c: what the calls return if they are misused, what images hold when they come back, and that nothing is left
   when controllers go. It prints each line that fails, and then returns 1. */
#define _DEFAULT_SOURCE
#include "guest.h"

#include <stdlib.h>
#include <sys/mman.h>

enum { MEMORY_LIMIT = 4194304, ROUNDS = 10000 };

static uint8_t blocks[8 * BLOCK], kept[8 * BLOCK];

/* Offers bytes to a unit. If they are refused the struct must have them still, and if not it must be empty. */
static uint32_t attached(uda50 *handle, uint32_t unit, uint8_t *at, size_t length, bool write_protected)
{
    uda50_image image = { at, length };
    uint32_t answer = uda50_attach(handle, unit, &image, write_protected);

    EXPECT(image.at == (answer == UDA50_OK ? NULL : at), true);
    EXPECT(image.length, answer == UDA50_OK ? 0 : length);
    EXPECT(memcmp(blocks, kept, sizeof blocks), 0);
    return answer;
}

/* Asks for a unit's image. It must be these bytes, or none if it is refused. */
static uint32_t detached(uda50 *handle, uint32_t unit, uint8_t *at, size_t length)
{
    uda50_image image = { NULL, 0 };
    uint32_t answer = uda50_detach(handle, unit, &image);

    EXPECT(image.at == (answer == UDA50_OK ? at : NULL), true);
    EXPECT(image.length, answer == UDA50_OK ? length : 0);
    EXPECT(memcmp(blocks, kept, sizeof blocks), 0);
    return answer;
}

/* Frees a handle, of whose images this is unit 0's, or NULL. */
static uint32_t freed(uda50 *handle, uint8_t *at, size_t length)
{
    uda50_image images[UDA50_UNITS] = { { NULL, 0 } };
    uint32_t answer = uda50_free(handle, images);

    EXPECT(images[0].at == at && images[0].length == length, true);
    for (int unit = 1; unit < UDA50_UNITS; unit++)
        EXPECT(images[unit].length, 0);
    EXPECT(memcmp(blocks, kept, sizeof blocks), 0);
    EXPECT(handle->at == NULL, true);
    return answer;
}

/* Every call on a handle that has no controller. */
static void answers_without_controller(uda50 *handle)
{
    uda50_state state;
    uda50_turn_record last;
    uda50_unit info;
    uint8_t text[4] = { 'a', 'b', 'c', 'd' };
    uint16_t vector = 0x1234;

    memset(&state, 0x5a, sizeof state);
    memset(&last, 0x5a, sizeof last);
    memset(&info, 0x5a, sizeof info);
    state.size = last.size = info.size = 0;
    EXPECT(attached(handle, 0, blocks, BLOCK, false), UDA50_NO_CONTROLLER);
    EXPECT(detached(handle, 0, NULL, 0), UDA50_NO_CONTROLLER);
    EXPECT(freed(handle, NULL, 0), UDA50_NO_CONTROLLER);
    EXPECT(uda50_inject_failure(handle, 0, 1), UDA50_NO_CONTROLLER);
    uda50_write_ip(handle, 0);
    EXPECT(uda50_read_ip(handle), 0);
    EXPECT(uda50_write_sa(handle, 0x8000, memory, sizeof memory), UDA50_NO_CONTROLLER);
    EXPECT(uda50_read_sa(handle), 0);
    EXPECT(uda50_turn(handle, memory, sizeof memory), UDA50_NO_CONTROLLER);
    EXPECT(uda50_run(handle, 5, memory, sizeof memory), UDA50_NO_CONTROLLER);
    EXPECT(uda50_take_interrupt(handle, &vector), false);
    EXPECT(vector, 0x1234);
    EXPECT(uda50_get_state(handle, &state), UDA50_NO_CONTROLLER);
    EXPECT(state.phase, 0x5a5a5a5a);
    EXPECT(uda50_get_last_turn(handle, &last), UDA50_NO_CONTROLLER);
    EXPECT(last.kind, 0x5a5a5a5a);
    EXPECT(uda50_get_unit(handle, 9, &info), UDA50_NO_CONTROLLER);
    EXPECT(info.blocks, 0x5a5a5a5a);
    EXPECT(uda50_set_protected(handle, 9, true), UDA50_NO_CONTROLLER);
    EXPECT(uda50_format_last_turn(handle, text, sizeof text), UDA50_NO_CONTROLLER);
    EXPECT(text[0], 'a');
    EXPECT(handle->at == NULL, true);
}

static void handles(void)
{
    uda50 handle = { 0 };

    EXPECT(uda50_version(), UDA50_VERSION);
    answers_without_controller(&handle);
    EXPECT(uda50_new(&handle, false), UDA50_OK);
    EXPECT(uda50_read_sa(&handle), 0x0800);
    EXPECT(uda50_write_sa(&handle, 0x8000, memory, sizeof memory), UDA50_OK);
    EXPECT(uda50_new(&handle, false), UDA50_HAS_CONTROLLER);
    EXPECT(uda50_read_sa(&handle), 0x1080);
    EXPECT(freed(&handle, NULL, 0), UDA50_OK);
    answers_without_controller(&handle);
    EXPECT(uda50_new(&handle, true), UDA50_OK);
    EXPECT(freed(&handle, NULL, 0), UDA50_OK);
}

/* What an image must be, and where it goes. */
static void images(void)
{
    uda50 handle = { 0 };
    size_t longer = ((size_t)UDA50_MAX_BLOCKS + 1) * BLOCK;
    uint8_t *large = mmap(NULL, longer, PROT_READ | PROT_WRITE, MAP_PRIVATE | MAP_ANONYMOUS | MAP_NORESERVE, -1, 0);
    uda50_image held = { blocks, BLOCK }, full[UDA50_UNITS] = { { NULL, 0 } };

    EXPECT(large == MAP_FAILED, false);
    EXPECT(uda50_new(&handle, true), UDA50_OK);
    EXPECT(detached(&handle, 0, NULL, 0), UDA50_NOT_ATTACHED);
    EXPECT(uda50_inject_failure(&handle, 0, 1), UDA50_NOT_ATTACHED);
    EXPECT(attached(&handle, 4, blocks, BLOCK, false), UDA50_NO_SUCH_UNIT);
    EXPECT(attached(&handle, UINT32_MAX, blocks, BLOCK, false), UDA50_NO_SUCH_UNIT);
    EXPECT(detached(&handle, 4, NULL, 0), UDA50_NO_SUCH_UNIT);
    EXPECT(uda50_inject_failure(&handle, 4, 1), UDA50_NO_SUCH_UNIT);
    EXPECT(uda50_set_protected(&handle, 4, true), UDA50_NO_SUCH_UNIT);
    EXPECT(uda50_set_protected(&handle, 3, true), UDA50_NOT_ATTACHED);
    EXPECT(attached(&handle, 0, blocks, BLOCK + 1, false), UDA50_BAD_LENGTH);
    EXPECT(attached(&handle, 0, blocks, BLOCK - 1, false), UDA50_BAD_LENGTH);
    EXPECT(attached(&handle, 0, blocks, 0, false), UDA50_BAD_LENGTH);
    EXPECT(attached(&handle, 0, NULL, 0, false), UDA50_BAD_LENGTH);
    EXPECT(attached(&handle, 0, large, longer, false), UDA50_TOO_LARGE);
    EXPECT(attached(&handle, 0, large, longer - BLOCK, false), UDA50_OK);
    EXPECT(attached(&handle, 0, blocks, BLOCK, false), UDA50_ALREADY_ATTACHED);
    EXPECT(attached(&handle, 0, blocks, BLOCK + 1, false), UDA50_ALREADY_ATTACHED);
    EXPECT(uda50_detach(&handle, 0, &held), UDA50_NOT_EMPTY);
    EXPECT(held.at == blocks && held.length == BLOCK, true);
    for (int unit = 0; unit < UDA50_UNITS; unit++) {
        full[unit] = held;
        EXPECT(uda50_free(&handle, full), UDA50_NOT_EMPTY);
        EXPECT(full[unit].at == blocks && full[unit].length == BLOCK, true);
        full[unit] = (uda50_image){ NULL, 0 };
    }
    EXPECT(detached(&handle, 0, large, longer - BLOCK), UDA50_OK);
    EXPECT(detached(&handle, 0, NULL, 0), UDA50_NOT_ATTACHED);
    EXPECT(attached(&handle, 3, blocks, BLOCK, true), UDA50_OK);
    EXPECT(uda50_inject_failure(&handle, 3, 1), UDA50_OK);
    EXPECT(detached(&handle, 3, blocks, BLOCK), UDA50_OK);
    EXPECT(attached(&handle, 0, blocks, sizeof blocks, true), UDA50_OK);
    EXPECT(freed(&handle, blocks, sizeof blocks), UDA50_OK);
    munmap(large, longer);
}

/* Whole images after a guest's Writes, on each unit one, that go back by uda50_free and by uda50_detach. */
static void whole_images(void)
{
    static uint8_t disks[UDA50_UNITS][16 * BLOCK], wanted[UDA50_UNITS][16 * BLOCK];
    uda50_image image, images[UDA50_UNITS] = { { NULL, 0 } };
    uda50 handle = { 0 };

    EXPECT(uda50_new(&handle, true), UDA50_OK);
    for (uint16_t unit = 0; unit < UDA50_UNITS; unit++) {
        for (size_t i = 0; i < sizeof wanted[unit]; i++)
            disks[unit][i] = wanted[unit][i] = (uint8_t)(i * (unit + 3u) + i / BLOCK);
        image = (uda50_image){ disks[unit], sizeof disks[unit] };
        EXPECT(uda50_attach(&handle, unit, &image, false), UDA50_OK);
        EXPECT(status_of(&handle, (command){ SET_CONTROLLER, 0, 1, 0, 0 }), 0);
        EXPECT(status_of(&handle, (command){ ONLINE, unit, 2, 0, 0 }), 0);
        memset(memory + BUFFER, 'a' + unit, 3 * BLOCK);
        EXPECT(status_of(&handle, (command){ WRITE, unit, 3, 3 * BLOCK, unit + 5u }), 0);
        memset(wanted[unit] + (unit + 5) * BLOCK, 'a' + unit, 3 * BLOCK);
    }
    image = (uda50_image){ blocks, sizeof blocks };
    EXPECT(uda50_attach(&handle, 1, &image, false), UDA50_ALREADY_ATTACHED);
    EXPECT(memcmp(disks, wanted, sizeof wanted), 0);
    EXPECT(uda50_detach(&handle, 1, &image), UDA50_NOT_EMPTY);
    EXPECT(memcmp(disks, wanted, sizeof wanted), 0);
    image = (uda50_image){ NULL, 0 };
    EXPECT(uda50_detach(&handle, 1, &image), UDA50_OK);
    EXPECT(image.at == disks[1] && image.length == sizeof disks[1], true);
    EXPECT(memcmp(disks, wanted, sizeof wanted), 0);
    EXPECT(uda50_attach(&handle, 1, &image, false), UDA50_OK);
    EXPECT(uda50_new(&handle, true), UDA50_HAS_CONTROLLER);
    EXPECT(memcmp(disks, wanted, sizeof wanted), 0);
    EXPECT(uda50_free(&handle, images), UDA50_OK);
    for (int unit = 0; unit < UDA50_UNITS; unit++)
        EXPECT(images[unit].at == disks[unit] && images[unit].length == sizeof disks[unit], true);
    EXPECT(memcmp(disks, wanted, sizeof wanted), 0);
    EXPECT(memcmp(blocks, kept, sizeof blocks), 0);
}

static void memories(void)
{
    uda50 handle = { 0 };
    uint8_t *large = calloc(MEMORY_LIMIT + 2, 1);

    EXPECT(uda50_new(&handle, true), UDA50_OK);
    EXPECT(uda50_turn(&handle, large, 1), UDA50_BAD_LENGTH);
    EXPECT(uda50_turn(&handle, large, MEMORY_LIMIT + 1), UDA50_BAD_LENGTH);
    EXPECT(uda50_turn(&handle, large, MEMORY_LIMIT + 2), UDA50_TOO_LARGE);
    EXPECT(uda50_turn(&handle, large, MEMORY_LIMIT), UDA50_IDLE);
    EXPECT(uda50_turn(&handle, large, 0), UDA50_IDLE);
    EXPECT(uda50_run(&handle, 9, large, 1), UDA50_BAD_LENGTH);
    EXPECT(uda50_run(&handle, 9, large, MEMORY_LIMIT + 2), UDA50_TOO_LARGE);
    EXPECT(uda50_run(&handle, 9, large, MEMORY_LIMIT), UDA50_IDLE);
    EXPECT(uda50_run(&handle, 0, large, MEMORY_LIMIT), UDA50_IDLE);
    freed(&handle, NULL, 0);
    free(large);
}

/* The text of the last turn in buffers of any length. */
static void texts(void)
{
    uda50 handle = { 0 };
    uint8_t text[16];

    EXPECT(uda50_new(&handle, false), UDA50_OK);
    memset(text, 'x', sizeof text);
    EXPECT(uda50_format_last_turn(&handle, text, sizeof text), UDA50_OK);
    EXPECT(text[0], 0);
    EXPECT(text[1], 'x');
    uda50_write_sa(&handle, 0xc000, memory, sizeof memory);
    EXPECT(uda50_run(&handle, 9, memory, sizeof memory), UDA50_DEAD);
    for (size_t length = 0; length < sizeof text; length++) {
        size_t state = length == 0 ? 0 : length - 1;

        memset(text, 'x', sizeof text);
        EXPECT(uda50_format_last_turn(&handle, text, length), UDA50_OK);
        EXPECT(memcmp(text, "dead of code 19", state), 0);
        EXPECT(length != 0 && text[state] != 0, false);
        EXPECT(text[length], 'x');
    }
    freed(&handle, NULL, 0);
}

static uint64_t wide[8], untouched[8];

/* Whether the bytes from this one on are as they were. */
static bool ends_at(size_t bytes)
{
    return memcmp((uint8_t *)wide + bytes, (uint8_t *)untouched + bytes, sizeof wide - bytes) == 0;
}

/* Says that the struct in `wide` has this many bytes. */
static void *of_size(size_t bytes)
{
    memset(wide, 0x5a, sizeof wide);
    memcpy(wide, &bytes, sizeof bytes);
    memcpy(untouched, wide, sizeof wide);
    return wide;
}

/* A struct that says it is smaller than the library's stays as it was. Of a larger one no more bytes change. */
static void sizes(void)
{
    uda50 handle = { 0 };

    EXPECT(uda50_new(&handle, true), UDA50_OK);
    for (size_t bytes = 0; bytes <= sizeof wide; bytes++) {
        bool is_state = bytes >= sizeof(uda50_state), is_turn = bytes >= sizeof(uda50_turn_record);
        bool is_unit = bytes >= sizeof(uda50_unit);

        EXPECT(uda50_get_state(&handle, of_size(bytes)), is_state ? UDA50_OK : UDA50_BAD_LENGTH);
        EXPECT(ends_at(is_state ? sizeof(uda50_state) : 0), true);
        EXPECT(ends_at(0), !is_state);
        EXPECT(memcmp(wide, untouched, sizeof(size_t)), 0);
        EXPECT(uda50_get_last_turn(&handle, of_size(bytes)), is_turn ? UDA50_OK : UDA50_BAD_LENGTH);
        EXPECT(ends_at(is_turn ? sizeof(uda50_turn_record) : 0), true);
        EXPECT(ends_at(0), !is_turn);
        EXPECT(memcmp(wide, untouched, sizeof(size_t)), 0);
        EXPECT(uda50_get_unit(&handle, 3, of_size(bytes)), is_unit ? UDA50_OK : UDA50_BAD_LENGTH);
        EXPECT(ends_at(is_unit ? sizeof(uda50_unit) : 0), true);
        EXPECT(ends_at(0), !is_unit);
        EXPECT(memcmp(wide, untouched, sizeof(size_t)), 0);
        EXPECT(uda50_get_unit(&handle, 4, of_size(bytes)), UDA50_NO_SUCH_UNIT);
        EXPECT(ends_at(0), true);
    }
    freed(&handle, NULL, 0);
}

static void no_leak(void)
{
    for (int round = 0; round < ROUNDS; round++) {
        uda50 handle = { 0 };

        EXPECT(uda50_new(&handle, round % 2 == 0), UDA50_OK);
        EXPECT(attached(&handle, 0, blocks, sizeof blocks, false), UDA50_OK);
        EXPECT(uda50_turn(&handle, memory, sizeof memory), UDA50_IDLE);
        EXPECT(freed(&handle, blocks, sizeof blocks), UDA50_OK);
        EXPECT(handle.at == NULL, true);
    }
}

int main(void)
{
    for (size_t i = 0; i < sizeof blocks; i++)
        blocks[i] = kept[i] = (uint8_t)(i * 7 + i / 256);
    handles();
    images();
    whole_images();
    memories();
    texts();
    sizes();
    no_leak();
    return ended();
}
