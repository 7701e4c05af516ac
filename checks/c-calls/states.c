/* states.c: uda50_save and uda50_restore. First the meaning of each refusal. Then STRINGS byte strings, most of them
   states that were changed at random: each is refused and changes nothing, or leads to a controller that two handles
   continue alike for EVENTS events of a random guest. If the state wasn't changed, one of the two is the handle that was
   saved. After each event it is tested what every port keeps.
   Usage: states [STRINGS [EVENTS]] */
#include "guest.h"

#include <stdlib.h>

enum { DISK = 16 * BLOCK, STATE = UDA50_STATE_LENGTH };

/* A controller with images in the first of its units, that of unit 1 write-protected, and the memory of its guest. */
typedef struct {
    uda50 uda;
    uint8_t disks[UDA50_UNITS][DISK], memory[SIZE];
    uint32_t units;
} machine;

static const size_t lengths[UDA50_UNITS] = { DISK, 8 * BLOCK, 12 * BLOCK, 4 * BLOCK };
static machine first, second, worker;

/* ---- Machines ---- */

static void attach(machine *it, uint32_t unit, uint8_t *at, size_t length, bool write_protected)
{
    uda50_image image = { at, length };

    EXPECT(uda50_attach(&it->uda, unit, &image, write_protected), UDA50_OK);
}

static void make(machine *it, uint32_t units)
{
    EXPECT(uda50_new(&it->uda, true), UDA50_OK);
    it->units = units;
    for (uint32_t unit = 0; unit < units; unit++) {
        memset(it->disks[unit], (int)unit, DISK);
        attach(it, unit, it->disks[unit], lengths[unit], unit == 1);
    }
}

static void end(machine *it)
{
    uda50_image images[UDA50_UNITS] = { { NULL, 0 } };

    EXPECT(uda50_free(&it->uda, images), UDA50_OK);
    for (uint32_t unit = 0; unit < it->units; unit++)
        EXPECT(images[unit].at == it->disks[unit] && images[unit].length == lengths[unit], true);
}

/* The same images and memory, but not the same controller. */
static void copy_bytes(machine *to, const machine *from)
{
    memcpy(to->disks, from->disks, sizeof to->disks);
    memcpy(to->memory, from->memory, SIZE);
}

static bool same_bytes(const machine *one, const machine *other)
{
    return memcmp(one->disks, other->disks, sizeof one->disks) == 0 && memcmp(one->memory, other->memory, SIZE) == 0;
}

static void save(machine *it, uint8_t *state)
{
    EXPECT(uda50_save(&it->uda, state, STATE), UDA50_OK);
}

static bool same_state(machine *it, const uint8_t *state)
{
    static uint8_t now[STATE];

    save(it, now);
    return memcmp(now, state, STATE) == 0;
}

/* ---- A random guest ---- */

static void set16(machine *it, uint32_t at, uint32_t word)
{
    it->memory[at] = (uint8_t)word;
    it->memory[at + 1] = (uint8_t)(word >> 8);
}

/* Gives the port a descriptor of the rings at BASE, for a packet of 60 bytes. */
static void give(machine *it, uint32_t n)
{
    uint32_t text = 0x1104 + 0x40 * n;

    set16(it, text - 4, n < RESPONSES ? 60 : 48);
    set16(it, BASE + 4 * n, text);
    set16(it, BASE + 4 * n + 2, n & 1 ? 0xc000 : 0x8000);
}

static void post_one(machine *it, uint32_t n, uint32_t number)
{
    static const uint8_t opcodes[] = { 1, 2, 3, 4, 8, 9, 10, 11, 16, 17, 18, 19, 32, 33, 34, 34, 33, 33, 9, 77 };
    uint8_t *text = it->memory + 0x1104 + 0x40 * (RESPONSES + n);

    memset(text, 0, 48);
    text[0] = (uint8_t)(number >> 24);
    text[4] = number >> 8 & 3;
    text[8] = opcodes[number % sizeof opcodes];
    text[12] = text[8] == 1 || text[8] == 2 ? (uint8_t)(number >> 16) : 0;
    text[13] = number >> 10 & 6;
    text[17] = 0x20 + (number >> 12 & 7);
    text[28] = number >> 16 & 0xf;
    give(it, RESPONSES + n);
}

/* Starts the port up. Each 256 bytes of the buffers have a byte of their own, which depends on `number`. */
static void start_up(machine *it, uint32_t number)
{
    memset(it->memory, 0, SIZE);
    for (uint32_t n = BUFFER; n < SIZE; n += 256)
        memset(it->memory + n, (uint8_t)(number + n / 256 * 7), 256);
    uda50_write_ip(&it->uda, 0);
    uda50_write_sa(&it->uda, 0x8080 | 1 << 11 | 2 << 8 | VECTOR / 4, it->memory, SIZE);
    uda50_write_sa(&it->uda, BASE, it->memory, SIZE);
    uda50_write_sa(&it->uda, 0, it->memory, SIZE);
    uda50_write_sa(&it->uda, 1, it->memory, SIZE);
}

/* One event, chosen by two numbers. Returns what the call returned. */
static uint32_t event(machine *it, uint32_t kind, uint32_t number)
{
    uint16_t vector = 0;

    switch (kind % 64) {
    case 0:
        start_up(it, number);
        return 0;
    case 1:
        uda50_write_sa(&it->uda, (uint16_t)number, it->memory, SIZE);
        return 0;
    case 2:
        if (number % 16 == 0)
            uda50_write_ip(&it->uda, 0);
        return 0;
    case 3:
        return uda50_inject_failure(&it->uda, number & 3, number >> 8 & 7);
    case 4: case 5: case 6: case 7:
        return uda50_take_interrupt(&it->uda, &vector) ? vector : 1;
    case 8: case 9: case 10: case 11:
        return uda50_read_ip(&it->uda);
    case 12:
        set16(it, number % (SIZE / 2) * 2, number >> 16);
        return 0;
    default:
        if (kind % 64 < 20)
            give(it, number % RESPONSES);
        else if (kind % 64 < 42)
            post_one(it, number >> 30 & (COMMANDS - 1), number);
        else
            return uda50_turn(&it->uda, it->memory, SIZE);
        return 0;
    }
}

/* What every port keeps: the credits, what SA shows, and that a dead port stays dead until IP is written. */
static void test_port(machine *it, const uda50_state *before, uint32_t kind, const uda50_state *now)
{
    uint32_t granted = now->credits + now->pending + now->queued;

    EXPECT(granted == 1 || granted == 15, true);
    EXPECT(uda50_read_sa(&it->uda), now->sa);
    EXPECT(now->phase >= UDA50_PHASE_STEP_1 && now->phase <= UDA50_PHASE_WRAP, true);
    EXPECT(now->responses.next < now->responses.count && now->commands.next < now->commands.count, true);
    EXPECT(now->responses.base <= now->commands.base, true);
    if (before->phase == UDA50_PHASE_DEAD && kind % 64 != 0 && kind % 64 != 2)
        EXPECT(memcmp(before, now, sizeof *now) == 0, true);
    if (before->phase == UDA50_PHASE_RUNNING && kind % 64 != 0 && kind % 64 != 2)
        EXPECT(now->phase == UDA50_PHASE_RUNNING || now->phase == UDA50_PHASE_DEAD, true);
}

/* Plays the same events on both machines. */
static void play_both(machine *one, machine *other, uint32_t events)
{
    static uint8_t state[STATE];
    uda50_state before = { .size = sizeof before }, now = before, also = before;

    EXPECT(uda50_get_state(&one->uda, &before), UDA50_OK);
    for (uint32_t n = 0; n < events && failures == 0; n++) {
        uint32_t kind = any(1u << 31), number = any(UINT32_MAX);

        EXPECT(event(one, kind, number), event(other, kind, number));
        EXPECT(uda50_get_state(&one->uda, &now), UDA50_OK);
        EXPECT(uda50_get_state(&other->uda, &also), UDA50_OK);
        EXPECT(memcmp(&now, &also, sizeof now), 0);
        test_port(one, &before, kind, &now);
        before = now;
    }
    EXPECT(same_bytes(one, other), true);
    save(one, state);
    EXPECT(same_state(other, state), true);
}

/* ---- The meaning of each refusal ---- */

static void refused(machine *it, uint8_t *state, uint32_t status, int line)
{
    static uint8_t before[STATE];

    save(it, before);
    expect(uda50_restore(&it->uda, state, STATE), status, "the status of a restore", line);
    expect(same_state(it, before), true, "unchanged", line);
}

#define CHANGED(at, byte, status)            \
    do {                                     \
        uint8_t kept = state[at];            \
        state[at] = (uint8_t)(byte);         \
        refused(&second, state, status, __LINE__); \
        state[at] = kept;                    \
    } while (0)

static void lengths_and_handles(void)
{
    static uint8_t state[STATE + 1], untouched[STATE + 1];
    uda50 none = { NULL };

    memset(state, 0x5a, sizeof state);
    memset(untouched, 0x5a, sizeof untouched);
    EXPECT(uda50_save(&none, state, STATE), UDA50_NO_CONTROLLER);
    EXPECT(uda50_restore(&none, state, STATE), UDA50_NO_CONTROLLER);
    EXPECT(uda50_save(&first.uda, state, STATE - 1), UDA50_BAD_LENGTH);
    EXPECT(uda50_save(&first.uda, state, STATE + 1), UDA50_BAD_LENGTH);
    EXPECT(memcmp(state, untouched, sizeof state), 0);
    EXPECT(uda50_save(&first.uda, state, STATE), UDA50_OK);
    EXPECT(state[STATE], 0x5a);
    EXPECT(uda50_restore(&first.uda, state, STATE - 1), UDA50_BAD_LENGTH);
    EXPECT(uda50_restore(&first.uda, state, STATE + 1), UDA50_BAD_LENGTH);
    EXPECT(uda50_restore(&first.uda, state, 1), UDA50_BAD_LENGTH);
    EXPECT(uda50_restore(&first.uda, state, STATE), UDA50_OK);
    state[0] = UDA50_STATE_VERSION + 1;
    EXPECT(uda50_restore(&first.uda, state, 1), UDA50_BAD_LENGTH);
    EXPECT(uda50_restore(&first.uda, state, 2), UDA50_OTHER_VERSION);
    EXPECT(uda50_restore(&first.uda, state, STATE - 1), UDA50_OTHER_VERSION);
    EXPECT(uda50_restore(&first.uda, state, STATE + 1), UDA50_OTHER_VERSION);
}

/* Two commands are pending, and an end message is queued. Block call 3 of unit 0 fails. */
static void at_work(machine *it)
{
    static const uint32_t commands[] = { 18, 13, 13 | 2 << 16, 14 | 3 << 16 };

    start_up(it, 0);
    give(it, 0);
    for (uint32_t n = 0; n < 4; n++) {
        post_one(it, n % COMMANDS, commands[n] | 4 << 10 | n << 24);
        uda50_read_ip(&it->uda);
        EXPECT(uda50_turn(&it->uda, it->memory, SIZE), UDA50_FETCHED);
        if (n < 2)
            EXPECT(uda50_turn(&it->uda, it->memory, SIZE), UDA50_EXECUTED);
        if (n == 0)
            EXPECT(uda50_turn(&it->uda, it->memory, SIZE), UDA50_DELIVERED);
    }
    EXPECT(uda50_inject_failure(&it->uda, 0, 3), UDA50_OK);
}

/* A state of a running controller is refused if a byte of it is one that no controller has. */
static void impossible_at_work(uint8_t *state)
{
    CHANGED(14, 0xff, UDA50_BAD_STATE);          /* a vector that is no multiple of 4 */
    CHANGED(15, 2, UDA50_BAD_STATE);             /* a vector above 0x1FC */
    CHANGED(30, 1, UDA50_BAD_STATE);             /* attention for a unit without an image */
    CHANGED(44, 3, UDA50_BAD_STATE);             /* a ring of three descriptors */
    CHANGED(48, state[48] + 4, UDA50_BAD_STATE); /* a command ring that doesn't follow the response ring */
    CHANGED(8, 0, UDA50_BAD_STATE);              /* a strict controller with a vector */
    CHANGED(2, 6, UDA50_BAD_STATE);              /* step 4 with pending commands */
    state[14] = state[15] = 0;
    CHANGED(19, 1, UDA50_BAD_STATE);             /* a request without a vector */
}

/* More operations are listed than commands are pending. */
static void operations_without_commands(const uint8_t *saved)
{
    static uint8_t state[STATE];

    memcpy(state, saved, STATE);
    EXPECT(state[21], 2);
    CHANGED(22, 3, UDA50_BAD_STATE);
    CHANGED(22, 15, UDA50_BAD_STATE);
    CHANGED(22, 16, UDA50_BAD_STATE);
    state[60] = 17; /* that cause comes before other images */
    CHANGED(22, 3, UDA50_BAD_STATE);
    refused(&second, state, UDA50_OTHER_IMAGES, __LINE__);
}

/* An attention message may be due for an available unit, and not for an online one. */
static void attention_for_an_online_unit(const uint8_t *saved)
{
    static uint8_t state[STATE];

    memcpy(state, saved, STATE);
    EXPECT(state[57], 1);
    EXPECT(state[65], 0);
    state[12] = 0x80; /* the guest asks for attention messages */
    CHANGED(28, 1, UDA50_BAD_STATE);
    state[29] = 1;
    CHANGED(65, 1, UDA50_BAD_STATE);
    EXPECT(uda50_restore(&second.uda, state, STATE), UDA50_OK);
    state[29] = 0;
    state[65] = 1;
    EXPECT(uda50_restore(&second.uda, state, STATE), UDA50_OK);
    state[57] = 0;
    state[28] = 1;
    EXPECT(uda50_restore(&second.uda, state, STATE), UDA50_OK);
}

/* A strict controller has started up, with the images of `second`. */
static void strict_state(uint8_t *state)
{
    static const uint16_t words[] = { 0x8000, BASE, 0, 1 };
    uda50_image images[UDA50_UNITS] = { { NULL, 0 } };

    EXPECT(uda50_new(&worker.uda, false), UDA50_OK);
    for (uint32_t unit = 0; unit < second.units; unit++)
        attach(&worker, unit, worker.disks[unit], lengths[unit], unit == 1);
    for (int n = 0; n < 4; n++)
        uda50_write_sa(&worker.uda, words[n], worker.memory, SIZE);
    save(&worker, state);
    EXPECT(uda50_free(&worker.uda, images), UDA50_OK);
}

/* Only an online unit of a strict controller has software protection. One of a compatible controller keeps it. */
static void protection_of_an_available_unit(const uint8_t *saved)
{
    static uint8_t state[STATE];

    strict_state(state);
    EXPECT(state[2] == 7 && state[8] == 0, true);
    EXPECT(uda50_restore(&second.uda, state, STATE), UDA50_OK);
    CHANGED(59, 1, UDA50_BAD_STATE);
    CHANGED(67, 1, UDA50_BAD_STATE);
    state[57] = state[59] = 1;
    EXPECT(uda50_restore(&second.uda, state, STATE), UDA50_OK);
    CHANGED(57, 0, UDA50_BAD_STATE);
    memcpy(state, saved, STATE);
    EXPECT(state[8], 1);
    state[57] = 0;
    state[59] = 1;
    EXPECT(uda50_restore(&second.uda, state, STATE), UDA50_OK);
}

/* States that break one rule of a controller, and the same states without that. Then `second` continues from the state
   that it had. */
static void rules_of_a_controller(void)
{
    static uint8_t saved[STATE];

    save(&second, saved);
    operations_without_commands(saved);
    attention_for_an_online_unit(saved);
    protection_of_an_available_unit(saved);
    EXPECT(uda50_restore(&second.uda, saved, STATE), UDA50_OK);
}

/* The same of the state of a new controller, which has no images. */
static void impossible_at_first(void)
{
    static uint8_t state[STATE];
    uda50 fresh = { NULL };
    uda50_image images[UDA50_UNITS] = { { NULL, 0 } };

    EXPECT(uda50_new(&fresh, true), UDA50_OK);
    EXPECT(uda50_save(&fresh, state, STATE), UDA50_OK);
    EXPECT(uda50_free(&fresh, images), UDA50_OK);
    refused(&second, state, UDA50_OTHER_IMAGES, __LINE__);
    CHANGED(12, 0x80, UDA50_BAD_STATE); /* controller flags */
    CHANGED(14, 8, UDA50_BAD_STATE);    /* a vector before the first word */
    CHANGED(17, 1, UDA50_BAD_STATE);    /* polling */
    CHANGED(28, 1, UDA50_BAD_STATE);    /* attention */
    CHANGED(36, 1, UDA50_BAD_STATE);    /* a block of a last transfer */
    CHANGED(40, 8, UDA50_BAD_STATE);    /* the address of a ring */
    state[56] = state[60] = 1;          /* unit 0 has an image of one block */
    CHANGED(57, 1, UDA50_BAD_STATE);    /* an online unit */
    CHANGED(59, 1, UDA50_BAD_STATE);    /* a unit with software protection */
    CHANGED(24, 14, UDA50_BAD_STATE);   /* an RRD40 that isn't write-protected */
    state[11] = 0xff;
    CHANGED(10, 0xfc, UDA50_OTHER_IMAGES);
    CHANGED(10, 0xfd, UDA50_BAD_STATE); /* unit numbers that go round */
}

static void refusals(void)
{
    static uint8_t state[STATE];
    uda50_state now = { .size = sizeof now };
    uda50_turn_record turn = { .size = sizeof turn };
    uda50_image image = { NULL, 0 }, spare = { worker.disks[2], BLOCK };

    at_work(&first);
    save(&first, state);
    CHANGED(0, 2, UDA50_OTHER_VERSION);
    CHANGED(1, 1, UDA50_OTHER_VERSION);
    CHANGED(2, 9, UDA50_BAD_STATE);
    CHANGED(8, 3, UDA50_BAD_STATE);
    CHANGED(9, 1, UDA50_BAD_STATE);
    CHANGED(16, 2, UDA50_BAD_STATE);
    CHANGED(20, state[20] + 1, UDA50_BAD_STATE);
    CHANGED(21, 16, UDA50_BAD_STATE);
    CHANGED(24, UDA50_DRIVE_TYPE_COUNT, UDA50_BAD_STATE);
    CHANGED(41, 0xff, UDA50_BAD_STATE);
    CHANGED(60, 17, UDA50_OTHER_IMAGES);
    CHANGED(58, 1, UDA50_OTHER_IMAGES);
    CHANGED(104, 1, UDA50_BAD_STATE);
    CHANGED(STATE - 1, 1, UDA50_BAD_STATE);
    impossible_at_first();
    EXPECT(uda50_attach(&second.uda, 2, &spare, false), UDA50_OK);
    refused(&second, state, UDA50_OTHER_IMAGES, __LINE__);
    EXPECT(uda50_detach(&second.uda, 2, &spare), UDA50_OK);
    EXPECT(uda50_detach(&second.uda, 1, &image), UDA50_OK);
    refused(&second, state, UDA50_OTHER_IMAGES, __LINE__);
    EXPECT(uda50_attach(&second.uda, 1, &image, false), UDA50_OK);
    refused(&second, state, UDA50_OTHER_IMAGES, __LINE__);
    EXPECT(uda50_detach(&second.uda, 1, &image), UDA50_OK);
    EXPECT(uda50_attach(&second.uda, 1, &image, true), UDA50_OK);
    copy_bytes(&second, &first);
    EXPECT(uda50_turn(&second.uda, second.memory, SIZE), UDA50_IDLE);
    EXPECT(uda50_restore(&second.uda, state, STATE), UDA50_OK);
    EXPECT(same_state(&second, state), true);
    EXPECT(uda50_get_state(&second.uda, &now), UDA50_OK);
    EXPECT(now.pending, 2);
    EXPECT(now.queued, 1);
    EXPECT(now.credits, 12);
    EXPECT(uda50_get_last_turn(&second.uda, &turn), UDA50_OK);
    EXPECT(turn.kind, UDA50_NO_TURN);
    impossible_at_work(state);
    rules_of_a_controller();
    play_both(&first, &second, 1000);
}

/* ---- Any bytes ---- */

/* A state that a guest has led to, in `worker`. */
static void real_state(uint8_t *state)
{
    for (uint32_t n = any(200); n > 0; n--)
        event(&worker, any(1u << 31), any(UINT32_MAX));
    save(&worker, state);
}

/* The offset of any byte, or of one that is likely to have another value in another state. */
static uint32_t any_offset(const uint8_t *state)
{
    uint32_t pending = state[21], queued = state[23], way = any(8);

    if (way == 0)
        return any(STATE);
    if (way == 1)
        return any(136);
    if (way < 5 && pending > 0)
        return 136 + 48 * (any(pending) % 15) + (any(2) == 0 ? any(6) : 12 + any(20));
    if (way < 6 && queued > 0)
        return 856 + 48 * (any(queued) % 15) + (any(2) == 0 ? any(6) : 10 + any(6));
    return way < 7 ? 10 + any(6) : 32 + any(24);
}

/* Changes nothing, all, or a few bytes. */
static void change(uint8_t *state)
{
    uint32_t way = any(16);

    for (uint32_t n = 0; n < STATE && way == 3; n++)
        state[n] = (uint8_t)any(256);
    for (uint32_t n = any(2) + 1; n > 0 && way > 3; n--) {
        uint32_t at = any_offset(state);

        state[at] = (uint8_t)(way < 9 ? state[at] ^ 1u << any(8) : way < 12 ? any(16) : any(256));
    }
}

/* Returns how many strings were accepted, and in *unchanged how many of these the worker itself continued from. */
static uint32_t any_bytes(uint32_t strings, uint32_t events, uint32_t *unchanged)
{
    static uint8_t state[STATE], before[STATE];
    uint32_t accepted = 0;

    for (uint32_t n = 0; n < strings && failures == 0; n++) {
        uint32_t status;
        bool is_saved;

        real_state(state);
        change(state);
        is_saved = same_state(&worker, state);
        save(&first, before);
        copy_bytes(&first, &worker);
        copy_bytes(&second, &worker);
        status = uda50_restore(&first.uda, state, STATE);
        EXPECT(uda50_restore(&second.uda, state, STATE), status);
        if (status != UDA50_OK) {
            EXPECT(is_saved, false);
            EXPECT(status >= UDA50_OTHER_VERSION && status <= UDA50_OTHER_IMAGES, true);
            EXPECT(same_state(&first, before), true);
            continue;
        }
        accepted++;
        *unchanged += is_saved;
        EXPECT(same_state(&first, state), true);
        play_both(&first, is_saved ? &worker : &second, events);
    }
    return accepted;
}

int main(int count, char **arguments)
{
    uint32_t strings = count > 1 ? (uint32_t)strtoul(arguments[1], NULL, 10) : 20000;
    uint32_t events = count > 2 ? (uint32_t)strtoul(arguments[2], NULL, 10) : 100;
    uint32_t accepted, unchanged = 0;

    make(&first, 2);
    make(&second, 2);
    lengths_and_handles();
    refusals();
    end(&first);
    end(&second);
    make(&first, UDA50_UNITS);
    make(&second, UDA50_UNITS);
    make(&worker, UDA50_UNITS);
    accepted = any_bytes(strings, events, &unchanged);
    if (count > 1)
        printf("%u of %u accepted, %u of them unchanged\n", accepted, strings, unchanged);
    EXPECT(strings < 100 || (accepted > strings / 20 && accepted < strings - strings / 20), true);
    EXPECT(strings < 100 || unchanged > strings / 20, true);
    end(&first);
    end(&second);
    end(&worker);
    return ended();
}
