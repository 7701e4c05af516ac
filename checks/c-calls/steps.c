/* steps.c: what may happen between the steps of a turn, and what may not. A step of another controller, of an earlier
   turn or out of order is refused. Blocks that were moved for a dropped command have no effect on a later one. A store
   of the guest into the rest of the buffer of a Read that then fails stays. Two controllers use one window one after the other.
   A run over map registers stops before the blocks of a command, and goes on with them.
   If c/uda50_machine.c is compiled with UDA50_DEBUG, a window that changes within a turn of a machine is an assertion
   that fails. */
#define _DEFAULT_SOURCE
#include "uda50_machine.h"

/* A word for SA and turns of a controller with a called image, in one array. They use no blocks. */
static uint32_t write_sa(uda50 *it, uint16_t word, uint8_t *memory, size_t length)
{
    return uda50_machine_write_sa(it, word, &(uda50_machine){ .size = sizeof(uda50_machine), .memory = memory, .length = length });
}

static uint32_t run(uda50 *it, uint32_t turns, uint8_t *memory, size_t length)
{
    return uda50_machine_run(it, turns, &(uda50_machine){ .size = sizeof(uda50_machine), .memory = memory, .length = length });
}

#define WRITE_SA write_sa
#define RUN run
#include "guest.h"
#include "uda50_steps.h"

#include <signal.h>
#include <stdio.h>
#include <sys/resource.h>
#include <sys/wait.h>
#include <unistd.h>

enum { BLOCKS = 8, DRIVE_ERROR = 0x0b };

/* A controller with a called image. Its guest has the memory of guest.h, and so has the other one. */
static uda50 uda, other;
static uint8_t window[SIZE], state[UDA50_STATE_LENGTH];

static void copy(uint8_t *to, const uint8_t *from, uda50_range range)
{
    memcpy(to + range.at, from + range.at, range.bytes);
}

/* The steps before the one that takes the turn. Each address leads somewhere. */
static void begin_turn(uda50 *it, uda50_turn_use *turn)
{
    *turn = (uda50_turn_use){ .size = sizeof *turn, .controller = (uintptr_t)it };
    EXPECT(uda50_get_descriptors(it, window, SIZE, turn), UDA50_OK);
    for (int n = 0; n < 4; n++)
        copy(window, memory, turn->descriptors[n]);
    EXPECT(uda50_get_body(it, window, SIZE, turn), UDA50_OK);
    copy(window, memory, turn->body);
}

static uint32_t end_turn(uda50 *it, uda50_turn_use *turn)
{
    uint32_t result = uda50_turn_at(it, window, SIZE, turn);

    for (int n = 0; n < 4; n++)
        copy(memory, window, turn->written[n]);
    return result;
}

static uint32_t whole_turn(uda50 *it)
{
    uda50_turn_use turn;

    begin_turn(it, &turn);
    return end_turn(it, &turn);
}

static void make(uda50 *it)
{
    EXPECT(uda50_new(it, true), UDA50_OK);
    EXPECT(uda50_attach_called(it, 0, BLOCKS, false), UDA50_OK);
}

static void end(uda50 *it)
{
    uda50_image images[UDA50_UNITS] = { { NULL, 0 } };

    EXPECT(uda50_free(it, images), UDA50_OK);
}

/* Brings unit 0 online, and posts a command of two blocks until it is pending. Begins the turn that executes it. */
static void begin(uda50 *it, uint8_t opcode, uda50_turn_use *turn)
{
    EXPECT(status_of(it, (command){ SET_CONTROLLER, 0, 1, 0, 0 }), 0);
    EXPECT(status_of(it, (command){ ONLINE, 0, 2, 0, 0 }), 0);
    give_response(2);
    post(0, (command){ opcode, 0, 3, 2 * BLOCK, 1 });
    memset(memory + BUFFER, 0x11, 2 * BLOCK);
    uda50_read_ip(it);
    EXPECT(whole_turn(it), UDA50_FETCHED);
    begin_turn(it, turn);
    EXPECT(turn->blocks.count, 2);
    EXPECT(turn->blocks.first, 1);
}

/* Says that `count` blocks are moved for a Read, which gets bytes of 0x55, or for a Write. */
static uint8_t moved[2 * BLOCK];

static void make_ready(uda50_turn_use *turn, uint32_t count)
{
    memset(moved, 0x55, sizeof moved);
    turn->ready = count;
    if (turn->blocks.use == UDA50_READS)
        turn->lent = (uda50_image){ moved, count * BLOCK };
}

/* The bytes that were lent are as they were. */
static void moved_stay(void)
{
    for (uint32_t n = 0; n < sizeof moved; n++)
        EXPECT(moved[n], 0x55);
}

static bool is_empty(uda50_image lent)
{
    return lent.at == NULL && lent.length == 0;
}

/* Each step with this struct has this status, and changes neither the struct nor anything else. */
static void all_refused(uda50 *it, const uda50_turn_use *turn, uint32_t status)
{
    static uint8_t before[UDA50_STATE_LENGTH], after[UDA50_STATE_LENGTH], kept[SIZE], bytes[BLOCK], none[BLOCK];
    uda50_turn_use given = *turn;

    memcpy(kept, window, SIZE);
    EXPECT(uda50_save(it, before, sizeof before), UDA50_OK);
    EXPECT(uda50_get_body(it, window, SIZE, &given), status);
    EXPECT(uda50_get_written(it, window, SIZE, &given, 0, bytes, BLOCK), status);
    EXPECT(uda50_turn_at(it, window, SIZE, &given), status);
    EXPECT(uda50_save(it, after, sizeof after), UDA50_OK);
    EXPECT(memcmp(&given, turn, sizeof given), 0);
    EXPECT(memcmp(bytes, none, BLOCK), 0);
    EXPECT(memcmp(kept, window, SIZE), 0);
    EXPECT(memcmp(before, after, sizeof before), 0);
}

/* A step of an earlier turn, after the turn was taken or another one was begun and taken. */
static void earlier_turns(void)
{
    uda50_turn_use turn, later;

    begin(&uda, READ, &turn);
    make_ready(&turn, 2);
    later = turn;
    EXPECT(end_turn(&uda, &later), UDA50_EXECUTED);
    all_refused(&uda, &later, UDA50_STALE);
    all_refused(&uda, &turn, UDA50_STALE);
    EXPECT(uda50_turn_at(&uda, window, SIZE - 1, &turn), UDA50_STALE); /* before all else */
    EXPECT(whole_turn(&uda), UDA50_DELIVERED);
    all_refused(&uda, &turn, UDA50_STALE);
}

/* A step of another controller, which was changed by as many calls. */
static void other_controllers(void)
{
    uda50 twins[2] = { { NULL }, { NULL } };
    uda50_turn_use turns[2];

    for (int n = 0; n < 2; n++) {
        EXPECT(uda50_new(&twins[n], true), UDA50_OK);
        EXPECT(uda50_attach_called(&twins[n], 0, BLOCKS, false), UDA50_OK);
    }
    for (int n = 0; n < 2; n++)
        begin(&twins[n], READ, &turns[n]);
    EXPECT(turns[0].count, turns[1].count);
    for (int n = 0; n < 2; n++) {
        all_refused(&twins[n], &turns[1 - n], UDA50_STALE);
        turns[n].controller++;
        all_refused(&twins[n], &turns[n], UDA50_STALE);
        turns[n].controller--;
        make_ready(&turns[n], 2);
        EXPECT(end_turn(&twins[n], &turns[n]), UDA50_EXECUTED);
        end(&twins[n]);
    }
}

/* A step after a call that changes the controller. */
static void change(uda50 *it, int how)
{
    static uint8_t disk[BLOCK], held[UDA50_STATE_LENGTH];
    uda50_image image = { disk, sizeof disk };
    uda50_range area;
    uint16_t vector;

    switch (how) {
    case 0: uda50_write_ip(it, 0); break;
    case 1: uda50_read_ip(it); break;
    case 2: uda50_write_sa(it, 0, memory, SIZE); break;
    case 3: uda50_write_sa_mapped(it, 0, memory, SIZE, &(uda50_map){ .page = 9 }); break;
    case 4: uda50_write_sa_at(it, 0, window, SIZE, false, &area); break;
    case 5: uda50_take_interrupt(it, &vector); break;
    case 6: uda50_attach(it, 1, &image, false); break;
    case 7: uda50_detach(it, 1, &image); break;
    case 8: uda50_set_type(it, 1, UDA50_RD54); break;
    case 9: uda50_attach_called(it, 1, BLOCKS, false); break;
    case 10: uda50_detach(it, 1, &(uda50_image){ NULL, 0 }); break;
    case 11: uda50_inject_failure(it, 0, 0); break;
    case 12: uda50_save(it, held, sizeof held); uda50_restore(it, held, sizeof held); break;
    case 13: uda50_run_mapped(it, 0, memory, SIZE, &(uda50_map){ .page = 9 }); break;
    case 14: uda50_run(it, 0, memory, SIZE); break;
    case 15: uda50_turn(it, memory, SIZE - 1); break;
    }
}

static void changed_controllers(void)
{
    for (int how = 0; how < 16; how++) {
        uda50_turn_use turn;

        begin(&uda, READ, &turn);
        change(&uda, how);
        all_refused(&uda, &turn, UDA50_STALE);
    }
}

/* Calls that don't change the controller. */
static void unchanged_controllers(void)
{
    static uint8_t line[96];
    uda50_turn_record told = { .size = sizeof told };
    uda50_unit unit = { .size = sizeof unit };
    uda50_turn_use turn;
    uda50_range area;
    uda50_state port = { .size = sizeof port };

    begin(&uda, READ, &turn);
    EXPECT(uda50_save(&uda, state, sizeof state), UDA50_OK);
    EXPECT(uda50_get_state(&uda, &port), UDA50_OK);
    EXPECT(uda50_get_last_turn(&uda, &told), UDA50_OK);
    EXPECT(uda50_get_unit(&uda, 0, &unit), UDA50_OK);
    EXPECT(uda50_format_last_turn(&uda, line, sizeof line), UDA50_OK);
    EXPECT(uda50_get_zeroed(&uda, 0, window, SIZE, &area), UDA50_OK);
    EXPECT(uda50_read_sa(&uda), 0);
    turn.ready = 3;
    EXPECT(uda50_turn_at(&uda, window, SIZE, &turn), UDA50_BAD_LENGTH);
    make_ready(&turn, 2);
    EXPECT(end_turn(&uda, &turn), UDA50_EXECUTED);
}

/* Each step out of its order, and with a struct that is too short. */
static void out_of_order(void)
{
    uda50_turn_use turn = { .size = sizeof turn, .controller = (uintptr_t)&uda }, began;
    static uint8_t bytes[BLOCK];

    begin(&uda, WRITE, &began);
    all_refused(&uda, &turn, UDA50_STALE); /* a struct whose turn wasn't begun */
    EXPECT(uda50_get_descriptors(&uda, window, SIZE, &turn), UDA50_OK);
    EXPECT(uda50_get_written(&uda, window, SIZE, &turn, 0, bytes, BLOCK), UDA50_STALE);
    EXPECT(uda50_turn_at(&uda, window, SIZE, &turn), UDA50_STALE);
    turn.size--;
    EXPECT(uda50_get_body(&uda, window, SIZE, &turn), UDA50_BAD_LENGTH);
    EXPECT(uda50_get_descriptors(&uda, window, SIZE, &turn), UDA50_BAD_LENGTH);
    turn.size += 9; /* as a later program has it */
    EXPECT(uda50_get_body(&uda, window, SIZE, &turn), UDA50_OK);
    EXPECT(uda50_get_body(&uda, window, SIZE, &turn), UDA50_STALE);
    turn.size = sizeof turn - 1;
    EXPECT(uda50_get_written(&uda, window, SIZE, &turn, 0, bytes, BLOCK), UDA50_BAD_LENGTH);
    EXPECT(uda50_turn_at(&uda, window, SIZE, &turn), UDA50_BAD_LENGTH);
    turn.size++;
    EXPECT(uda50_get_written(&uda, window, SIZE, &turn, 0, bytes, BLOCK), UDA50_OK);
    make_ready(&turn, 2);
    EXPECT(end_turn(&uda, &turn), UDA50_EXECUTED);
}

/* After a reset the steps that are left are refused. The port is in step 1. */
static void reset_between(uint8_t opcode)
{
    uda50_turn_use turn;

    begin(&uda, opcode, &turn);
    make_ready(&turn, 1);
    uda50_write_ip(&uda, 0);
    all_refused(&uda, &turn, UDA50_STALE);
    begin_turn(&uda, &turn);
    EXPECT(turn.blocks.use, UDA50_NO_BLOCKS);
    EXPECT(end_turn(&uda, &turn), UDA50_IDLE);
    EXPECT(uda50_read_sa(&uda) & 0x0800, 0x0800);
}

/* A reset drops a command, and the guest gives the same one again. Blocks that were moved for the first have no effect
   on the second. */
static void moved_too_late(uint8_t opcode, uint32_t count)
{
    uda50_turn_use dropped, turn;
    uda50_turn_record told = { .size = sizeof told };

    begin(&uda, opcode, &dropped);
    uda50_write_ip(&uda, 0);
    make_ready(&dropped, 2);
    begin(&uda, opcode, &turn);
    EXPECT(uda50_turn_at(&uda, window, SIZE, &dropped), UDA50_STALE);
    make_ready(&turn, count);
    EXPECT(end_turn(&uda, &turn), UDA50_EXECUTED);
    EXPECT(uda50_get_last_turn(&uda, &told), UDA50_OK);
    EXPECT(told.status, count == 2 ? 0 : DRIVE_ERROR);
    EXPECT(told.bytes, count * BLOCK);
    for (uint32_t n = 0; n < 2 * BLOCK; n++)
        EXPECT(memory[BUFFER + n], opcode == READ && n < count * BLOCK ? 0x55 : 0x11);
}

/* A turn without its last step has not happened: the next turn is the same. What was moved is dropped with the struct. */
static void left_out(void)
{
    static uint8_t after[UDA50_STATE_LENGTH];
    uda50_turn_use turn, again;

    begin(&uda, READ, &turn);
    again = turn;
    make_ready(&again, 2);
    again.missing = 7;
    EXPECT(uda50_get_descriptors(&uda, window, SIZE, &again), UDA50_OK);
    EXPECT(uda50_get_body(&uda, window, SIZE, &again), UDA50_OK);
    EXPECT(is_empty(again.lent), true);
    EXPECT(memcmp(&turn, &again, sizeof turn), 0);
    moved_stay();

    begin(&uda, READ, &turn);
    EXPECT(uda50_save(&uda, state, sizeof state), UDA50_OK);
    begin_turn(&uda, &again);
    EXPECT(memcmp(&turn, &again, sizeof turn), 0);
    EXPECT(uda50_save(&uda, after, sizeof after), UDA50_OK);
    EXPECT(memcmp(state, after, sizeof state), 0);
}

/* A Read of two blocks, of which the second fails. What the guest stores meanwhile in the place of that block stays. */
static void store_between(void)
{
    uda50_turn_use turn;
    uda50_turn_record told = { .size = sizeof told };

    begin(&uda, READ, &turn);
    make_ready(&turn, 1);
    memory[BUFFER + BLOCK] = 0x22;
    EXPECT(end_turn(&uda, &turn), UDA50_EXECUTED);
    EXPECT(uda50_get_last_turn(&uda, &told), UDA50_OK);
    EXPECT(told.status, DRIVE_ERROR);
    EXPECT(told.bytes, BLOCK);
    EXPECT(memory[BUFFER], 0x55);
    EXPECT(memory[BUFFER + BLOCK - 1], 0x55);
    EXPECT(memory[BUFFER + BLOCK], 0x22);
    EXPECT(turn.written[0].at, BUFFER);
    EXPECT(turn.written[0].bytes, BLOCK);
}

/* Turns of two controllers, by turns over one window. */
static void one_after_the_other(void)
{
    static uint8_t bytes[2 * BLOCK];
    uda50_turn_use turn;

    for (int n = 0; n < 4; n++) {
        uda50 *it = n % 2 == 0 ? &uda : &other;

        memset(bytes, 0x30 + n, sizeof bytes);
        begin(it, READ, &turn);
        turn.ready = 2;
        turn.lent = (uda50_image){ bytes, sizeof bytes };
        EXPECT(end_turn(it, &turn), UDA50_EXECUTED);
        EXPECT(memory[BUFFER] == 0x30 + n && memory[BUFFER + 2 * BLOCK - 1] == 0x30 + n, true);
    }
}

/* Map registers that lead each bus address to the same one of memory, in pages of 16 bytes. */
static uint32_t registers[SIZE / 16];
static const uda50_map map = { .registers = registers, .count = SIZE / 16, .page = 4, .frame = 0xffff, .scale = 4 };

static void set_registers(void)
{
    for (uint32_t n = 0; n < SIZE / 16; n++)
        registers[n] = n;
}

static uint32_t run_to_blocks(uda50 *it, uda50_turn_use *run)
{
    return uda50_run_to_blocks(it, memory, SIZE, &map, window, SIZE, run);
}

/* Brings unit 0 online, and fetches a command of two blocks. Begins a run of `turns` turns, which stops before it. */
static void begin_run(uda50 *it, uint8_t opcode, uint32_t turns, uda50_turn_use *run)
{
    uda50_turn_use turn;

    begin(it, opcode, &turn);
    memset(window, 0xee, sizeof window); /* what is in it has no influence */
    *run = (uda50_turn_use){ .size = sizeof *run, .controller = (uintptr_t)it, .turns = turns };
    EXPECT(run_to_blocks(it, run), UDA50_NEEDS_BLOCKS);
    EXPECT(run->blocks.count, 2);
    EXPECT(run->blocks.first, 1);
    EXPECT(run->blocks.unit, 0);
    EXPECT(run->ready, 0);
    EXPECT(run->turns, turns);
    EXPECT(uda50_turn_at(it, window, SIZE, &turn), UDA50_STALE);
}

/* This call is refused with this status, and changes nothing. */
static void refused_run(uda50 *it, const uda50_turn_use *run, size_t bytes, uint32_t status)
{
    static uint8_t before[UDA50_STATE_LENGTH], after[UDA50_STATE_LENGTH], kept[SIZE];
    uda50_turn_use given = *run;

    memcpy(kept, memory, SIZE);
    EXPECT(uda50_save(it, before, sizeof before), UDA50_OK);
    EXPECT(uda50_run_to_blocks(it, memory, SIZE, &map, window, bytes, &given), status);
    EXPECT(uda50_save(it, after, sizeof after), UDA50_OK);
    EXPECT(memcmp(&given, run, sizeof given), 0);
    EXPECT(memcmp(kept, memory, SIZE), 0);
    EXPECT(memcmp(before, after, sizeof before), 0);
}

/* A run over map registers stops before each turn that uses blocks, and goes on with them. */
static void runs(uint8_t opcode)
{
    static uint8_t bytes[2 * BLOCK];
    uda50_turn_use run, other_one;

    begin_run(&uda, opcode, 5, &run);
    if (opcode == WRITE) {
        EXPECT(uda50_get_written(&uda, window, SIZE, &run, 0, bytes, sizeof bytes), UDA50_OK);
        EXPECT(bytes[0] == 0x11 && bytes[2 * BLOCK - 1] == 0x11, true);
    }
    run.ready = 3;
    refused_run(&uda, &run, SIZE, UDA50_BAD_LENGTH);
    make_ready(&run, 2);
    refused_run(&uda, &run, SIZE - 2, UDA50_BAD_LENGTH);
    refused_run(&other, &run, SIZE, UDA50_STALE);
    other_one = run;
    other_one.size = sizeof run - 1;
    refused_run(&uda, &other_one, SIZE, UDA50_BAD_LENGTH);
    other_one = run;
    EXPECT(run_to_blocks(&uda, &run), UDA50_IDLE); /* it executed, delivered and rested */
    EXPECT(run.blocks.count, 0);
    EXPECT(run.lent.at == other_one.lent.at && run.lent.length == other_one.lent.length, true);
    moved_stay();
    EXPECT(memory[BUFFER] == (opcode == READ ? 0x55 : 0x11), true);
    EXPECT(get16(response_at(2) + 10), 0);
    refused_run(&uda, &other_one, SIZE, UDA50_STALE);
    run.turns = 0;
    EXPECT(run_to_blocks(&uda, &run), UDA50_IDLE);
}

/* A run of two Reads. The bytes that were lent for the first are as they were when it stops before the second, and the
   struct has none. After the second the struct has its bytes again. */
static void run_of_two(void)
{
    uda50_turn_use run = { .size = sizeof run, .controller = (uintptr_t)&uda, .turns = 9 };

    EXPECT(status_of(&uda, (command){ SET_CONTROLLER, 0, 1, 0, 0 }), 0);
    EXPECT(status_of(&uda, (command){ ONLINE, 0, 2, 0, 0 }), 0);
    for (uint32_t n = 0; n < COMMANDS; n++) {
        give_response(2 + n);
        post(n, (command){ READ, 0, 3 + n, (2 - n) * BLOCK, 1 + 4 * n });
    }
    uda50_read_ip(&uda);
    EXPECT(run_to_blocks(&uda, &run), UDA50_NEEDS_BLOCKS);
    EXPECT(run.blocks.first == 1 && run.blocks.count == 2, true);
    make_ready(&run, 2);
    EXPECT(run_to_blocks(&uda, &run), UDA50_NEEDS_BLOCKS);
    EXPECT(run.blocks.first == 5 && run.blocks.count == 1, true);
    EXPECT(run.ready, 0);
    EXPECT(is_empty(run.lent), true);
    moved_stay();
    make_ready(&run, 1);
    EXPECT(run_to_blocks(&uda, &run), UDA50_IDLE);
    EXPECT(run.lent.at == moved && run.lent.length == BLOCK, true);
    moved_stay();
    EXPECT(get16(response_at(2) + 10) == 0 && get16(response_at(3) + 10) == 0, true);
}

/* A run that may take one turn takes no more. A block that isn't ready ends the command with a drive error. */
static void short_runs(void)
{
    uda50_turn_use run;

    begin_run(&uda, READ, 1, &run);
    make_ready(&run, 1);
    EXPECT(run_to_blocks(&uda, &run), UDA50_EXECUTED);
    EXPECT(run.turns, 0);
    EXPECT(memory[BUFFER] == 0x55 && memory[BUFFER + BLOCK] == 0x11, true);
    run.turns = 1;
    EXPECT(run_to_blocks(&uda, &run), UDA50_DELIVERED);
    EXPECT(get16(response_at(2) + 10), DRIVE_ERROR);
}

/* A reset drops the command before which a run stopped. */
static void reset_run(void)
{
    uda50_turn_use run;

    begin_run(&uda, WRITE, 3, &run);
    uda50_write_ip(&uda, 0);
    make_ready(&run, 2);
    refused_run(&uda, &run, SIZE, UDA50_STALE);
    run = (uda50_turn_use){ .size = sizeof run, .controller = (uintptr_t)&uda, .turns = 3 };
    EXPECT(run_to_blocks(&uda, &run), UDA50_IDLE);
}

#ifdef UDA50_DEBUG
static bool read_bytes(void *context, uint32_t at, uint32_t bytes, uint8_t *to)
{
    (void)context;
    memcpy(to, memory + at, bytes);
    return true;
}

static void write_bytes(void *context, uint32_t at, uint32_t bytes, const uint8_t *from)
{
    (void)context;
    memcpy(memory + at, from, bytes);
}

/* Changes the window at the address that `context` points to, if that isn't 0. */
static uint32_t write_blocks(void *context, uint32_t lbn, uint32_t count, const uint8_t *from)
{
    const uint32_t *address = context;

    (void)lbn, (void)from;
    if (*address != 0)
        window[*address] ^= 1;
    return count;
}

/* Takes a turn of a machine in a child. Its called image changes the window at this address or, if it is 0, doesn't.
   Returns how the child ended. */
static int ended_by(uint32_t address, bool is_mapped)
{
    uda50_called image = { sizeof image, &address, NULL, write_blocks };
    uda50_machine by_calls = { .size = sizeof by_calls, .read = read_bytes, .write = write_bytes, .window = window,
                               .addresses = SIZE, .images = { &image } };
    uda50_machine mapped = { .size = sizeof mapped, .memory = memory, .length = SIZE, .map = &map, .window = window,
                             .addresses = SIZE, .images = { &image } };
    uda50_machine machine = is_mapped ? mapped : by_calls;
    uda50_turn_use turn;
    int status = 0;
    pid_t child;

    begin(&uda, WRITE, &turn);
    fflush(stdout);
    child = fork();
    if (child == 0) {
        setrlimit(RLIMIT_CORE, &(struct rlimit){ 0, 0 });
        if (freopen("/dev/null", "w", stderr) == NULL)
            _exit(9);
        _exit(uda50_machine_turn(&uda, &machine) == UDA50_EXECUTED ? 0 : 8);
    }
    EXPECT(waitpid(child, &status, 0), child);
    return WIFSIGNALED(status) ? WTERMSIG(status) : -WEXITSTATUS(status);
}

/* A change of what the turn has read is noticed: of the buffer and of a descriptor. One elsewhere has no influence, and is
   noticed over map registers. */
static void noticed_changes(void)
{
    for (int is_mapped = 0; is_mapped <= 1; is_mapped++) {
        EXPECT(ended_by(0, is_mapped), 0);
        EXPECT(ended_by(BUFFER, is_mapped), SIGABRT);
        EXPECT(ended_by(BUFFER + 2 * BLOCK - 1, is_mapped), SIGABRT);
        EXPECT(ended_by(BASE + 4 * (RESPONSES + 1), is_mapped), SIGABRT);
        EXPECT(ended_by(BUFFER + 2 * BLOCK, is_mapped), is_mapped ? SIGABRT : 0);
    }
    EXPECT(ended_by(BASE + 8, false), 0); /* the next response descriptor, at which the turn doesn't look */
}
#endif

int main(void)
{
    make(&uda);
    make(&other);
    reset_between(READ);
    reset_between(WRITE);
    for (uint32_t count = 0; count <= 2; count++) {
        moved_too_late(READ, count);
        moved_too_late(WRITE, count);
    }
    earlier_turns();
    other_controllers();
    changed_controllers();
    unchanged_controllers();
    out_of_order();
    left_out();
    store_between();
    one_after_the_other();
    set_registers();
    runs(READ);
    runs(WRITE);
    run_of_two();
    short_runs();
    reset_run();
#ifdef UDA50_DEBUG
    noticed_changes();
#endif
    end(&uda);
    end(&other);
    return ended();
}
