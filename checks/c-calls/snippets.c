/* snippets.c: plays the emulator of docs/C.md. It is linked with that page's blocks of C. This file is the rest of the
   emulator: its memory, its bus, and a processor that executes the stages below. */
#define _POSIX_C_SOURCE 200809L
#include "uda50_file.h"
#include "uda50_machine.h"
#include "uda50_steps.h"

#include <stdlib.h>
#include <unistd.h>

enum { MEMORY = 253952 };
uint8_t memory[MEMORY];

#define HAS_MEMORY
#include "guest.h"

/* What the page has, and what it asks for. */
bool begin(const char *path), end(void);
uint16_t read_ip(void), read_sa(void);
void write_ip(uint16_t any), write_sa(uint16_t written), run(void);
bool save(uda50 *uda, uint8_t state[UDA50_STATE_LENGTH]);
bool restore(uda50 *uda, uda50_file *file, const uint8_t state[UDA50_STATE_LENGTH]);
bool attach(uda50 *uda, uint32_t unit, uda50_file *file, const char *path);
bool detach(uda50 *uda, uint32_t unit, uda50_file *file);
uint32_t take_turns_of_11_70(uda50 *uda), take_turns_by_calls(uda50 *uda), take_turns_over_overlay(uda50 *uda);
uint32_t take_turns_of_vax(uda50 *uda);
void write_sa_of_vax(uda50 *uda, uint16_t word);
uint32_t begin_turn(uda50 *uda, uda50_turn_use *turn), end_turn(uda50 *uda, uda50_turn_use *turn);
bool read_dma(uda50_range range, uint8_t *to);
void write_dma(uda50_range range, const uint8_t *from);
bool attach_overlay(uda50 *uda), write_sa_over_overlay(uda50 *uda, uint16_t word);
bool read_base(uint32_t lbn, uint8_t *to), read_second(uint32_t lbn, uint8_t *to);
bool write_second(uint32_t lbn, const uint8_t *from);
void write_sa_of_11_70(uda50 *uda, uint16_t word);
bool read_byte(uint32_t address, uint8_t *byte), write_byte(uint32_t address, uint8_t byte);
bool execute(void);
void assert_request(uint16_t vector), withdraw_request(void);

enum { STEP = 200, LAST_STEP = 10, MILLISECOND = 1000, LATE = 5300, LIMIT = 30000 };
enum { MANY = 16, RINGS = 4 * (RESPONSES + MANY), FIRST_WORD = 0x8080 | 4 << 11 | 2 << 8 | VECTOR / 4 };

static const char path[] = "page.dsk";
static uint32_t in_stage, requests; /* instructions of the stage */
static bool is_requested;

void assert_request(uint16_t vector)
{
    EXPECT(vector, VECTOR);
    is_requested = true;
    requests++;
}

void withdraw_request(void)
{
    is_requested = false;
}

/* ---- The guest ---- */

/* A write to IP drops a word that waits for SA. A later word replaces one that waits, and comes when that was due. */
static bool change_its_mind(void)
{
    if (in_stage == 0 || in_stage == 50)
        write_ip(0);
    if (in_stage == 0 || in_stage == 500)
        write_sa(FIRST_WORD);
    if (in_stage == 550)
        write_sa(0x8000 | 1 << 8);
    if (in_stage == 500 + STEP - 1)
        EXPECT(read_sa(), 0x0940);
    if (in_stage < 500 + STEP)
        return false;
    EXPECT(read_sa(), 0x1081);
    return true;
}

/* The initialization. After each word SA keeps its value for the instructions that docs/PORT.md names. */
static bool initialize(void)
{
    static const uint16_t words[] = { FIRST_WORD, BASE, 0, 1 };
    static uint32_t count, written_at;
    static uint16_t before;

    if (in_stage == 0) {
        write_ip(0);
        EXPECT(is_requested, false);
        count = 0;
    } else if (read_sa() == before)
        return false;
    if (count > 0)
        EXPECT(in_stage - written_at, count == 4 ? LAST_STEP : STEP);
    if (count == 4)
        return true;
    before = read_sa();
    EXPECT(before >> 11, 1 << count);
    EXPECT(is_requested, count > 0);
    write_sa(words[count++]);
    written_at = in_stage;
    return false;
}

static bool is_returned(uint32_t response)
{
    return (get16(BASE + 4 * response + 2) & 0x8000) == 0;
}

static bool bring_online(void)
{
    if (in_stage == 0) {
        give_response(0);
        post(0, (command){ ONLINE, 0, 1, 0, 0 });
        read_ip();
    }
    if (!is_returned(0))
        return false;
    EXPECT(get16(response_at(0) + 10), 0);
    return true;
}

/* Command n is a Read. Its end message waits for a response descriptor, which the guest gives by a write to memory. The
   port finds it within the limit, which is shorter if the guest reads IP. */
static bool read_late(uint32_t n, bool reads_ip, uint32_t limit)
{
    if (in_stage == 0)
        post(n, (command){ READ, 0, n, BLOCK, 1 });
    if (in_stage == 0 || (in_stage == LATE && reads_ip))
        read_ip();
    if (in_stage == LATE) {
        EXPECT(memcmp(memory + BUFFER, "block 1", 7), 0);
        give_response(n);
    }
    if (in_stage < LATE || !is_returned(n))
        return false;
    EXPECT(in_stage <= LATE + limit, true);
    EXPECT(get16(response_at(n)), n);
    EXPECT(get16(response_at(n) + 10), 0);
    return true;
}

static bool read_block(void)
{
    return read_late(1, false, MILLISECOND);
}

static bool read_block_and_ip(void)
{
    return read_late(2, true, STEP);
}

/* The rings of read_over_rings, with a command in each descriptor. Each response raises an interrupt request. */
static void fill_rings(uint8_t *at)
{
    for (uint32_t n = 0; n < RESPONSES + MANY; n++) {
        uint32_t text = n < RESPONSES ? response_at(n) : command_at(3);
        const uint8_t words[] = { (uint8_t)text, (uint8_t)(text >> 8), 0, n < RESPONSES ? 0xc0 : 0x80 };

        memcpy(at + 4 * n, words, sizeof words);
    }
}

/* A guest that keeps the port busy without end: its Reads make its rings what they were. It goes on all the same. */
static bool read_over_rings(void)
{
    static uint32_t before;

    if (in_stage == 0) {
        post(3, (command){ READ, 0, 3, RINGS, 2 });
        put16(command_at(3) + 16, BASE);
        fill_rings(memory + BASE);
        before = requests;
        read_ip();
    }
    if (in_stage < LIMIT)
        return false;
    EXPECT(read_sa(), 0);
    EXPECT(requests - before > 10, true);
    return true;
}

/* The port dies of a command at address 2, and the guest goes on. */
static bool die(void)
{
    if (in_stage == 0) {
        post(0, (command){ ONLINE, 0, 3, 0, 0 });
        put16(BASE + 4 * RESPONSES, 2);
    }
    if (in_stage % MILLISECOND == 0)
        read_ip();
    if (in_stage < LATE)
        return false;
    EXPECT(read_sa(), 0x8001);
    return true;
}

/* The controller is gone. */
static bool ask_for_turns(void)
{
    if (in_stage == 0)
        read_ip();
    return in_stage == MILLISECOND;
}

static bool (*const stages[])(void) = {
    change_its_mind, initialize, bring_online, read_block, read_block_and_ip, read_over_rings, initialize, die,
    initialize, bring_online, NULL, ask_for_turns, NULL,
};
static bool (*const *stage)(void) = stages;

/* One instruction of the current stage. */
bool execute(void)
{
    if (in_stage > LIMIT) {
        printf("stage %d doesn't end\n", (int)(stage - stages));
        exit(1);
    }
    if (!(*stage)())
        in_stage++;
    else {
        in_stage = 0;
        stage++;
    }
    return *stage != NULL;
}

/* ---- The other parts of the page ---- */

/* The restored controller has the saved bus, units and drive types, also if another type was set. */
static void save_and_restore(void)
{
    static uint8_t state[UDA50_STATE_LENGTH], again[UDA50_STATE_LENGTH];
    uda50 first = { NULL }, second = { NULL };
    uda50_image images[UDA50_UNITS] = { { NULL, 0 } };
    uda50_file file;

    EXPECT(uda50_new_as(&first, UDA50_QBUS, 4), UDA50_OK);
    EXPECT(uda50_set_type(&first, 1, UDA50_RD54), UDA50_OK);
    EXPECT(attach(&first, 0, &file, path), true);
    EXPECT(save(&first, state), true);
    EXPECT(detach(&first, 0, &file), true);
    EXPECT(detach(&first, 0, &file), false);
    EXPECT(uda50_file_open(&file, path, false), UDA50_FILE_OK);
    EXPECT(restore(&second, &file, state), true);
    EXPECT(save(&second, again), true);
    EXPECT(memcmp(state, again, sizeof state), 0);
    EXPECT(uda50_set_type(&second, 1, UDA50_RX50), UDA50_OK);
    EXPECT(uda50_restore(&second, state, sizeof state), UDA50_OK);
    EXPECT(save(&second, again), true);
    EXPECT(memcmp(state, again, sizeof state), 0);
    EXPECT(detach(&second, 0, &file), true);
    EXPECT(uda50_free(&first, images), UDA50_OK);
    EXPECT(uda50_free(&second, images), UDA50_OK);
}

/* The guest's bus, by calls. An address past the end of memory leads nowhere. */
bool read_byte(uint32_t address, uint8_t *byte)
{
    if (address < MEMORY)
        *byte = memory[address];
    return address < MEMORY;
}

bool write_byte(uint32_t address, uint8_t byte)
{
    if (address < MEMORY)
        memory[address] = byte;
    return address < MEMORY;
}

/* A guest of the PDP-11/70 begins while the map is off, and another emulator continues by calls. */
static void reach_memory(void)
{
    static const uint16_t words[] = { FIRST_WORD, BASE, 0, 1 };
    uda50_image images[UDA50_UNITS] = { { NULL, 0 } };
    uda50 uda = { NULL };

    EXPECT(uda50_new(&uda, true), UDA50_OK);
    for (int n = 0; n < 4; n++)
        write_sa_of_11_70(&uda, words[n]);
    uda50_read_ip(&uda);
    EXPECT(take_turns_of_11_70(&uda), UDA50_IDLE);
    memset(memory + BASE, 0, RINGS);
    give_response(0);
    post(0, (command){ GET_UNIT_STATUS, 0, 5, 0, 0 });
    uda50_read_ip(&uda);
    EXPECT(take_turns_by_calls(&uda), UDA50_IDLE);
    EXPECT(get16(response_at(0)), 5);
    EXPECT(uda50_free(&uda, images), UDA50_OK);
}

/* Both files of the overlay. Block 6 of the base can't be read, and block 5 of the second file can't be written. */
enum { OVERLAY = 8, BAD_TO_READ = 6, BAD_TO_WRITE = 5 };
static uint8_t base[OVERLAY * BLOCK], second[OVERLAY * BLOCK];

bool read_base(uint32_t lbn, uint8_t *to)
{
    memcpy(to, base + lbn * BLOCK, BLOCK);
    return lbn != BAD_TO_READ;
}

bool read_second(uint32_t lbn, uint8_t *to)
{
    memcpy(to, second + lbn * BLOCK, BLOCK);
    return true;
}

bool write_second(uint32_t lbn, const uint8_t *from)
{
    if (lbn != BAD_TO_WRITE)
        memcpy(second + lbn * BLOCK, from, BLOCK);
    return lbn != BAD_TO_WRITE;
}

/* Executes a command of a guest, a few turns at a time. Returns the status, and stores the byte count. */
static uint32_t executed(uint32_t (*take_turns)(uda50 *), uda50 *uda, command c, uint32_t *bytes)
{
    uint32_t n = c.reference % RESPONSES, result = UDA50_FETCHED;

    give_response(n);
    post(c.reference % COMMANDS, c);
    uda50_read_ip(uda);
    for (int turns = 0; turns < 10 && result != UDA50_IDLE; turns++)
        result = take_turns(uda);
    EXPECT(result, UDA50_IDLE);
    *bytes = get16(response_at(n) + 12);
    return get16(response_at(n) + 10);
}

static void play_overlay(void)
{
    enum { DRIVE_ERROR = 0x0b };
    static const uint16_t words[] = { 0x8080 | 1 << 11 | 2 << 8 | VECTOR / 4, BASE, 0, 1 };
    uda50_image images[UDA50_UNITS] = { { NULL, 0 } };
    uda50 uda = { NULL };
    uint32_t bytes;

    memset(base, 'b', sizeof base);
    EXPECT(uda50_new(&uda, true), UDA50_OK);
    EXPECT(attach_overlay(&uda), true);
    for (int n = 0; n < 4; n++)
        EXPECT(write_sa_over_overlay(&uda, words[n]), true);
    EXPECT(executed(take_turns_over_overlay, &uda, (command){ ONLINE, 0, 0, 0, 0 }, &bytes), 0);
    memset(memory + BUFFER, 'w', 8 * BLOCK);
    EXPECT(executed(take_turns_over_overlay, &uda, (command){ WRITE, 0, 1, 4 * BLOCK, 3 }, &bytes), DRIVE_ERROR);
    EXPECT(bytes, 2 * BLOCK);
    EXPECT(executed(take_turns_over_overlay, &uda, (command){ READ, 0, 2, 5 * BLOCK, 2 }, &bytes), DRIVE_ERROR);
    EXPECT(bytes, 4 * BLOCK);
    for (uint32_t n = 0; n < 5 * BLOCK; n++)
        EXPECT(memory[BUFFER + n], n / BLOCK == 0 || n / BLOCK == 3 ? 'b' : 'w');
    EXPECT(executed(take_turns_over_overlay, &uda, (command){ READ, 0, 3, BLOCK, 7 }, &bytes), 0);
    EXPECT(memory[BUFFER], 'b');
    EXPECT(base[3 * BLOCK] == 'b' && base[5 * BLOCK] == 'b', true);
    EXPECT(uda50_free(&uda, images), UDA50_OK);
}

/* ---- A VAX ---- */

enum { VAX_PAGES = 8192, GUEST = 2 << 20, MAP = 8 << 20 }; /* where its guest's memory and its registers are */
uint8_t vax_memory[16 << 20];
const uda50_map vax_map = { .page = 9, .frame = 0xfffff, .valid = 0x80000000, .scale = 9, .at = MAP, .in_memory = VAX_PAGES };

static uint32_t read_file(void *context, uint32_t lbn, uint32_t count, uint8_t *to)
{
    memset(to, *(const char *)context + (int)lbn, count * BLOCK);
    return count;
}

static uint32_t write_file(void *context, uint32_t lbn, uint32_t count, const uint8_t *from)
{
    (void)context, (void)lbn, (void)from;
    return count - 1; /* the last block fails */
}

static char names[UDA50_UNITS + 1] = "0123";
const uda50_called files[UDA50_UNITS] = {
    { sizeof(uda50_called), &names[0], read_file, write_file },
    { sizeof(uda50_called), &names[1], read_file, write_file },
    { sizeof(uda50_called), &names[2], read_file, write_file },
    { sizeof(uda50_called), &names[3], read_file, write_file },
};

static uint32_t turns_of_vax(uda50 *uda)
{
    uint32_t result;

    memcpy(vax_memory + GUEST, memory, MEMORY);
    result = take_turns_of_vax(uda);
    memcpy(memory, vax_memory + GUEST, MEMORY);
    return result;
}

static void play_vax(void)
{
    enum { DRIVE_ERROR = 0x0b };
    uda50_image images[UDA50_UNITS] = { { NULL, 0 } };
    uda50 uda = { NULL };
    uint32_t bytes, reference = 0;

    for (uint32_t n = 0; n < VAX_PAGES; n++) {
        uint32_t found = 0x80000000 | (GUEST / BLOCK + n);

        for (uint32_t i = 0; i < 4; i++)
            vax_memory[MAP + 4 * n + i] = (uint8_t)(found >> 8 * i);
    }
    EXPECT(uda50_new_as(&uda, UDA50_QBUS, 0), UDA50_OK);
    for (uint32_t unit = 0; unit < UDA50_UNITS; unit++)
        EXPECT(uda50_attach_called(&uda, unit, 8, false), UDA50_OK);
    memset(memory, 0, sizeof memory);
    memset(vax_memory + GUEST, 0xee, MEMORY);
    for (int n = 0; n < 4; n++)
        write_sa_of_vax(&uda, (const uint16_t[]){ 0x8080 | 1 << 11 | 2 << 8 | VECTOR / 4, BASE, 0, 1 }[n]);
    EXPECT(vax_memory[GUEST + BASE] == 0 && vax_memory[GUEST + BASE - 9] == 0xee, true);
    for (uint16_t unit = 0; unit < UDA50_UNITS; unit++) {
        EXPECT(executed(turns_of_vax, &uda, (command){ ONLINE, unit, reference++, 0, 0 }, &bytes), 0);
        EXPECT(executed(turns_of_vax, &uda, (command){ READ, unit, reference++, BLOCK, 5 }, &bytes), 0);
        EXPECT(memory[BUFFER], (uint8_t)(names[unit] + 5));
        EXPECT(executed(turns_of_vax, &uda, (command){ WRITE, unit, reference++, 3 * BLOCK, 1 }, &bytes), DRIVE_ERROR);
        EXPECT(bytes, 2 * BLOCK);
    }
    EXPECT(uda50_free(&uda, images), UDA50_OK);
}

/* ---- The steps of a turn ---- */

uint8_t dma_window[MEMORY];

bool read_dma(uda50_range range, uint8_t *to)
{
    memcpy(to, memory + range.at, range.bytes);
    return true;
}

void write_dma(uda50_range range, const uint8_t *from)
{
    memcpy(memory + range.at, from, range.bytes);
}

static uint32_t turn_by_steps(uda50 *uda)
{
    uda50_turn_use turn;

    memset(dma_window, 0x77, sizeof dma_window);
    EXPECT(begin_turn(uda, &turn), UDA50_OK);
    EXPECT(turn.missing, 0);
    return end_turn(uda, &turn);
}

static void play_steps(void)
{
    static uint8_t disk[8 * BLOCK];
    uda50_image image = { disk, sizeof disk }, images[UDA50_UNITS] = { { NULL, 0 } };
    uda50 uda = { NULL };
    uint32_t bytes;

    EXPECT(uda50_new(&uda, true), UDA50_OK);
    EXPECT(uda50_attach(&uda, 0, &image, false), UDA50_OK);
    start(&uda);
    EXPECT(executed(turn_by_steps, &uda, (command){ ONLINE, 0, 0, 0, 0 }, &bytes), 0);
    memset(memory + BUFFER, 's', 2 * BLOCK);
    EXPECT(executed(turn_by_steps, &uda, (command){ WRITE, 0, 1, 2 * BLOCK, 3 }, &bytes), 0);
    EXPECT(disk[3 * BLOCK] == 's' && disk[5 * BLOCK - 1] == 's' && disk[5 * BLOCK] == 0, true);
    EXPECT(executed(turn_by_steps, &uda, (command){ READ, 0, 2, 3 * BLOCK, 2 }, &bytes), 0);
    EXPECT(memory[BUFFER] == 0 && memory[BUFFER + BLOCK] == 's' && memory[BUFFER + 3 * BLOCK - 1] == 's', true);
    EXPECT(uda50_free(&uda, images), UDA50_OK);
}

static void attach_nothing(void)
{
    uda50 none = { NULL };
    uda50_file file;

    EXPECT(attach(&none, 0, &file, "missing.dsk"), false);
    EXPECT(attach(&none, 0, &file, path), false);
    EXPECT(file.is_open, false);
    EXPECT(attach(&none, 0, &file, path), false); /* so nobody has it locked */
}

/* What the page prints as errors, in order. */
static void expect_errors(void)
{
    static const char wanted[] = "uda50_run: status 64\nmissing.dsk: the file can't be opened\npage.dsk: status 64\n"
                                 "page.dsk: status 64\n";
    static char said[sizeof wanted + 1];
    FILE *file = fopen("said", "r");

    EXPECT(file != NULL && fread(said, 1, sizeof said, file) > 0, true);
    EXPECT(strcmp(said, wanted), 0);
    if (file != NULL)
        fclose(file);
}

static void make_file(void)
{
    static uint8_t blocks[4 * BLOCK];
    FILE *file = fopen(path, "w");

    memcpy(blocks + BLOCK, "block 1", 7);
    fill_rings(blocks + 2 * BLOCK);
    EXPECT(file != NULL && fwrite(blocks, 1, sizeof blocks, file) == sizeof blocks && fclose(file) == 0, true);
}

int main(void)
{
    make_file();
    EXPECT(freopen("said", "w", stderr) != NULL, true);
    alarm(60); /* ends a loop that doesn't execute the guest */
    EXPECT(begin(path), true);
    run();
    EXPECT(end(), true);
    EXPECT(end(), false);
    stage++;
    run();
    attach_nothing();
    save_and_restore();
    reach_memory();
    play_overlay();
    play_vax();
    play_steps();
    fclose(stderr);
    expect_errors();
    return ended();
}
