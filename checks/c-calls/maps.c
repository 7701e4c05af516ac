/* maps.c: turns over mapped memory. First what a hole does, by what it hits; transfers of 0 bytes; registers that lead
   to one page, or lie in memory; and the end of memory. Then random guests. Over a map without holes a controller does what
   it does over one array. Over any map uda50_run_mapped does what uda50_machine_run does by calls that go byte by
   byte, whatever is in the window of those.
   Usage: maps [MAPS [EVENTS]] */
#include "guest.h"
#include "uda50_machine.h"
#include "uda50_steps.h"

#include <stdlib.h>

enum { PAGE_BITS = 9, PAGES = SIZE / BLOCK, FRAMES = PAGES + 8, DISK = 16 * BLOCK, SCALE = 4 };
enum { FRAME = 0x0fffffff, PHYSICAL = FRAMES * BLOCK };
enum { ACCESS = 16, ERASE = 18, COMPARE = 32 };

static const uint32_t VALID = 0x80000000;

/* A controller with an image, and its guest's mapped memory. It is also reached by calls that go byte by byte. */
typedef struct {
    uda50 uda;
    uint8_t disk[DISK], physical[PHYSICAL], window[SIZE];
    uint32_t registers[PAGES];
    uda50_map map;
    size_t length; /* of memory */
    uda50_machine calls;
    bool by_calls;
} machine;

static machine mapped, other;
static uda50 flat;
static uint8_t flat_disk[DISK];
static uint32_t reads; /* calls of read_bytes */

/* ---- The bus, byte by byte ---- */

/* The register, which is in memory if the map says so. */
static bool find_register(const machine *it, uint32_t number, uint32_t *found)
{
    const uint8_t *byte = it->physical + it->map.at + 4 * number;

    if (it->map.in_memory == 0) {
        if (number >= it->map.count)
            return false;
        *found = it->map.registers[number];
        return true;
    }
    if (number >= it->map.in_memory || it->map.at + 4 * number + 4 > it->length)
        return false;
    *found = byte[0] | (uint32_t)byte[1] << 8 | (uint32_t)byte[2] << 16 | (uint32_t)byte[3] << 24;
    return true;
}

static uint8_t *byte_at(machine *it, uint32_t address)
{
    uint32_t found;
    uint64_t at;

    if (!find_register(it, address / BLOCK, &found) || (found & VALID) == 0)
        return NULL;
    at = (uint64_t)(found & FRAME) * (1 << SCALE) + address % BLOCK;
    return at < it->length ? it->physical + at : NULL;
}

static bool read_bytes(void *context, uint32_t address, uint32_t bytes, uint8_t *to)
{
    bool whole = true;

    reads++;
    for (uint32_t n = 0; n < bytes; n++) {
        const uint8_t *byte = byte_at(context, address + n);

        to[n] = byte == NULL ? 0 : *byte;
        whole = whole && byte != NULL;
    }
    return whole;
}

static void write_bytes(void *context, uint32_t address, uint32_t bytes, const uint8_t *from)
{
    for (uint32_t n = 0; n < bytes; n++) {
        uint8_t *byte = byte_at(context, address + n);

        if (byte != NULL)
            *byte = from[n];
    }
}

/* ---- Machines ---- */

static void make(machine *it, bool by_calls)
{
    uda50_image image = { it->disk, DISK };

    EXPECT(uda50_new(&it->uda, true), UDA50_OK);
    EXPECT(uda50_attach(&it->uda, 0, &image, false), UDA50_OK);
    it->map = (uda50_map){ .registers = it->registers, .count = PAGES, .page = PAGE_BITS, .frame = FRAME, .valid = VALID,
                           .scale = SCALE };
    it->length = PHYSICAL;
    it->calls = (uda50_machine){ .size = sizeof it->calls, .context = it, .read = read_bytes, .write = write_bytes,
                                 .window = it->window, .addresses = SIZE };
    it->by_calls = by_calls;
}

/* Whatever is in the window of a bus has no influence. */
static uint32_t turn(machine *it)
{
    memset(it->window, (int)any(256), SIZE);
    return it->by_calls ? uda50_machine_turn(&it->uda, &it->calls)
                        : uda50_run_mapped(&it->uda, 1, it->physical, it->length, &it->map);
}

static uint32_t run_turns(machine *it, uint32_t turns)
{
    return it->by_calls ? uda50_machine_run(&it->uda, turns, &it->calls)
                        : uda50_run_mapped(&it->uda, turns, it->physical, it->length, &it->map);
}

static uint32_t run(machine *it)
{
    return run_turns(it, 100);
}

static void write_sa(machine *it, uint16_t word)
{
    if (it->by_calls)
        EXPECT(uda50_machine_write_sa(&it->uda, word, &it->calls), UDA50_OK);
    else
        EXPECT(uda50_write_sa_mapped(&it->uda, word, it->physical, it->length, &it->map), UDA50_OK);
}

/* Page n of the bus is page `frame` of memory. */
static void lead(machine *it, uint32_t n, uint32_t frame)
{
    it->registers[n] = VALID | (frame * BLOCK) >> SCALE;
}

static void lead_straight(machine *it)
{
    for (uint32_t n = 0; n < PAGES; n++)
        lead(it, n, n);
    it->length = PHYSICAL;
}

/* Copies the guest's memory of guest.h to the bus, and back. */
static void show(machine *it)
{
    write_bytes(it, 0, SIZE, memory);
}

static void see(machine *it)
{
    read_bytes(it, 0, SIZE, memory);
}

/* ---- What a hole does ---- */

/* Starts the port up with its rings at this address, over memory that is all there and has only zeros. */
static void start_over(machine *it, uint16_t ring)
{
    const uint16_t words[] = { 0x8080 | 1 << 11 | 2 << 8 | VECTOR / 4, ring, 0, 1 };

    memset(memory, 0, SIZE);
    lead_straight(it);
    show(it);
    uda50_write_ip(&it->uda, 0);
    for (int n = 0; n < 4; n++)
        write_sa(it, words[n]);
}

/* A guest with an online unit. */
static void begin(machine *it)
{
    start_over(it, BASE);
    for (uint32_t n = 0; n < RESPONSES; n++)
        give_response(n);
    post(0, (command){ ONLINE, 0, 1, 0, 0 });
    show(it);
    uda50_read_ip(&it->uda);
    EXPECT(run(it), UDA50_IDLE);
    see(it);
    EXPECT(get16(response_at(0) + 10), 0);
}

/* Posts a command, drops a page of the bus, and runs. Returns what the last turn did. */
static uint32_t without(machine *it, command c, uint32_t address)
{
    begin(it);
    post(1, c);
    show(it);
    it->registers[address / BLOCK] &= ~VALID;
    uda50_read_ip(&it->uda);
    return run(it);
}

static const command read_two = { READ, 0, 2, 2 * BLOCK, 1 }, write_two = { WRITE, 0, 3, 2 * BLOCK, 1 };

static void holes(machine *it)
{
    static uint8_t disk[DISK];

    for (uint32_t n = 0; n < DISK; n++)
        it->disk[n] = (uint8_t)(n / BLOCK + 1);
    memcpy(disk, it->disk, DISK);
    EXPECT(without(it, read_two, BUFFER), UDA50_IDLE);
    see(it);
    EXPECT(get16(response_at(1) + 10), 0x69);
    EXPECT(get16(response_at(1) + 12), 0);
    EXPECT(memory[BUFFER + BLOCK], 0);
    EXPECT(without(it, read_two, BUFFER + BLOCK), UDA50_IDLE);
    see(it);
    EXPECT(get16(response_at(1) + 10), 0x69);
    EXPECT(memory[BUFFER], 0);
    EXPECT(without(it, write_two, BUFFER + BLOCK), UDA50_IDLE);
    see(it);
    EXPECT(get16(response_at(1) + 10), 0x69);
    EXPECT(memcmp(disk, it->disk, DISK), 0);
    EXPECT(without(it, read_two, BUFFER + 2 * BLOCK), UDA50_IDLE);
    see(it);
    EXPECT(get16(response_at(1) + 10), 0);
    EXPECT(memory[BUFFER] == 2 && memory[BUFFER + BLOCK] == 3, true);
    EXPECT(without(it, read_two, 0), UDA50_IDLE); /* a hole below the rings */
    see(it);
    EXPECT(get16(response_at(1) + 10), 0);
    EXPECT(without(it, read_two, command_at(1)), UDA50_DEAD);
    EXPECT(uda50_read_sa(&it->uda), 0x8001);
    EXPECT(without(it, read_two, BASE), UDA50_DEAD);
    EXPECT(uda50_read_sa(&it->uda), 0x8006);
}

/* Executes a transfer of 0 bytes whose buffer has this address, on a bus without the page of `missing`. Returns its
   status. */
static uint32_t status_of_none(machine *it, uint8_t opcode, uint32_t buffer, uint32_t missing)
{
    begin(it);
    post(1, (command){ opcode, 0, 2, 0, 1 });
    put32(command_at(1) + 16, buffer);
    show(it);
    it->registers[missing / BLOCK] &= ~VALID;
    uda50_read_ip(&it->uda);
    EXPECT(run(it), UDA50_IDLE);
    see(it);
    return get16(response_at(1) + 10);
}

/* The address of a transfer of 0 bytes is looked up as one byte. Address 0 and the end of the bus always pass. */
static void no_bytes(machine *it)
{
    static const uint8_t opcodes[] = { READ, WRITE, COMPARE };
    static uint8_t disk[DISK];

    memcpy(disk, it->disk, DISK);
    for (uint32_t n = 0; n < sizeof opcodes; n++) {
        EXPECT(status_of_none(it, opcodes[n], BUFFER, BUFFER), 0x69);
        EXPECT(status_of_none(it, opcodes[n], BUFFER + BLOCK - 2, BUFFER), 0x69);
        EXPECT(status_of_none(it, opcodes[n], BUFFER, BUFFER + BLOCK), 0);
        EXPECT(status_of_none(it, opcodes[n], BUFFER + BLOCK, BUFFER), 0);
        EXPECT(status_of_none(it, opcodes[n], 0, 0), 0);
        EXPECT(status_of_none(it, opcodes[n], 2, 0), 0x69);
        EXPECT(status_of_none(it, opcodes[n], SIZE - 2, SIZE - 2), 0x69);
        EXPECT(status_of_none(it, opcodes[n], SIZE, SIZE - 2), 0);
        EXPECT(status_of_none(it, opcodes[n], SIZE + 2, 0), 0x69);
    }
    EXPECT(status_of_none(it, ACCESS, BUFFER, BUFFER), 0); /* it has no buffer */
    EXPECT(status_of_none(it, ERASE, BUFFER, BUFFER), 0);
    EXPECT(memcmp(disk, it->disk, DISK), 0);
}

/* The same over one array, of which only the end can be missing. */
static uint32_t status_in_array(uint8_t opcode, uint32_t buffer)
{
    start(&flat);
    for (uint32_t n = 0; n < 2; n++) {
        give_response(n);
        post(n, (command){ n == 0 ? ONLINE : opcode, 0, n, 0, 1 });
        put32(command_at(n) + 16, n == 0 ? 0 : buffer);
        uda50_read_ip(&flat);
        EXPECT(uda50_run(&flat, 100, memory, SIZE), UDA50_IDLE);
    }
    return get16(response_at(1) + 10);
}

static void no_bytes_in_array(void)
{
    static const uint8_t opcodes[] = { READ, WRITE, COMPARE };

    for (uint32_t n = 0; n < sizeof opcodes; n++) {
        EXPECT(status_in_array(opcodes[n], 0), 0);
        EXPECT(status_in_array(opcodes[n], BUFFER), 0);
        EXPECT(status_in_array(opcodes[n], SIZE - 2), 0);
        EXPECT(status_in_array(opcodes[n], SIZE), 0);
        EXPECT(status_in_array(opcodes[n], SIZE + 2), 0x69);
    }
}

/* The buffer of a response is on a page of its own, which is missing. */
static void missing_response(machine *it)
{
    begin(it);
    put16(BASE + 4, 0x1804);
    post(1, read_two);
    show(it);
    it->registers[0x1804 / BLOCK] &= ~VALID;
    uda50_read_ip(&it->uda);
    EXPECT(run(it), UDA50_DEAD);
    EXPECT(uda50_read_sa(&it->uda), 0x8002);
    see(it);
    EXPECT(memory[BUFFER], 2);
}

/* A guest whose response ring is at the end of a page, so that the command ring begins on the next one. */
static void missing_response_ring(machine *it)
{
    enum { RING = 0x11f0, TEXT = 0x1804 };

    start_over(it, RING);
    see(it);
    put16(RING, TEXT);
    put16(RING + 2, 0x8000);
    post(0, (command){ GET_UNIT_STATUS, 0, 1, 0, 0 });
    put16(RING + 4 * RESPONSES, command_at(0));
    put16(RING + 4 * RESPONSES + 2, 0x8000);
    show(it);
    it->registers[RING / BLOCK] &= ~VALID;
    uda50_read_ip(&it->uda);
    EXPECT(turn(it), UDA50_FETCHED); /* which needs no response descriptor */
    EXPECT(turn(it), UDA50_EXECUTED);
    EXPECT(turn(it), UDA50_DEAD);
    EXPECT(uda50_read_sa(&it->uda), 0x8006);
}

/* The third word sets the area to zero, and nothing else. */
static void zeroed_area(machine *it)
{
    enum { FIRST = BASE - 4, END = BASE + 4 * (RESPONSES + COMMANDS) };

    begin(it);
    memset(memory + FIRST - 1, 0xff, END - FIRST + 2);
    show(it);
    uda50_write_ip(&it->uda, 0);
    write_sa(it, 0x8080 | 1 << 11 | 2 << 8 | VECTOR / 4);
    write_sa(it, BASE);
    see(it);
    EXPECT(memory[FIRST] == 0xff && memory[END - 1] == 0xff, true);
    write_sa(it, 0);
    see(it);
    EXPECT(memory[FIRST - 1] == 0xff && memory[END] == 0xff, true);
    for (uint32_t n = FIRST; n < END; n++)
        EXPECT(memory[n], 0);
}

/* A run ends after the first turn that does nothing. */
static void ended_run(machine *it)
{
    begin(it);
    reads = 0;
    EXPECT(run(it), UDA50_IDLE);
    EXPECT(reads <= 5, true);
}

/* A run takes as many turns as it gets: none, one, or two. */
static void counted_run(machine *it)
{
    static uint8_t before[UDA50_STATE_LENGTH], after[UDA50_STATE_LENGTH];

    begin(it);
    post(1, read_two);
    show(it);
    uda50_read_ip(&it->uda);
    reads = 0;
    EXPECT(uda50_save(&it->uda, before, sizeof before), UDA50_OK);
    EXPECT(run_turns(it, 0), UDA50_IDLE);
    EXPECT(uda50_save(&it->uda, after, sizeof after), UDA50_OK);
    EXPECT(memcmp(before, after, sizeof before), 0);
    EXPECT(reads, 0);
    EXPECT(run_turns(it, 1), UDA50_FETCHED);
    EXPECT(run_turns(it, 0), UDA50_IDLE);
    EXPECT(run_turns(it, 2), UDA50_DELIVERED);
    EXPECT(run(it), UDA50_IDLE);
}

/* A run goes on after an attention message. */
static void run_after_attention(machine *it)
{
    static uint8_t disk[BLOCK], other[BLOCK];
    uda50_image image = { disk, BLOCK }, second = { other, BLOCK };
    uda50_state state = { .size = sizeof state };

    begin(it);
    post(1, (command){ SET_CONTROLLER, 0, 2, 0x800000, 0 }); /* it asks for attention messages */
    show(it);
    uda50_read_ip(&it->uda);
    EXPECT(run(it), UDA50_IDLE);
    EXPECT(uda50_attach(&it->uda, 1, &image, false), UDA50_OK);
    EXPECT(uda50_attach(&it->uda, 2, &second, false), UDA50_OK);
    EXPECT(uda50_get_state(&it->uda, &state), UDA50_OK);
    EXPECT(state.attentions, 6);
    EXPECT(run_turns(it, 2), UDA50_NOTIFIED);
    EXPECT(uda50_get_state(&it->uda, &state), UDA50_OK);
    EXPECT(state.attentions, 0);
    EXPECT(uda50_detach(&it->uda, 1, &image), UDA50_OK);
    EXPECT(uda50_detach(&it->uda, 2, &second), UDA50_OK);
    EXPECT(uda50_attach(&it->uda, 1, &image, false), UDA50_OK);
    give_response(0);
    show(it);
    EXPECT(run(it), UDA50_IDLE); /* a turn of the message, and one that does nothing */
    EXPECT(uda50_detach(&it->uda, 1, &image), UDA50_OK);
}

/* The area of the rings is missing at the third word. */
static void missing_area(machine *it)
{
    begin(it);
    it->registers[BASE / BLOCK] &= ~VALID;
    uda50_write_ip(&it->uda, 0);
    write_sa(it, 0x8000);
    write_sa(it, BASE);
    write_sa(it, 0);
    EXPECT(uda50_read_sa(&it->uda), 0x8007);
}

/* The ring of responses crosses a page: the next descriptor is on the second page, and the one before it on the first,
   which is missing. Then it counts as one that the host owns, whatever the window had, and nothing interrupts. */
static void missing_before(machine *it)
{
    enum { RING = 0x11f8, TEXTS = 0x1804 };
    uint16_t vector;

    start_over(it, RING);
    while (uda50_take_interrupt(&it->uda, &vector))
        ;
    for (uint32_t n = 0; n < 3; n++) {
        uint32_t command_descriptor = RING + 4 * (RESPONSES + n % COMMANDS);

        see(it);
        put16(RING + 4 * n, TEXTS + 0x40 * n);
        put16(RING + 4 * n + 2, n == 2 ? 0xc000 : 0x8000);
        post(n % COMMANDS, (command){ GET_UNIT_STATUS, 0, n, 0, 0 });
        put16(command_descriptor, command_at(n % COMMANDS));
        put16(command_descriptor + 2, 0x8000);
        if (n == 2)
            put16(RING + 4 + 2, 0x8000); /* the one before is the port's again */
        show(it);
        if (n == 2) {
            EXPECT(turn(it), UDA50_IDLE);
            it->registers[RING / BLOCK] &= ~VALID;
        }
        uda50_read_ip(&it->uda);
        EXPECT(run(it), UDA50_IDLE);
    }
    see(it);
    EXPECT(get16(TEXTS + 0x40 * 2), 2);
    EXPECT(uda50_take_interrupt(&it->uda, &vector), false);
}

/* ---- Pages that share memory, and the end of memory ---- */

/* The buffer of a response shares the page of its descriptor, and the envelope the second word: that is written last. */
static void writes_in_order(machine *it)
{
    begin(it);
    put16(BASE + 4, 0x1808);
    post(1, read_two);
    show(it);
    lead(it, 0x1800 / BLOCK, BASE / BLOCK);
    uda50_read_ip(&it->uda);
    EXPECT(run(it), UDA50_IDLE);
    EXPECT(it->physical[BASE + 4 + 3], 0x40);
}

static void shared_pages(machine *it)
{
    begin(it);
    post(1, read_two);
    show(it);
    lead(it, BUFFER / BLOCK + 1, BUFFER / BLOCK);
    uda50_read_ip(&it->uda);
    EXPECT(run(it), UDA50_IDLE);
    see(it);
    EXPECT(get16(response_at(1) + 10), 0);
    EXPECT(memory[BUFFER] == 3 && memory[BUFFER + BLOCK] == 3, true);
}

static void end_of_memory(machine *it)
{
    uint32_t last = PHYSICAL - 2 * BLOCK;

    for (uint32_t cut = 0; cut < 2; cut++) {
        begin(it);
        post(1, read_two);
        lead(it, BUFFER / BLOCK, last / BLOCK);
        lead(it, BUFFER / BLOCK + 1, last / BLOCK + 1);
        show(it);
        it->length = PHYSICAL - cut;
        uda50_read_ip(&it->uda);
        EXPECT(run(it), UDA50_IDLE);
        see(it);
        EXPECT(get16(response_at(1) + 10), cut == 0 ? 0 : 0x69);
        EXPECT(it->physical[last], cut == 0 ? 2 : 0);
    }
}

/* The registers lie in memory, in the page that a Read fills: what it writes over its own register counts at once. */
static void registers_in_memory(machine *it)
{
    enum { AT = PHYSICAL - BLOCK };

    begin(it);
    for (uint32_t n = 0; n < PAGES; n++)
        for (uint32_t k = 0; k < 4; k++)
            it->physical[AT + 4 * n + k] = (uint8_t)(it->registers[n] >> 8 * k);
    it->map.at = AT;
    it->map.in_memory = PAGES;
    post(1, read_two);
    show(it);
    uda50_read_ip(&it->uda);
    EXPECT(run(it), UDA50_IDLE);
    see(it);
    EXPECT(get16(response_at(1) + 10), 0);
    EXPECT(memory[BUFFER] == 2 && memory[BUFFER + BLOCK] == 3, true);
    it->map.in_memory = 0;
}

static void known_guests(machine *it)
{
    holes(it);
    no_bytes(it);
    missing_response(it);
    missing_response_ring(it);
    missing_before(it);
    missing_area(it);
    zeroed_area(it);
    ended_run(it);
    counted_run(it);
    run_after_attention(it);
    shared_pages(it);
    writes_in_order(it);
    end_of_memory(it);
    registers_in_memory(it);
}

/* ---- Maps that no bus has ---- */

static void refused_maps(machine *it)
{
    static const uint32_t no_registers[1] = { 0 };
    static uda50 none;
    uda50_map map = it->map;

    EXPECT(uda50_run_mapped(&none, 1, it->physical, it->length, &map), UDA50_NO_CONTROLLER);
    EXPECT(uda50_write_sa_mapped(&none, 0, it->physical, it->length, &map), UDA50_NO_CONTROLLER);
    map.page = 32;
    EXPECT(uda50_run_mapped(&it->uda, 1, it->physical, it->length, &map), UDA50_BAD_MAP);
    map.page = PAGE_BITS;
    map.scale = 32;
    EXPECT(uda50_run_mapped(&it->uda, 1, it->physical, it->length, &map), UDA50_BAD_MAP);
    map.scale = SCALE;
    map.in_memory = 8193; /* pages of 512 bytes: more than a Q-bus has addresses */
    EXPECT(uda50_write_sa_mapped(&it->uda, 0, it->physical, it->length, &map), UDA50_TOO_LARGE);
    map.in_memory = 3;
    map.page = 0;
    EXPECT(uda50_run_mapped(&it->uda, 1, it->physical, it->length, &map), UDA50_BAD_LENGTH);
    map.in_memory = UINT32_MAX;
    map.page = 31;
    EXPECT(uda50_run_mapped(&it->uda, 1, it->physical, it->length, &map), UDA50_TOO_LARGE);
    map = (uda50_map){ .registers = no_registers, .page = PAGE_BITS };
    begin(it);
    EXPECT(uda50_run_mapped(&it->uda, 1, it->physical, it->length, &map), UDA50_IDLE); /* it doesn't poll */
    EXPECT(uda50_run_mapped(&it->uda, 0, it->physical, it->length, &map), UDA50_OK);
    uda50_read_ip(&it->uda);
    EXPECT(uda50_run_mapped(&it->uda, 1, it->physical, it->length, &map), UDA50_DEAD);
    EXPECT(uda50_read_sa(&it->uda), 0x8006);
}

/* ---- The calls below the bus ---- */

static bool is_range(uda50_range range, uint32_t at, uint32_t bytes)
{
    return range.at == at && range.bytes == bytes;
}

/* What a call fills that is refused: nothing. */
static void refused_uses(machine *it)
{
    static uda50 none;
    uda50_turn_use use = { .size = sizeof use, .place = 7, .missing = 5 }, before = use;
    uda50_range area = { 3, 4 };

    EXPECT(uda50_get_descriptors(&none, it->window, SIZE, &use), UDA50_NO_CONTROLLER);
    EXPECT(uda50_get_body(&none, it->window, SIZE, &use), UDA50_NO_CONTROLLER);
    EXPECT(uda50_turn_at(&none, it->window, SIZE, &use), UDA50_NO_CONTROLLER);
    EXPECT(uda50_get_zeroed(&none, 0, it->window, SIZE, &area), UDA50_NO_CONTROLLER);
    EXPECT(uda50_write_sa_at(&none, 0, it->window, SIZE, false, &area), UDA50_NO_CONTROLLER);
    EXPECT(uda50_get_descriptors(&it->uda, it->window, SIZE - 1, &use), UDA50_BAD_LENGTH);
    EXPECT(memcmp(&use, &before, sizeof use), 0);
    EXPECT(uda50_get_descriptors(&it->uda, it->window, SIZE, &use), UDA50_OK);
    before = use;
    EXPECT(uda50_get_body(&it->uda, it->window, SIZE - 1, &use), UDA50_BAD_LENGTH);
    EXPECT(memcmp(&use, &before, sizeof use), 0);
    EXPECT(uda50_get_body(&it->uda, it->window, SIZE, &use), UDA50_OK);
    before = use;
    EXPECT(uda50_turn_at(&it->uda, it->window, SIZE - 1, &use), UDA50_BAD_LENGTH);
    EXPECT(memcmp(&use, &before, sizeof use), 0);
    EXPECT(is_range(area, 3, 4), true);
}

/* The ranges of a fetch and of a Read of two blocks, each in a window that has nothing else of the guest's memory. */
static void told_ranges(machine *it)
{
    enum { NEXT = BASE + 4 * (RESPONSES + 1), BEFORE = NEXT - 4 };
    uda50_turn_use use;

    begin(it);
    post(1, read_two);
    memset(it->window, 0xa5, SIZE);
    uda50_read_ip(&it->uda);
    use = (uda50_turn_use){ .size = sizeof use };
    EXPECT(uda50_get_descriptors(&it->uda, it->window, SIZE, &use), UDA50_OK);
    EXPECT(is_range(use.descriptors[0], NEXT, 4) && is_range(use.descriptors[1], BEFORE, 4), true);
    EXPECT(is_range(use.descriptors[2], 0, 0) && is_range(use.descriptors[3], 0, 0), true); /* no message waits */
    memcpy(it->window + BASE, memory + BASE, 4 * (RESPONSES + COMMANDS));
    EXPECT(uda50_get_body(&it->uda, it->window, SIZE, &use), UDA50_OK);
    EXPECT(is_range(use.body, command_at(1) - 4, 52), true);
    EXPECT(use.reads_body, 1);
    memcpy(it->window + use.body.at, memory + use.body.at, use.body.bytes);
    EXPECT(uda50_turn_at(&it->uda, it->window, SIZE, &use), UDA50_FETCHED);
    EXPECT(is_range(use.written[1], NEXT + 2, 2), true);
    EXPECT(uda50_get_descriptors(&it->uda, it->window, SIZE, &use), UDA50_OK);
    EXPECT(uda50_get_body(&it->uda, it->window, SIZE, &use), UDA50_OK);
    EXPECT(is_range(use.body, BUFFER, 2 * BLOCK), true);
    EXPECT(use.reads_body, 0);
    EXPECT(uda50_turn_at(&it->uda, it->window, SIZE, &use), UDA50_EXECUTED);
    EXPECT(is_range(use.written[0], BUFFER, 2 * BLOCK), true);
    EXPECT(it->window[BUFFER] == 2 && it->window[BUFFER + BLOCK] == 3 && it->window[BUFFER - 1] == 0xa5, true);
    EXPECT(uda50_get_descriptors(&it->uda, it->window, SIZE, &use), UDA50_OK);
    EXPECT(is_range(use.descriptors[0], 0, 0) && is_range(use.descriptors[1], 0, 0), true); /* it polls no more */
    EXPECT(is_range(use.descriptors[2], BASE + 4, 4) && is_range(use.descriptors[3], BASE, 4), true);
}

/* ---- Random guests ---- */

/* One change that a guest makes to memory, as memory of guest.h has it. Returns where, and how many bytes. */
static uda50_range change_memory(uint32_t kind, uint32_t number)
{
    static const uint8_t opcodes[] = { ONLINE, READ, WRITE, READ, WRITE, GET_UNIT_STATUS, 32, 16, 18, SET_CONTROLLER, 1 };
    uint32_t n = number % COMMANDS;

    if (kind < 24) {
        give_response(number % RESPONSES);
        if (number & 64)
            put16(BASE + 4 * (number % RESPONSES) + 2, 0xc000); /* with F */
        return (uda50_range){ 0, SIZE };
    }
    if (kind < 48) {
        post(n, (command){ opcodes[number / 2 % sizeof opcodes], number % 64 == 0, number,
                           (number >> 8) % 3 * BLOCK + (number >> 12) % 2 * 200, (number >> 16) % 17 });
        put32(command_at(n) + 16, (number >> 20) % SIZE / 2 * 2);
        return (uda50_range){ 0, SIZE };
    }
    put16(number % (SIZE / 2) * 2, number >> 16);
    return (uda50_range){ number % (SIZE / 2) * 2, 2 };
}

static void start_up(machine *it)
{
    uda50_write_ip(&it->uda, 0);
    write_sa(it, 0x8080 | 1 << 11 | 2 << 8 | VECTOR / 4);
    write_sa(it, BASE);
    write_sa(it, 0);
    write_sa(it, 1);
}

/* The same state; the same images; and the same bytes on the bus. */
static bool same(machine *it, uda50 *uda, const uint8_t *disk)
{
    static uint8_t one[UDA50_STATE_LENGTH], two[UDA50_STATE_LENGTH];

    EXPECT(uda50_save(&it->uda, one, sizeof one), UDA50_OK);
    EXPECT(uda50_save(uda, two, sizeof two), UDA50_OK);
    return memcmp(one, two, sizeof one) == 0 && memcmp(it->disk, disk, DISK) == 0;
}

/* A map without holes, compared with one array. */
static void beside_an_array(uint32_t events)
{
    static uint8_t seen[SIZE], changed[SIZE];

    lead_straight(&mapped);
    for (uint32_t n = 0; n < PAGES; n++) { /* exchange pages */
        uint32_t k = any(PAGES), kept = mapped.registers[n];

        mapped.registers[n] = mapped.registers[k];
        mapped.registers[k] = kept;
    }
    memcpy(flat_disk, mapped.disk, DISK);
    start(&flat);
    show(&mapped);
    start_up(&mapped);
    for (uint32_t n = 0; n < events && failures == 0; n++) {
        uint32_t kind = any(128), number = any(UINT32_MAX);

        if (kind < 56) {
            memcpy(seen, memory, SIZE);
            change_memory(kind, number);
            memcpy(changed, memory, SIZE);
            see(&mapped);
            EXPECT(memcmp(seen, memory, SIZE), 0);
            memcpy(memory, changed, SIZE);
            show(&mapped);
        } else if (kind < 72)
            EXPECT(uda50_read_ip(&flat), uda50_read_ip(&mapped.uda));
        else
            EXPECT(uda50_turn(&flat, memory, SIZE), turn(&mapped));
        EXPECT(same(&mapped, &flat, flat_disk), true);
    }
    memcpy(seen, memory, SIZE);
    see(&mapped);
    EXPECT(memcmp(seen, memory, SIZE), 0);
}

/* Any register: none, one page for two, a page that isn't there or is at the end of memory. */
static void lead_anywhere(uint32_t n)
{
    uint32_t way = any(16);

    lead(&mapped, n, way < 3 ? any(FRAMES) : n);
    if (way == 3)
        mapped.registers[n] = any(UINT32_MAX);
    if (way == 4)
        mapped.registers[n] &= ~VALID;
}

/* Puts the registers into memory, at any index. The guest may then write over them. */
static void move_registers(machine *it)
{
    uint32_t at = any(PHYSICAL - 4 * PAGES);

    for (uint32_t n = 0; n < it->map.count; n++)
        for (uint32_t k = 0; k < 4; k++)
            it->physical[at + 4 * n + k] = (uint8_t)(it->registers[n] >> 8 * k);
    it->map.at = at;
    it->map.in_memory = (uint32_t)it->map.count;
}

/* Any map, by pages and by bytes. */
static void by_pages_and_bytes(uint32_t events)
{
    lead_straight(&mapped);
    for (uint32_t n = 0; n < PAGES; n++)
        if (any(3) == 0)
            lead_anywhere(n);
    mapped.length = PHYSICAL - any(3) * any(2 * BLOCK);
    mapped.map.count = any(4) == 0 ? PAGES - any(8) : PAGES;
    memset(memory, 0, SIZE);
    show(&mapped);
    if (any(3) == 0)
        move_registers(&mapped);
    memcpy(other.registers, mapped.registers, sizeof other.registers);
    memcpy(other.physical, mapped.physical, PHYSICAL);
    memcpy(other.disk, mapped.disk, DISK);
    other.length = mapped.length;
    other.map = mapped.map;
    other.map.registers = other.registers;
    other.calls.addresses = other.map.count * BLOCK;
    start_up(&mapped);
    start_up(&other);
    for (uint32_t n = 0; n < events && failures == 0; n++) {
        uint32_t kind = any(128), number = any(UINT32_MAX);

        if (kind < 56) {
            see(&mapped);
            change_memory(kind, number);
            show(&mapped);
            show(&other);
        } else if (kind < 72)
            EXPECT(uda50_read_ip(&mapped.uda), uda50_read_ip(&other.uda));
        else
            EXPECT(turn(&mapped), turn(&other));
        EXPECT(same(&mapped, &other.uda, other.disk), true);
        EXPECT(memcmp(mapped.physical, other.physical, PHYSICAL), 0);
    }
    mapped.length = other.length = PHYSICAL;
    mapped.map.count = other.map.count = PAGES;
    mapped.map.in_memory = other.map.in_memory = 0;
}

int main(int count, char **arguments)
{
    uint32_t maps = count > 1 ? (uint32_t)strtoul(arguments[1], NULL, 10) : 40;
    uint32_t events = count > 2 ? (uint32_t)strtoul(arguments[2], NULL, 10) : 250;
    uda50_image image = { flat_disk, DISK }, images[UDA50_UNITS] = { { NULL, 0 } };

    make(&mapped, false);
    make(&other, true);
    EXPECT(uda50_new(&flat, true), UDA50_OK);
    EXPECT(uda50_attach(&flat, 0, &image, false), UDA50_OK);
    known_guests(&mapped);
    known_guests(&other);
    no_bytes_in_array();
    refused_maps(&mapped);
    refused_uses(&mapped);
    told_ranges(&mapped);
    for (uint32_t n = 0; n < maps && failures == 0; n++) {
        beside_an_array(events);
        by_pages_and_bytes(events);
    }
    EXPECT(uda50_free(&flat, images), UDA50_OK);
    memset(images, 0, sizeof images);
    EXPECT(uda50_free(&mapped.uda, images), UDA50_OK);
    memset(images, 0, sizeof images);
    EXPECT(uda50_free(&other.uda, images), UDA50_OK);
    return ended();
}
