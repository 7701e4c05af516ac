/* attention.c: a guest that always has a command under way gets its attention messages all the same, within 34 turns that
   each find a free response descriptor. It takes its turns over one array, by calls, or over mapped memory. */
#include "guest.h"
#include "uda50_machine.h"

enum { ATTENTION = 0x40, ASKS_ATTENTION = 0x800000, CREDITS = 15, MOST_TURNS = 34, MOMENTS = 100, LIMIT = 10000 };
enum { PAGES = SIZE / BLOCK };

static uint8_t disks[UDA50_UNITS][BLOCK];
static uda50 uda;

/* The guest's next response and command, its commands without an end message, its Reads, and its attention messages. */
static uint32_t response, place, outstanding, reads, messages;

/* A bus whose addresses lead to the same ones of memory. */
static uint32_t registers[PAGES];
static const uda50_map map = { .registers = registers, .count = PAGES, .page = 9, .frame = SIZE - 1 };
static uint8_t window[SIZE];

static bool read_bytes(void *context, uint32_t at, uint32_t bytes, uint8_t *to)
{
    (void)context;
    return uda50_read_mapped(memory, SIZE, &map, at, to, bytes) == UDA50_OK;
}

static void write_bytes(void *context, uint32_t at, uint32_t bytes, const uint8_t *from)
{
    (void)context;
    EXPECT(uda50_write_mapped(memory, SIZE, &map, at, from, bytes), UDA50_OK);
}

static const uda50_machine by_calls = { .size = sizeof(uda50_machine), .read = read_bytes, .write = write_bytes,
                                        .window = window, .addresses = SIZE };

static uint32_t turn_of_array(void)
{
    return uda50_turn(&uda, memory, SIZE);
}

static uint32_t turn_by_calls(void)
{
    return uda50_machine_turn(&uda, &by_calls);
}

static uint32_t turn_of_mapped(void)
{
    return uda50_run_mapped(&uda, 1, memory, SIZE, &map);
}

static uint32_t (*take_turn)(void);

static void attach(uint32_t unit)
{
    uda50_image image = { disks[unit], BLOCK };

    EXPECT(uda50_attach(&uda, unit, &image, false), UDA50_OK);
}

/* The guest asks for attention messages, brings unit 0 online, and gives the port all response descriptors. */
static void begin(void)
{
    EXPECT(uda50_new(&uda, true), UDA50_OK);
    attach(0);
    EXPECT(status_of(&uda, (command){ SET_CONTROLLER, 0, 1, ASKS_ATTENTION, 0 }), 0);
    EXPECT(status_of(&uda, (command){ ONLINE, 0, 2, 0, 0 }), 0);
    response = 2;
    place = outstanding = reads = messages = 0;
    for (uint32_t n = 0; n < RESPONSES; n++)
        give_response(n);
}

static bool is_ports(uint32_t descriptor)
{
    return (get16(BASE + 4 * descriptor + 2) & 0x8000) != 0;
}

/* Takes what has come, and gives the descriptors back. The attention messages come in the order of their units, from 1
   on. */
static void take_responses(void)
{
    for (; !is_ports(response); response = (response + 1) % RESPONSES) {
        uint32_t at = response_at(response);

        if (memory[at + 8] == ATTENTION) {
            EXPECT(get16(at + 4), ++messages);
        } else {
            EXPECT(memory[at + 8], READ + END);
            EXPECT(get16(at + 10), 0);
            outstanding--;
            reads++;
        }
        give_response(response);
    }
}

/* Posts a Read, unless as many as `most` have no end message yet. */
static void post_read(uint32_t most)
{
    if (outstanding == most || is_ports(RESPONSES + place))
        return;
    post(place, (command){ READ, 0, 3, BLOCK, 0 });
    place = (place + 1) % COMMANDS;
    outstanding++;
    uda50_read_ip(&uda);
}

static void turn(uint32_t most)
{
    post_read(most);
    EXPECT(take_turn() < UDA50_DEAD, true);
    take_responses();
}

/* After some turns volumes come to units 1, 2 and so on. Returns how many turns later the guest has their messages. */
static uint32_t turns_to_notify(uint32_t most, uint32_t moment, uint32_t volumes)
{
    uda50_image images[UDA50_UNITS] = { { NULL, 0 } };
    uint32_t turns = 0, before;

    begin();
    for (uint32_t n = 0; n < moment; n++)
        turn(most);
    EXPECT(messages, 0);
    for (uint32_t unit = 1; unit <= volumes; unit++)
        attach(unit);
    for (; messages < volumes && turns < LIMIT; turns++)
        turn(most);
    before = reads;
    for (uint32_t n = 0; n < MOST_TURNS; n++)
        turn(most);
    EXPECT(messages, volumes);
    EXPECT(reads > before, true);
    EXPECT(uda50_free(&uda, images), UDA50_OK);
    return turns;
}

/* Tests guests whose turns are taken in this way. */
static void test(uint32_t (*turns)(void))
{
    take_turn = turns;
    for (uint32_t moment = 0; moment < MOMENTS && failures == 0; moment++) {
        EXPECT(turns_to_notify(1, moment, 1) <= 3, true); /* one Read at a time: a fetch, an execution, and the message */
        for (uint32_t volumes = 1; volumes < UDA50_UNITS; volumes++)
            EXPECT(turns_to_notify(CREDITS, moment, volumes) <= MOST_TURNS, true);
    }
    EXPECT(turns_to_notify(CREDITS, 0, 3), 2 * CREDITS + 3);
}

int main(void)
{
    for (uint32_t n = 0; n < PAGES; n++)
        registers[n] = n * BLOCK;
    test(turn_of_array);
    test(turn_by_calls);
    test(turn_of_mapped);
    return ended();
}
