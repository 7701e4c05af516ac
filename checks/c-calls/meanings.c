/* meanings.c: the meaning of each field and argument of uda50.h that could be confused with another of its type. */
#include "guest.h"

static uint8_t disks[3][16 * BLOCK];

static uda50_state state_of(uda50 *uda)
{
    uda50_state state;

    memset(&state, 0x5a, sizeof state);
    state.size = sizeof state;
    EXPECT(uda50_get_state(uda, &state), UDA50_OK);
    return state;
}

static uda50_turn_record turn_of(uda50 *uda)
{
    uda50_turn_record turn;

    memset(&turn, 0x5a, sizeof turn);
    turn.size = sizeof turn;
    EXPECT(uda50_get_last_turn(uda, &turn), UDA50_OK);
    return turn;
}

static void expect_turn(uda50 *uda, uda50_turn_record wanted, int line)
{
    uda50_turn_record turn = turn_of(uda);

    expect(turn.kind, wanted.kind, "kind", line);
    expect(turn.reference, wanted.reference, "reference", line);
    expect(turn.lbn, wanted.lbn, "lbn", line);
    expect(turn.bytes, wanted.bytes, "bytes", line);
    expect(turn.unit, wanted.unit, "unit", line);
    expect(turn.code, wanted.code, "code", line);
    expect(turn.status, wanted.status, "status", line);
}

#define EXPECT_TURN(k, r, l, b, u, c, s) \
    expect_turn(&uda, (uda50_turn_record){ .kind = k, .reference = r, .lbn = l, .bytes = b, .unit = u, .code = c, \
                                           .status = s }, __LINE__)

static uda50 uda;

/* The rings, the vector and the credits of a port that was started up. */
static void rings(void)
{
    uda50_state state;

    EXPECT(state_of(&uda).phase, UDA50_PHASE_STEP_1);
    EXPECT(state_of(&uda).sa, 0x0940);
    EXPECT_TURN(UDA50_NO_TURN, 0, 0, 0, 0, 0, 0);
    start(&uda);
    state = state_of(&uda);
    EXPECT(state.phase, UDA50_PHASE_RUNNING);
    EXPECT(state.responses.base, BASE);
    EXPECT(state.responses.count, RESPONSES);
    EXPECT(state.responses.next, 0);
    EXPECT(state.commands.base, BASE + 4 * RESPONSES);
    EXPECT(state.commands.count, COMMANDS);
    EXPECT(state.commands.next, 0);
    EXPECT(state.pending, 0);
    EXPECT(state.queued, 0);
    EXPECT(state.sa, 0);
    EXPECT(state.credits, 1);
    EXPECT(state.polling, 0);
    EXPECT(state.vector, VECTOR);
    EXPECT(uda50_turn(&uda, memory, SIZE), UDA50_IDLE);
    EXPECT_TURN(UDA50_IDLE, 0, 0, 0, 0, 0, 0);
}

/* One command, turn by turn: an Online of a unit that isn't there. */
static void one_command(void)
{
    give_response(0);
    post(0, (command){ ONLINE, 3, 0x01020304, 0, 0 });
    uda50_read_ip(&uda);
    EXPECT(state_of(&uda).polling, 1);
    EXPECT(uda50_turn(&uda, memory, SIZE), UDA50_FETCHED);
    EXPECT_TURN(UDA50_FETCHED, 0x01020304, 0, 0, 3, ONLINE, 0);
    EXPECT(state_of(&uda).pending, 1);
    EXPECT(state_of(&uda).queued, 0);
    EXPECT(state_of(&uda).credits, 0);
    EXPECT(state_of(&uda).commands.next, 1);
    EXPECT(state_of(&uda).responses.next, 0);
    EXPECT(uda50_turn(&uda, memory, SIZE), UDA50_EXECUTED);
    EXPECT_TURN(UDA50_EXECUTED, 0x01020304, 0, 0, 3, ONLINE + END, 0x23);
    EXPECT(state_of(&uda).polling, 0);
    EXPECT(state_of(&uda).pending, 0);
    EXPECT(state_of(&uda).queued, 1);
    EXPECT(uda50_turn(&uda, memory, SIZE), UDA50_DELIVERED);
    EXPECT_TURN(UDA50_DELIVERED, 0x01020304, 0, 0, 3, ONLINE + END, 0x23);
    EXPECT(state_of(&uda).queued, 0);
    EXPECT(state_of(&uda).responses.next, 1);
    EXPECT(state_of(&uda).commands.next, 1);
    EXPECT(state_of(&uda).credits, 15);
}

/* Two transfers, whose end messages then lack a descriptor, and a packet that is no command. */
static void transfers(void)
{
    give_response(1);
    post(1, (command){ ONLINE, 2, 5, 0, 0 });
    uda50_read_ip(&uda);
    EXPECT(uda50_run(&uda, 100, memory, SIZE), UDA50_IDLE);
    post(0, (command){ READ, 2, 6, 2 * BLOCK, 7 });
    post(1, (command){ READ, 2, 8, 3 * BLOCK, 9 });
    uda50_read_ip(&uda);
    EXPECT(uda50_run(&uda, 1, memory, SIZE), UDA50_FETCHED);
    EXPECT_TURN(UDA50_FETCHED, 6, 7, 2 * BLOCK, 2, READ, 0);
    EXPECT(uda50_run(&uda, 1, memory, SIZE), UDA50_FETCHED);
    EXPECT(state_of(&uda).pending, 2);
    EXPECT(state_of(&uda).queued, 0);
    EXPECT(uda50_run(&uda, 100, memory, SIZE), UDA50_IDLE);
    EXPECT(state_of(&uda).pending, 0);
    EXPECT(state_of(&uda).queued, 2);
    post(0, (command){ 0x7f, 1, 10, 0, 0 });
    uda50_read_ip(&uda);
    EXPECT(uda50_turn(&uda, memory, SIZE), UDA50_FETCHED);
    EXPECT(turn_of(&uda).kind, UDA50_INVALID_COMMAND);
    EXPECT(turn_of(&uda).reference, 10);
    EXPECT(turn_of(&uda).unit, 1);
    EXPECT(state_of(&uda).queued, 3);
}

/* The port dies: of a command at an address that leaves no room for its envelope, which is code 1. */
static void death(void)
{
    start(&uda);
    post(0, (command){ ONLINE, 0, 1, 0, 0 });
    put16(BASE + 4 * RESPONSES, 2);
    uda50_read_ip(&uda);
    EXPECT(uda50_turn(&uda, memory, SIZE), UDA50_DEAD);
    EXPECT_TURN(UDA50_DEAD, 0, 0, 0, 0, 1, 0);
    EXPECT(state_of(&uda).phase, UDA50_PHASE_DEAD);
    EXPECT(state_of(&uda).sa, 0x8001);
    EXPECT(uda50_read_sa(&uda), 0x8001);
    EXPECT(state_of(&uda).vector, VECTOR);
}

/* Executes a Read of two blocks or a Write of one on a unit that is brought online. */
static uint32_t transferred(uint8_t opcode, uint16_t unit, uint32_t lbn)
{
    EXPECT(status_of(&uda, (command){ SET_CONTROLLER, 0, 1, 0, 0 }), 0);
    EXPECT(status_of(&uda, (command){ ONLINE, unit, 2, 0, 0 }), 0);
    memset(memory + BUFFER, 'n', 2 * BLOCK);
    return status_of(&uda, (command){ opcode, unit, 3, opcode == READ ? 2 * BLOCK : BLOCK, lbn });
}

/* The arguments of uda50_attach, uda50_detach and uda50_inject_failure. */
static void arguments(void)
{
    uda50_image images[UDA50_UNITS] = { { NULL, 0 } };
    uint8_t before[BLOCK];

    memcpy(before, disks[2], BLOCK);
    EXPECT(transferred(WRITE, 2, 0) & 0x1f, 6); /* write protected */
    EXPECT(memcmp(before, disks[2], BLOCK), 0);
    EXPECT(transferred(WRITE, 1, 4), 0);
    EXPECT(disks[1][4 * BLOCK], 'n');
    EXPECT(uda50_inject_failure(&uda, 1, 2), UDA50_OK);
    EXPECT(transferred(READ, 2, 0), 0);
    EXPECT(transferred(READ, 1, 0), 11); /* at its second block */
    EXPECT(transferred(READ, 1, 0), 0);
    EXPECT(uda50_free(&uda, images), UDA50_OK);
    EXPECT(images[0].length, 0);
    EXPECT(images[1].at == disks[1] && images[1].length == sizeof disks[1], true);
    EXPECT(images[2].at == disks[2] && images[2].length == sizeof disks[2], true);
    EXPECT(images[3].length, 0);
}

/* The arguments of uda50_new_as and uda50_set_type, and what the guest learns by them. */
static void identity(void)
{
    uda50 other = { 0 };
    uda50_image images[UDA50_UNITS] = { { NULL, 0 } }, image = { disks[1], sizeof disks[1] };

    EXPECT(uda50_set_type(&other, 0, UDA50_RA81), UDA50_NO_CONTROLLER);
    EXPECT(uda50_new_as(&other, 2, 4), UDA50_NO_SUCH_BUS);
    EXPECT(uda50_new_as(&other, UDA50_QBUS, 65533), UDA50_BAD_FIRST_UNIT);
    EXPECT(uda50_new_as(&other, UDA50_UNIBUS, 65535), UDA50_BAD_FIRST_UNIT);
    EXPECT(uda50_read_sa(&other), 0); /* it has no controller */
    EXPECT(uda50_new_as(&other, UDA50_UNIBUS, 65532), UDA50_OK);
    EXPECT(uda50_free(&other, images), UDA50_OK);
    EXPECT(uda50_new_as(&other, UDA50_QBUS, 4), UDA50_OK);
    EXPECT(uda50_new_as(&other, UDA50_UNIBUS, 65533), UDA50_HAS_CONTROLLER);
    EXPECT(uda50_read_sa(&other), 0x0b40);
    EXPECT(uda50_set_type(&other, 4, UDA50_RX50), UDA50_NO_SUCH_UNIT);
    EXPECT(uda50_set_type(&other, 1, UDA50_DRIVE_TYPE_COUNT), UDA50_NO_SUCH_TYPE);
    EXPECT(uda50_set_type(&other, 1, UDA50_RX50), UDA50_OK);
    EXPECT(uda50_set_type(&other, 2, UDA50_RRD40), UDA50_OK);
    EXPECT(uda50_attach(&other, 2, &image, false), UDA50_OK);
    EXPECT(uda50_set_type(&other, 2, UDA50_RX50), UDA50_ALREADY_ATTACHED);
    start(&other);
    EXPECT(status_of(&other, (command){ SET_CONTROLLER, 4, 1, 0x800000, 0 }), 0); /* with the flag 0x0080 */
    EXPECT(status_of(&other, (command){ GET_UNIT_STATUS, 5, 2, 0, 0 }), 0x0023);
    EXPECT(get16(response_at(1) + 14), 0x8080);
    EXPECT(memory[response_at(1) + 26], 7);
    EXPECT(status_of(&other, (command){ GET_UNIT_STATUS, 6, 3, 0, 0 }), 0x0004);
    EXPECT(get16(response_at(2) + 14), 0xa080); /* an RRD40 is write-protected */
    EXPECT(uda50_detach(&other, 2, &images[2]), UDA50_OK);
    EXPECT(state_of(&other).attentions, 0);
    EXPECT(uda50_attach(&other, 0, &images[2], false), UDA50_OK);
    EXPECT(state_of(&other).attentions, 1);
    give_response(3);
    EXPECT(uda50_turn(&other, memory, SIZE), UDA50_NOTIFIED);
    EXPECT(state_of(&other).attentions, 0);
    EXPECT(get16(response_at(3) + 4), 4);
    EXPECT(memory[response_at(3) + 8], 0x40);
    EXPECT(uda50_free(&other, images), UDA50_OK);
}

/* The name in a media type identifier: two or three letters of 5 bits, and a number of 7. */
static const char *name_in(uint32_t media)
{
    static char name[8];
    int length = 0;

    for (int at = 17; at >= 7; at -= 5)
        if ((media >> at & 31) != 0)
            name[length++] = (char)('A' - 1 + (media >> at & 31));
    snprintf(name + length, sizeof name - (size_t)length, "%u", (unsigned)(media & 127));
    return name;
}

/* The rows of UDA50_DRIVE_TYPES: a unit of each number reports a media type with the name of that row. */
static void drive_types(void)
{
#define ROW_OF(name, number, blocks) { #name, number },
    static const struct {
        const char *name;
        uint32_t number;
    } rows[] = { UDA50_DRIVE_TYPES(ROW_OF) };
    uda50 other = { 0 };
    uda50_image images[UDA50_UNITS] = { { NULL, 0 } };
    uint32_t count = 0;

    EXPECT(uda50_new(&other, true), UDA50_OK);
    EXPECT(status_of(&other, (command){ SET_CONTROLLER, 0, 1, 0, 0 }), 0);
    for (; count < sizeof rows / sizeof rows[0]; count++) {
        uint32_t at = response_at((count + 1) % RESPONSES) + 28;

        EXPECT(uda50_set_type(&other, 1, rows[count].number), UDA50_OK);
        EXPECT(status_of(&other, (command){ GET_UNIT_STATUS, 1, 2, 0, 0 }), 0x0023);
        EXPECT(strcmp(name_in(get16(at) | get16(at + 2) << 16), rows[count].name), 0);
    }
    EXPECT(count, UDA50_DRIVE_TYPE_COUNT);
    EXPECT(uda50_free(&other, images), UDA50_OK);
}

static void expect_unit(uda50 *of, uint32_t unit, uda50_unit wanted, int line)
{
    uda50_unit info;

    memset(&info, 0x5a, sizeof info);
    info.size = sizeof info;
    EXPECT(uda50_get_unit(of, unit, &info), UDA50_OK);
    expect(info.blocks, wanted.blocks, "blocks", line);
    expect(info.drive_type, wanted.drive_type, "drive_type", line);
    expect(info.attached, wanted.attached, "attached", line);
    expect(info.called, wanted.called, "called", line);
    expect(info.online, wanted.online, "online", line);
    expect(info.write_protected, wanted.write_protected, "write_protected", line);
    expect(info.soft_protected, wanted.soft_protected, "soft_protected", line);
}

#define EXPECT_UNIT(of, unit, ...) expect_unit(&of, unit, (uda50_unit){ __VA_ARGS__ }, __LINE__)

/* The state of units: without an image, with one, of another type, online, software-protected, and called. */
static void units(void)
{
    uda50 other = { 0 };
    uda50_image images[UDA50_UNITS] = { { NULL, 0 } }, one = { disks[1], 3 * BLOCK }, two = { disks[2], 5 * BLOCK };

    EXPECT(uda50_new(&other, true), UDA50_OK);
    EXPECT(uda50_set_type(&other, 0, UDA50_RD54), UDA50_OK);
    EXPECT(uda50_set_type(&other, 2, UDA50_RRD40), UDA50_OK);
    EXPECT_UNIT(other, 0, .drive_type = UDA50_RD54);
    EXPECT_UNIT(other, 1, .drive_type = UDA50_RA81);
    EXPECT(uda50_attach(&other, 1, &one, false), UDA50_OK);
    EXPECT(uda50_attach(&other, 2, &two, false), UDA50_OK);
    EXPECT_UNIT(other, 1, .blocks = 3, .drive_type = UDA50_RA81, .attached = 1);
    EXPECT_UNIT(other, 2, .blocks = 5, .drive_type = UDA50_RRD40, .attached = 1, .write_protected = 1);
    EXPECT(uda50_set_protected(&other, 2, false), UDA50_OK); /* the type is read-only */
    EXPECT_UNIT(other, 2, .blocks = 5, .drive_type = UDA50_RRD40, .attached = 1, .write_protected = 1);
    EXPECT(status_of(&other, (command){ SET_CONTROLLER, 0, 1, 0, 0 }), 0);
    EXPECT(status_of(&other, (command){ ONLINE, 1, 2, 0, 0 }), 0);
    EXPECT_UNIT(other, 1, .blocks = 3, .drive_type = UDA50_RA81, .attached = 1, .online = 1);
    EXPECT_UNIT(other, 2, .blocks = 5, .drive_type = UDA50_RRD40, .attached = 1, .write_protected = 1);
    start(&other);
    give_response(0);
    post(0, (command){ ONLINE, 1, 1, 0, 0 });
    put16(command_at(0) + 10, 4); /* with software write protection */
    put16(command_at(0) + 14, 0x1000);
    uda50_read_ip(&other);
    EXPECT(uda50_run(&other, 100, memory, SIZE), UDA50_IDLE);
    EXPECT_UNIT(other, 1, .blocks = 3, .drive_type = UDA50_RA81, .attached = 1, .online = 1, .soft_protected = 1);
    EXPECT(uda50_set_protected(&other, 1, true), UDA50_OK);
    EXPECT_UNIT(other, 1, .blocks = 3, .drive_type = UDA50_RA81, .attached = 1, .online = 1, .write_protected = 1,
                .soft_protected = 1);
    EXPECT(uda50_attach_called(&other, 3, 77, true), UDA50_OK);
    EXPECT_UNIT(other, 3, .blocks = 77, .drive_type = UDA50_RA81, .attached = 1, .called = 1, .write_protected = 1);
    EXPECT(uda50_set_protected(&other, 3, false), UDA50_OK);
    EXPECT_UNIT(other, 3, .blocks = 77, .drive_type = UDA50_RA81, .attached = 1, .called = 1);
    EXPECT(uda50_run(&other, 1, memory, SIZE), UDA50_OTHER_KIND);
    EXPECT(uda50_detach(&other, 1, &images[1]), UDA50_OK);
    EXPECT(images[1].at == disks[1] && images[1].length == 3 * BLOCK, true);
    EXPECT(uda50_run(&other, 1, memory, SIZE), UDA50_OTHER_KIND); /* unit 3 has a called image still */
    images[1] = (uda50_image){ NULL, 0 };
    EXPECT_UNIT(other, 1, .drive_type = UDA50_RA81);
    EXPECT(uda50_free(&other, images), UDA50_OK);
    two = images[2];
    images[2] = (uda50_image){ NULL, 0 };
    EXPECT(uda50_new(&other, false), UDA50_OK); /* a strict controller has no read-only type */
    EXPECT(uda50_set_type(&other, 2, UDA50_RRD40), UDA50_OK);
    EXPECT(uda50_attach(&other, 2, &two, true), UDA50_OK);
    EXPECT(uda50_set_protected(&other, 2, false), UDA50_OK);
    EXPECT_UNIT(other, 2, .blocks = 5, .drive_type = UDA50_RRD40, .attached = 1);
    EXPECT(uda50_free(&other, images), UDA50_OK);
}

/* The button of a unit that is online: the guest's Writes fail while it is on. An injected failure stays. */
static void button(void)
{
    static const command write = { WRITE, 1, 4, BLOCK, 6 };
    uda50 other = { 0 };
    uda50_image images[UDA50_UNITS] = { { NULL, 0 } }, image = { disks[1], sizeof disks[1] };

    EXPECT(uda50_new(&other, true), UDA50_OK);
    EXPECT(uda50_attach(&other, 1, &image, false), UDA50_OK);
    EXPECT(status_of(&other, (command){ SET_CONTROLLER, 0, 1, 0, 0 }), 0);
    EXPECT(status_of(&other, (command){ ONLINE, 1, 2, 0, 0 }), 0);
    EXPECT(status_of(&other, write), 0);
    EXPECT(uda50_inject_failure(&other, 1, 2), UDA50_OK);
    EXPECT(uda50_set_protected(&other, 1, true), UDA50_OK);
    memset(memory + BUFFER, 'x', BLOCK);
    EXPECT(status_of(&other, write), 0x2006);
    EXPECT(disks[1][6 * BLOCK] == 'x', false);
    EXPECT(status_of(&other, (command){ GET_UNIT_STATUS, 1, 5, 0, 0 }), 0);
    EXPECT(get16(response_at(0) + 14) & 0x2000, 0x2000);
    EXPECT(uda50_set_protected(&other, 1, false), UDA50_OK);
    EXPECT(status_of(&other, write), 0);
    EXPECT(disks[1][6 * BLOCK], 'x');
    EXPECT(status_of(&other, write), 0x0b);
    EXPECT(uda50_free(&other, images), UDA50_OK);
    EXPECT(images[1].at == disks[1] && images[1].length == sizeof disks[1], true);
}

int main(void)
{
    uda50_image one = { disks[1], sizeof disks[1] }, two = { disks[2], sizeof disks[2] };

    for (size_t i = 0; i < sizeof disks[2]; i++)
        disks[2][i] = (uint8_t)(i / BLOCK + 1);
    EXPECT(uda50_new(&uda, true), UDA50_OK);
    EXPECT(uda50_attach(&uda, 1, &one, false), UDA50_OK);
    EXPECT(uda50_attach(&uda, 2, &two, true), UDA50_OK);
    rings();
    one_command();
    transfers();
    death();
    arguments();
    identity();
    drive_types();
    units();
    button();
    return ended();
}
