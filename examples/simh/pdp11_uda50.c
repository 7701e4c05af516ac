/* pdp11_uda50.c: the controller of uda50.h as the devices RQ, RQB, RQC and RQD of SIMH 3.8, in place of SIMH's own: of
   its PDP-11, and of its VAX, a MicroVAX 3900.

   The library does what a controller does. For each of the four devices this file has the two registers, four units,
   the steps of the start-up and the port's turns as timed events, the interrupts, the guest's memory, and the state that
   SIMH saves and restores.

   A unit's file is read and written by SIMH's own calls, as RQ's is. So an I/O error of the host is a drive error of the
   guest, and stops the simulator. After SET RQn MMAP the file is mapped into memory instead.

   The library works in the memory as SIMH keeps it: an array of words or longwords of the host's own order, so the host
   must be little-endian. While the UNIBUS map of a PDP-11 is on, and on a VAX always, it goes through the map. */
#if defined(VM_VAX)
#include "vax_defs.h"
#else
#include "pdp11_defs.h"
#endif
#include "uda50_file.h"
#include "uda50_machine.h"

#include <errno.h>
#include <sys/file.h>

#if !defined(__BYTE_ORDER__) || __BYTE_ORDER__ != __ORDER_LITTLE_ENDIAN__
#error "the guest's memory is lent as bytes: a little-endian host is needed"
#endif

enum { CONTROLLERS = 4, UNITS = 4, BLOCK = 512, LINE = 96 };

/* Sizes of RAUSER in blocks, as RQ has them: the smallest, what is above the largest, and a megabyte. */
enum { USER_MIN = 10000, USER_LIMIT = sizeof(t_addr) > 4 ? 2000000000 : 4000000, MEGABYTE = 1954 };

/* After its drives a device has units for events: of turns, of a word for SA, and of attention messages. The memory of
   one more unit is the controller's saved state. */
#define TURNS(it) ((it)->device->units + UNITS)
#define STEP(it) ((it)->device->units + UNITS + 1)
#define TICK(it) ((it)->device->units + UNITS + 2)
#define STATE(it) ((it)->device->units + UNITS + 3)
#define UNIT_LOCKED (1u << UNIT_V_UF)
#define UNIT_MMAP (1u << (UNIT_V_UF + 1))
#define drive_type u3
#define controller_number u4

extern int32 int_req[IPL_HLVL];
extern int32 tmr_poll, clk_tps;
extern UNIT cpu_unit;
extern FILE *sim_deb;
extern int32 sim_switches;

DEVICE rq_dev, rqb_dev, rqc_dev, rqd_dev;

t_stat rq_rd(int32 *data, int32 address, int32 access);
t_stat rq_wr(int32 data, int32 address, int32 access);
t_stat rq_turn(UNIT *unit);
t_stat rq_step(UNIT *unit);
t_stat rq_tick(UNIT *unit);
t_stat rq_examine(t_value *value, t_addr address, UNIT *unit, int32 switches);
t_stat rq_deposit(t_value value, t_addr address, UNIT *unit, int32 switches);
t_stat rq_reset(DEVICE *device);
t_stat rq_boot(int32 number, DEVICE *device);
t_stat rq_attach(UNIT *unit, char *path);
t_stat rq_detach(UNIT *unit);
t_stat rq_set_type(UNIT *unit, int32 type, char *text, void *desc);
t_stat rq_show_type(FILE *to, UNIT *unit, int32 value, void *desc);
t_stat rq_set_lock(UNIT *unit, int32 locked, char *text, void *desc);
t_stat rq_show_lock(FILE *to, UNIT *unit, int32 value, void *desc);
t_stat rq_set_mmap(UNIT *unit, int32 mapped, char *text, void *desc);
t_stat rq_show_mmap(FILE *to, UNIT *unit, int32 value, void *desc);
t_stat rq_show_rings(FILE *to, UNIT *unit, int32 value, void *desc);
int32 rq_acknowledge(void);

typedef struct {
    DIB dib; /* a device's context, and so the way from the device to its controller */
    DEVICE *device;
    uda50 uda;
    uint32 bus;
    uda50_file files[UNITS];    /* those that are mapped */
    uda50_called images[UNITS]; /* those that are read and written by calls */
    t_stat error;  /* of such a call since the last event */
    int32 word;    /* was written to SA: the library gets it at an event */
    int32 request; /* for an interrupt: the processor hasn't granted it yet */
    uint8 state[UDA50_STATE_LENGTH]; /* while SIMH saves or restores */
} controller;

#define REGISTERS(address, length) {address, length, &rq_rd, &rq_wr, 1, IVCL(RQ), 0, {&rq_acknowledge}}
static controller controllers[CONTROLLERS] = {
    {.dib = REGISTERS(IOBA_RQ, IOLN_RQ), .device = &rq_dev},
    {.dib = REGISTERS(IOBA_RQB, IOLN_RQB), .device = &rqb_dev},
    {.dib = REGISTERS(IOBA_RQC, IOLN_RQC), .device = &rqc_dev},
    {.dib = REGISTERS(IOBA_RQD, IOLN_RQD), .device = &rqd_dev},
};

/* The usual sizes of the drive types in blocks. */
#define BLOCKS_OF(name, number, blocks) BLOCKS_##name = blocks,
enum { UDA50_DRIVE_TYPES(BLOCKS_OF) };

/* The drive types by the library's numbers. After them SIMH's RAUSER, an RA82 with as many blocks as the user says. */
enum { RAUSER = UDA50_DRIVE_TYPE_COUNT };
#define ROW_OF(name, number, blocks) [number] = {#name, blocks},
static struct {
    const char *name;
    uint32 blocks;
} types[] = {
    UDA50_DRIVE_TYPES(ROW_OF)
    [RAUSER] = {"RAUSER", BLOCKS_RA82},
};

/* Events of the simulator before a step of the start-up and before the last one, as RQ has them. */
static int32 rq_itime = 200, rq_itime4 = 10;

/* Events of the simulator between an event and the next one, and after an event whose last turn executed a command, as
   RQ has them; how many turns an event has. A command takes three, so with four the commands of three busy units take
   about the time that they take with RQ. */
#if defined(VM_VAX)
static int32 rq_qtime = 100, rq_xtime = 200, rq_turns = 4;
#else
static int32 rq_qtime = 200, rq_xtime = 500, rq_turns = 4;
#endif

#if defined(VM_VAX)
#define SET_ADDRESS NULL, NULL
#else
#define SET_ADDRESS "ADDRESS", &set_addr
#endif
#define TYPE(name, number) {MTAB_XTD | MTAB_VUN, number, NULL, name, &rq_set_type, NULL, NULL}
#define TYPE_OF(name, number, blocks) TYPE(#name, number),
MTAB rq_mod[] = {
    {UNIT_LOCKED, 0, NULL, "WRITEENABLED", &rq_set_lock},
    {UNIT_LOCKED, UNIT_LOCKED, NULL, "LOCKED", &rq_set_lock},
    {UNIT_MMAP, 0, NULL, "NOMMAP", &rq_set_mmap},
    {UNIT_MMAP, UNIT_MMAP, NULL, "MMAP", &rq_set_mmap},
    {MTAB_XTD | MTAB_VUN | MTAB_NMO, 0, "MMAP", NULL, NULL, &rq_show_mmap, NULL},
    {MTAB_XTD | MTAB_VDV | MTAB_NMO, 0, "RINGS", NULL, NULL, &rq_show_rings, NULL},
    {MTAB_XTD | MTAB_VUN, 0, "WRITE", NULL, NULL, &rq_show_lock, NULL},
    UDA50_DRIVE_TYPES(TYPE_OF)
    TYPE("CDROM", UDA50_RRD40),
    TYPE("RAUSER", RAUSER),
    {MTAB_XTD | MTAB_VUN, 0, "TYPE", NULL, NULL, &rq_show_type, NULL},
    {MTAB_XTD | MTAB_VDV, 004, "ADDRESS", SET_ADDRESS, &show_addr, NULL},
    {MTAB_XTD | MTAB_VDV, 0, "VECTOR", NULL, NULL, &show_vec, NULL},
    {MTAB_XTD | MTAB_VDV, 0, NULL, "AUTOCONFIGURE", &set_addr_flt, NULL, NULL},
    {0},
};

#define DRIVE(n, type)                                                                          \
    {                                                                                           \
        UDATA(NULL, UNIT_FIX + UNIT_ATTABLE + UNIT_DISABLE + UNIT_ROABLE, BLOCKS_##type * BLOCK), \
            .drive_type = UDA50_##type, .controller_number = n                                  \
    }
#define EVENT(n, call) {UDATA(&call, UNIT_DIS, 0), .controller_number = n}
#define SAVED(n) {UDATA(NULL, UNIT_FIX + UNIT_DIS, UDA50_STATE_LENGTH), .controller_number = n}
#define UNITS_OF(n, type)                                                                       \
    {                                                                                           \
        DRIVE(n, RD54), DRIVE(n, RD54), DRIVE(n, RD54), DRIVE(n, type), EVENT(n, rq_turn),      \
            EVENT(n, rq_step), EVENT(n, rq_tick), SAVED(n)                                      \
    }
#define REGISTERS_OF(n)                                                                         \
    {GRDATA(VEC, controllers[n].dib.vec, DEV_RDX, 16, 0), REG_RO},                              \
        {GRDATA(SAW, controllers[n].word, DEV_RDX, 16, 0), REG_RO},                             \
        {FLDATA(INT, controllers[n].request, 0)}
#define DEVICE_OF(n, name, units, registers, flags)                                             \
    {                                                                                           \
        name, units, registers, rq_mod, UNITS + 4, DEV_RDX, T_ADDR_W, 2, DEV_RDX, 16, &rq_examine,  \
            &rq_deposit, &rq_reset, &rq_boot, &rq_attach, &rq_detach, &controllers[n].dib,      \
            DEV_FLTA | DEV_DISABLE | DEV_UBUS | DEV_QBUS | DEV_DEBUG | (flags)                  \
    }

static UNIT rq_unit[] = UNITS_OF(0, RX50);
static UNIT rqb_unit[] = UNITS_OF(1, RD54);
static UNIT rqc_unit[] = UNITS_OF(2, RD54);
static UNIT rqd_unit[] = UNITS_OF(3, RD54);

static REG rq_reg[] = {
    REGISTERS_OF(0),
    {DRDATA(ITIME, rq_itime, 24), PV_LEFT + REG_NZ},
    {DRDATA(I4TIME, rq_itime4, 24), PV_LEFT + REG_NZ},
    {DRDATA(QTIME, rq_qtime, 24), PV_LEFT + REG_NZ},
    {DRDATA(XTIME, rq_xtime, 24), PV_LEFT + REG_NZ},
    {DRDATA(TURNS, rq_turns, 16), PV_LEFT + REG_NZ},
    {NULL},
};
static REG rqb_reg[] = {REGISTERS_OF(1), {NULL}};
static REG rqc_reg[] = {REGISTERS_OF(2), {NULL}};
static REG rqd_reg[] = {REGISTERS_OF(3), {NULL}};

DEVICE rq_dev = DEVICE_OF(0, "RQ", rq_unit, rq_reg, 0);
DEVICE rqb_dev = DEVICE_OF(1, "RQB", rqb_unit, rqb_reg, DEV_DIS);
DEVICE rqc_dev = DEVICE_OF(2, "RQC", rqc_unit, rqc_reg, DEV_DIS);
DEVICE rqd_dev = DEVICE_OF(3, "RQD", rqd_unit, rqd_reg, DEV_DIS);

static controller *of_unit(UNIT *unit)
{
    return &controllers[unit->controller_number];
}

static uint32 number_of(UNIT *unit)
{
    return (uint32)(unit - of_unit(unit)->device->units);
}

static controller *of_address(int32 address)
{
    for (controller *it = controllers; it < controllers + CONTROLLERS; it++)
        if ((uint32)address >= it->dib.ba && (uint32)address < it->dib.ba + it->dib.lnt)
            return it;
    return NULL;
}

/* The number by which a guest knows a controller's first unit: on a PDP-11 the controllers count on. */
static uint16 first_unit(controller *it)
{
#if defined(VM_VAX)
    return 0;
#else
    return (uint16)(UNITS * (it - controllers));
#endif
}

/* The guest's memory, and the registers of the map through which the bus reaches it, if the map is on. */
#if defined(VM_VAX)

enum { WINDOW = 8192 << 9 }; /* as many bytes as the bus has addresses */

extern uint32 *M;
extern int32 cq_mbr; /* where in memory the registers are */

static uint32 memory_bytes(void)
{
    return (uint32)MEMSIZE;
}

static bool find_map(uda50_map *map)
{
    *map = (uda50_map){.page = 9, .frame = 0xfffff, .valid = 0x80000000, .scale = 9};
    map->at = (uint32)cq_mbr;
    map->in_memory = 8192;
    return true;
}

#else

enum { WINDOW = 31 << 13 };

extern uint16 *M;
extern int32 ub_map[];
extern uint32 cpu_bme, cpu_opt;
extern t_addr cpu_memsize; /* without the I/O page */
extern int32 saved_PC;

static uint32 memory_bytes(void)
{
    return (uint32)cpu_memsize;
}

static bool find_map(uda50_map *map)
{
    *map = (uda50_map){.registers = (const uint32_t *)ub_map, .count = 31, .page = 13, .frame = 0x3fffff};
    return cpu_bme != 0;
}

#endif

/* Whether a unit's file is read and written by calls. */
static bool is_called(UNIT *unit)
{
    return (unit->flags & (UNIT_ATT | UNIT_MMAP)) == UNIT_ATT;
}

/* The guest's memory and a controller's files. All controllers use the window, one after the other. */
static uda50_machine machine_of(controller *it, uda50_map *map)
{
    static uint8 window[WINDOW];
    uda50_machine machine = {.size = sizeof machine, .memory = (uint8 *)M, .length = memory_bytes()};

    if (find_map(map))
        machine.map = map;
    machine.window = window;
    machine.addresses = WINDOW;
    for (int n = 0; n < UNITS; n++)
        if (is_called(it->device->units + n))
            machine.images[n] = &it->images[n];
    return machine;
}

static uint32 run(controller *it, uint32 turns)
{
    uda50_map map;
    uda50_machine machine = machine_of(it, &map);

    return uda50_machine_run(&it->uda, turns, &machine);
}

static void write_sa(controller *it, uint16 word)
{
    uda50_map map;
    uda50_machine machine = machine_of(it, &map);

    uint32 status = uda50_machine_write_sa(&it->uda, word, &machine);

    if (status != UDA50_OK)
        printf("RQ: uda50_machine_write_sa: status %u\n", status);
}

/* A processor has one request for all controllers, and asks by rq_acknowledge which of them it is. */
static void request_interrupt(controller *it)
{
    uint16_t vector;

    while (uda50_take_interrupt(&it->uda, &vector)) {
        it->request = 1;
        SET_INT(RQ);
    }
}

static void clear_request(controller *it)
{
    it->request = 0;
    CLR_INT(RQ);
    for (int n = 0; n < CONTROLLERS; n++)
        if (controllers[n].request)
            SET_INT(RQ);
}

int32 rq_acknowledge(void)
{
    for (controller *it = controllers; it < controllers + CONTROLLERS; it++)
        if (it->request) {
            clear_request(it);
            return it->dib.vec;
        }
    return 0;
}

static void wake(controller *it)
{
    if (!sim_is_active(TURNS(it)))
        sim_activate(TURNS(it), rq_qtime);
}

t_stat rq_rd(int32 *data, int32 address, int32 access)
{
    controller *it = of_address(address);

    if (it == NULL)
        return SCPE_IERR;
    if (address & 2)
        *data = uda50_read_sa(&it->uda);
    else {
        *data = uda50_read_ip(&it->uda);
        request_interrupt(it);
        wake(it);
    }
    return SCPE_OK;
}

static void begin_anew(controller *it)
{
    sim_cancel(TURNS(it));
    sim_cancel(STEP(it));
    sim_cancel(TICK(it));
    clear_request(it);
    it->dib.vec = 0;
    uda50_write_ip(&it->uda, 0);
}

/* A word for SA waits for its event, and a later one takes its place. A write to IP drops it. */
t_stat rq_wr(int32 data, int32 address, int32 access)
{
    controller *it = of_address(address);
    uda50_state state = {.size = sizeof state};

    if (it == NULL)
        return SCPE_IERR;
    if ((address & 2) == 0)
        begin_anew(it);
    else if (uda50_get_state(&it->uda, &state) == UDA50_OK) {
        it->word = data;
        sim_activate(STEP(it), state.phase == UDA50_PHASE_STEP_4 ? rq_itime4 : rq_itime);
    }
    return SCPE_OK;
}

t_stat rq_step(UNIT *unit)
{
    controller *it = of_unit(unit);
    uda50_state state = {.size = sizeof state};

    write_sa(it, (uint16)it->word);
    if (uda50_get_state(&it->uda, &state) == UDA50_OK && state.vector != 0)
        it->dib.vec = state.vector + VEC_Q;
    request_interrupt(it);
    return SCPE_OK;
}

/* One turn at a time, each with its line. */
static uint32 traced_turns(controller *it)
{
    uint32 kind = UDA50_IDLE;
    uint8_t line[LINE];

    for (int32 turn = 0; turn < rq_turns; turn++) {
        kind = run(it, 1);
        if (kind == UDA50_IDLE || kind >= UDA50_DEAD)
            break;
        if (uda50_format_last_turn(&it->uda, line, sizeof line) == UDA50_OK)
            fprintf(sim_deb, ">>%s: %s\n", it->device->name, line);
    }
    return kind;
}

/* An event: some turns; and the next one later, while something is left to do or a message waits for a descriptor. A file's
   I/O error stops the simulator, and so does missing memory. When the user continues, the turns go on. */
t_stat rq_turn(UNIT *unit)
{
    controller *it = of_unit(unit);
    uint32 kind = DEBUG_PRD(it->device) ? traced_turns(it) : run(it, (uint32)rq_turns);
    t_stat status = kind == UDA50_NO_MEMORY ? SCPE_MEM : it->error;
    uda50_state state = {.size = sizeof state};

    it->error = SCPE_OK;
    request_interrupt(it);
    if (kind == UDA50_IDLE && uda50_get_state(&it->uda, &state) == UDA50_OK && state.queued == 0)
        return status;
    if (kind < UDA50_DEAD || kind == UDA50_NO_MEMORY)
        sim_activate(unit, kind == UDA50_EXECUTED ? rq_xtime : rq_qtime);
    return status;
}

static bool is_attention_due(controller *it)
{
    uda50_state state = {.size = sizeof state};

    return uda50_get_state(&it->uda, &state) == UDA50_OK && state.phase == UDA50_PHASE_RUNNING
           && state.attentions != 0;
}

/* Takes a turn each second while an attention message is due: it may wait for a response descriptor, and the guest
   frees one by a write to its memory. */
t_stat rq_tick(UNIT *unit)
{
    controller *it = of_unit(unit);

    if (is_attention_due(it)) {
        wake(it);
        sim_activate(unit, tmr_poll * clk_tps);
    }
    return SCPE_OK;
}

static uint32 tell_type(UNIT *unit)
{
    uint32 type = unit->drive_type == RAUSER ? UDA50_RA82 : (uint32)unit->drive_type;

    return uda50_set_type(&of_unit(unit)->uda, number_of(unit), type);
}

static bool is_locked(UNIT *unit)
{
    return (unit->flags & (UNIT_RO | UNIT_LOCKED)) != 0 || unit->drive_type == UDA50_RRD40;
}

/* Gives the unit's file to the controller, if it has one. */
static uint32 tell_file(UNIT *unit)
{
    controller *it = of_unit(unit);
    uint32 number = number_of(unit);

    if (is_called(unit))
        return uda50_attach_called(&it->uda, number, unit->capac / BLOCK, is_locked(unit));
    return unit->flags & UNIT_ATT ? uda50_file_attach(&it->uda, number, &it->files[number]) : UDA50_OK;
}

/* Makes the controller, or makes it anew on another bus: the units keep their types and images. */
static t_stat make_controller(controller *it, uint32 bus)
{
    uda50_image images[UDA50_UNITS] = {{NULL, 0}};
    uint32 status;

    uda50_free(&it->uda, images);
    status = uda50_new_as(&it->uda, bus, first_unit(it));
    for (uint32 n = 0; status == UDA50_OK && n < UNITS; n++) {
        it->files[n].image = images[n];
        status = tell_type(it->device->units + n);
        if (status == UDA50_OK)
            status = tell_file(it->device->units + n);
    }
    it->bus = bus;
    return status == UDA50_OK ? SCPE_OK : SCPE_MEM;
}

t_stat rq_reset(DEVICE *device)
{
    controller *it = (controller *)device->ctxt;
    uint32 bus = UNIBUS ? UDA50_UNIBUS : UDA50_QBUS;
    t_stat status = it->uda.at == NULL || it->bus != bus ? make_controller(it, bus) : SCPE_OK;

    begin_anew(it);
    return status == SCPE_OK ? auto_config(0, 0) : status;
}

/* SAVE reads the memory of a unit that can't be attached, and RESTORE writes it after it has attached the drives. So
   the state is saved by the read of its first word, and restored by the write of its last. EXAMINE and DEPOSIT of a
   drive use its file, as for a device without these functions. */
static t_stat restore_state(controller *it)
{
    uint32 status = uda50_restore(&it->uda, it->state, sizeof it->state);

    it->bus = UNIBUS ? UDA50_UNIBUS : UDA50_QBUS;
    if (status == UDA50_OK)
        return SCPE_OK;
    printf("%s: the state can't be restored: %u\n", it->device->name, status);
    return SCPE_INCOMP;
}

static t_stat find_word(UNIT *unit, t_addr address)
{
    if ((unit->flags & (UNIT_ATTABLE | UNIT_ATT)) == UNIT_ATTABLE)
        return SCPE_UNATT;
    if (address >= unit->capac)
        return SCPE_NXM;
    return unit->flags & UNIT_ATT ? sim_fseek(unit->fileref, address & ~(t_addr)1, SEEK_SET) : SCPE_OK;
}

t_stat rq_examine(t_value *value, t_addr address, UNIT *unit, int32 switches)
{
    controller *it = of_unit(unit);
    t_stat status = find_word(unit, address);
    uint16 word = 0;

    if (status != SCPE_OK)
        return status;
    if (unit == STATE(it)) {
        if (address == 0 && uda50_save(&it->uda, it->state, sizeof it->state) != UDA50_OK)
            return SCPE_IERR;
        memcpy(&word, it->state + address, sizeof word);
    } else
        sim_fread(&word, sizeof word, 1, unit->fileref);
    *value = word;
    return SCPE_OK;
}

t_stat rq_deposit(t_value value, t_addr address, UNIT *unit, int32 switches)
{
    controller *it = of_unit(unit);
    t_stat status = find_word(unit, address);
    uint16 word = (uint16)value;

    if (status != SCPE_OK)
        return status;
    if (unit != STATE(it))
        return sim_fwrite(&word, sizeof word, 1, unit->fileref) == 1 ? SCPE_OK : SCPE_IOERR;
    memcpy(it->state + address, &word, sizeof word);
    return address + sizeof word == sizeof it->state ? restore_state(it) : SCPE_OK;
}

/* Prints what is wrong with a unit's file. If its room can't be reserved, or if it can't be cut back, errno is the
   system's reason. */
static void print_fault(UNIT *unit, int fault)
{
    bool has_reason = fault == UDA50_FILE_ROOM || fault == UDA50_FILE_CUT;
    const char *reason = has_reason ? strerror(errno) : "";

    printf("%s: %s%s%s\n", of_unit(unit)->device->name, uda50_file_text(fault), has_reason ? ": " : "", reason);
}

/* Maps a unit's file, which SIMH has attached. If it may be written, it is made as long as its drive before, and its
   room is reserved. If the file system can't reserve room, a line says so: there a full disk may end the program. If
   anything else fails, a line says so too, and the file can't be used. SIMH's own descriptor has no lock, since the
   library takes one by another descriptor. */
static bool map_file(UNIT *unit)
{
    uda50_file *file = &of_unit(unit)->files[number_of(unit)];
    int fault = is_locked(unit) ? uda50_file_open(file, unit->filename, true)
                                : uda50_file_open_longer(file, unit->filename, unit->capac);

    if (fault == UDA50_FILE_OK)
        fault = uda50_file_reserve(file);
    if (fault != UDA50_FILE_OK)
        print_fault(unit, fault);
    if (file->image.length > unit->capac)
        file->image.length = (size_t)unit->capac;
    return fault == UDA50_FILE_OK || fault == UDA50_FILE_NO_RESERVE;
}

/* Prints an I/O error as RQ does. The turn's event stops the simulator. Returns how many blocks were moved before. */
static uint32_t note_error(UNIT *unit, size_t bytes)
{
    perror("RQ I/O error");
    clearerr(unit->fileref);
    of_unit(unit)->error = SCPE_IOERR;
    return (uint32_t)(bytes / BLOCK);
}

/* Past the end of its file a drive has zeros. */
static uint32_t read_blocks(void *context, uint32_t lbn, uint32_t count, uint8_t *to)
{
    UNIT *unit = context;
    size_t found = 0;

    if (sim_fseek(unit->fileref, (t_addr)lbn * BLOCK, SEEK_SET) != 0)
        return note_error(unit, 0);
    found = sim_fread(to, 1, count * BLOCK, unit->fileref);
    if (ferror(unit->fileref))
        return note_error(unit, found);
    memset(to + found, 0, count * BLOCK - found);
    return count;
}

static uint32_t write_blocks(void *context, uint32_t lbn, uint32_t count, const uint8_t *from)
{
    UNIT *unit = context;
    size_t written;

    if (sim_fseek(unit->fileref, (t_addr)lbn * BLOCK, SEEK_SET) != 0)
        return note_error(unit, 0);
    written = sim_fwrite((void *)from, 1, count * BLOCK, unit->fileref);
    return written < count * BLOCK ? note_error(unit, written) : count;
}

/* Prepares a unit's file, which SIMH has attached, for calls. SIMH's own descriptor takes the lock that uda50_file_open
   takes. The file has no buffer, so each call tells what failed. */
static bool call_file(UNIT *unit)
{
    if (flock(fileno(unit->fileref), (is_locked(unit) ? LOCK_SH : LOCK_EX) | LOCK_NB) != 0 && errno == EWOULDBLOCK) {
        print_fault(unit, UDA50_FILE_LOCKED);
        return false;
    }
    setvbuf(unit->fileref, NULL, _IONBF, 0);
    of_unit(unit)->images[number_of(unit)] = (uda50_called){sizeof(uda50_called), unit, read_blocks, write_blocks};
    return true;
}

/* Starts the turns that deliver an attention message, if one is due. */
static void announce(controller *it)
{
    if (!is_attention_due(it))
        return;
    wake(it);
    sim_activate(TICK(it), tmr_poll * clk_tps);
}

/* If the attach fails, the file is as long as it was, or the last line says what failed. */
t_stat rq_attach(UNIT *unit, char *path)
{
    t_stat status = attach_unit(unit, path);
    bool is_ready;

    if (status != SCPE_OK)
        return status;
    is_ready = unit->flags & UNIT_MMAP ? map_file(unit) : call_file(unit);
    if (!is_ready || tell_type(unit) != UDA50_OK || tell_file(unit) != UDA50_OK) {
        int fault = uda50_file_close_cut(&of_unit(unit)->files[number_of(unit)]);

        if (fault != UDA50_FILE_OK)
            print_fault(unit, fault);
        detach_unit(unit);
        return SCPE_OPENERR;
    }
    announce(of_unit(unit));
    return SCPE_OK;
}

t_stat rq_detach(UNIT *unit)
{
    controller *it = of_unit(unit);
    uint32 number = number_of(unit);

    if (uda50_detach(&it->uda, number, &it->files[number].image) == UDA50_OK) {
        int fault = uda50_file_close(&it->files[number]);
        if (fault != UDA50_FILE_OK)
            print_fault(unit, fault);
    }
    return detach_unit(unit);
}

/* RAUSER takes a number of megabytes or, by the switch -L, of blocks. */
t_stat rq_set_type(UNIT *unit, int32 type, char *text, void *desc)
{
    t_stat status = SCPE_OK;

    if (text != NULL && type != RAUSER)
        return SCPE_ARG;
    if (unit->flags & UNIT_ATT)
        return SCPE_ALATT;
    if (text != NULL) {
        uint32 size = sim_switches & SWMASK('L') ? 1 : MEGABYTE;
        t_value number = get_uint(text, 10, (USER_LIMIT - 1) / size, &status);

        if (status != SCPE_OK || number * size < USER_MIN)
            return SCPE_ARG;
        types[type].blocks = (uint32)number * size;
    }
    unit->drive_type = type;
    unit->capac = (t_addr)types[type].blocks * BLOCK;
    return tell_type(unit) == UDA50_OK ? SCPE_OK : SCPE_IERR;
}

t_stat rq_show_type(FILE *to, UNIT *unit, int32 value, void *desc)
{
    fprintf(to, "%s", types[unit->drive_type].name);
    return SCPE_OK;
}

t_stat rq_set_lock(UNIT *unit, int32 locked, char *text, void *desc)
{
    if (unit->drive_type == UDA50_RRD40)
        return SCPE_NOFNC;
    return unit->flags & UNIT_ATT ? SCPE_ALATT : SCPE_OK;
}

t_stat rq_show_lock(FILE *to, UNIT *unit, int32 value, void *desc)
{
    if (unit->drive_type == UDA50_RRD40)
        fprintf(to, "read only");
    else
        fprintf(to, "write %s", is_locked(unit) ? "locked" : "enabled");
    return SCPE_OK;
}

t_stat rq_set_mmap(UNIT *unit, int32 mapped, char *text, void *desc)
{
    return unit->flags & UNIT_ATT ? SCPE_ALATT : SCPE_OK;
}

t_stat rq_show_mmap(FILE *to, UNIT *unit, int32 value, void *desc)
{
    fprintf(to, unit->flags & UNIT_MMAP ? "mmap" : "no mmap");
    return SCPE_OK;
}

static void show_ring(FILE *to, const char *name, uda50_ring ring)
{
    fprintf(to, "%s ring, base = %o, index = %u, length = %u\n", name, ring.base, ring.next, ring.count);
}

t_stat rq_show_rings(FILE *to, UNIT *unit, int32 value, void *desc)
{
    uda50_state state = {.size = sizeof state};

    if (uda50_get_state(&of_unit(unit)->uda, &state) != UDA50_OK)
        return SCPE_OK;
    fprintf(to, "phase %u, SA = %06o, vector = %o, %u credits, %u pending, %u waiting\n", state.phase, state.sa,
            state.vector, state.credits, state.pending, state.queued);
    show_ring(to, "response", state.responses);
    show_ring(to, "command", state.commands);
    return SCPE_OK;
}

#if defined(VM_VAX)

/* The console ROM boots. */
t_stat rq_boot(int32 number, DEVICE *device)
{
    return SCPE_NOFNC;
}

#else

/* The bootstrap of SIMH's own RQ, which `build` takes out of its source. */
#include "rq_bootrom.h"

t_stat rq_boot(int32 number, DEVICE *device)
{
    controller *it = (controller *)device->ctxt;

    for (size_t i = 0; i < BOOT_LEN; i++)
        M[(BOOT_START >> 1) + i] = boot_rom[i];
    M[BOOT_UNIT >> 1] = (uint16)(first_unit(it) + number);
    M[BOOT_CSR >> 1] = (uint16)(it->dib.ba & DMASK);
    saved_PC = BOOT_ENTRY;
    return SCPE_OK;
}

#endif
