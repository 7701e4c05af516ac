/* pdp11_defs.h: in place of SIMH's own header as much of its PDP-11 as examples/simh/pdp11_uda50.c uses. device.c
   defines the functions. A program that is linked with it needs no part of SIMH. */
#ifndef PDP11_DEFS_H
#define PDP11_DEFS_H
#define _GNU_SOURCE /* as examples/simh/build has it */

#include <errno.h>
#include <stdint.h>
#include <stdio.h>
#include <string.h>

typedef int32_t int32;
typedef uint8_t uint8;
typedef uint16_t uint16;
typedef uint32_t uint32, t_value, t_addr;
typedef int t_stat, t_bool;

/* What the device prints at the console. */
int print_line(const char *format, ...);
#define printf print_line
#define perror(what) print_line("%s: %s\n", what, strerror(errno))

enum { SCPE_OK, SCPE_NXM = 64, SCPE_UNATT, SCPE_IOERR, SCPE_OPENERR, SCPE_MEM, SCPE_ARG, SCPE_INCOMP, SCPE_ALATT,
       SCPE_NOFNC, SCPE_IERR };

enum { UNIT_ATTABLE = 1, UNIT_RO = 2, UNIT_FIX = 4, UNIT_ATT = 16, UNIT_ROABLE = 512, UNIT_DISABLE = 1024,
       UNIT_DIS = 2048, UNIT_V_UF = 16 };

typedef struct unit {
    t_stat (*action)(struct unit *unit);
    char *filename;
    FILE *fileref;
    uint32 flags;
    t_addr capac;
    int32 u3, u4;
    int32 time; /* 0 while no event is due */
} UNIT;

#define UDATA(call, bits, bytes) .action = (call), .flags = (bits), .capac = (bytes)

typedef struct {
    const char *name;
    void *at;
    uint32 flags;
} REG;

enum { PV_LEFT = 1, REG_RO = 2, REG_NZ = 4, DEV_RDX = 8 };
#define GRDATA(name, at, radix, width, offset) #name, &(at)
#define FLDATA(name, at, offset) #name, &(at)
#define DRDATA(name, at, width) #name, &(at)

typedef struct {
    uint32 mask, match;
    const char *shown, *set;
    t_stat (*valid)(UNIT *unit, int32 value, char *text, void *desc);
    t_stat (*display)(FILE *to, UNIT *unit, int32 value, void *desc);
    void *desc;
} MTAB;

enum { MTAB_XTD = 1, MTAB_VDV = 2, MTAB_VUN = 4, MTAB_NMO = 8 };

typedef struct device {
    const char *name;
    UNIT *units;
    REG *registers;
    MTAB *modifiers;
    uint32 count, address_radix, address_width, step, radix, width;
    t_stat (*examine)(t_value *value, t_addr address, UNIT *unit, int32 switches);
    t_stat (*deposit)(t_value value, t_addr address, UNIT *unit, int32 switches);
    t_stat (*reset)(struct device *device);
    t_stat (*boot)(int32 unit, struct device *device);
    t_stat (*attach)(UNIT *unit, char *path);
    t_stat (*detach)(UNIT *unit);
    void *ctxt;
    uint32 flags;
} DEVICE;

enum { DEV_DIS = 1, DEV_FLTA = 2, DEV_DISABLE = 4, DEV_UBUS = 8, DEV_QBUS = 16, DEV_DEBUG = 32, T_ADDR_W = 32 };
#define DEBUG_PRD(device) (sim_deb != NULL)

typedef struct {
    uint32 ba, lnt;
    t_stat (*read)(int32 *data, int32 address, int32 access);
    t_stat (*write)(int32 data, int32 address, int32 access);
    int32 vectors, place, vec;
    int32 (*acknowledge[1])(void);
} DIB;

enum { IOBA_RQ = 017772150, IOBA_RQB = 017760334, IOBA_RQC = 017760340, IOBA_RQD = 017760344 };
enum { IOLN_RQ = 4, IOLN_RQB = 4, IOLN_RQC = 4, IOLN_RQD = 4, IPL_HLVL = 8, VEC_Q = 0, DMASK = 0177777 };
#define IVCL(name) 0
#define SET_INT(name) (int_req[0] = 1)
#define CLR_INT(name) (int_req[0] = 0)
#define SWMASK(letter) (1u << ((letter) - 'A'))
#define BUS_U 1u
#define UNIBUS (cpu_opt & BUS_U)

t_stat attach_unit(UNIT *unit, char *path);
t_stat detach_unit(UNIT *unit);
int32 sim_is_active(UNIT *unit);
t_stat sim_activate(UNIT *unit, int32 time);
t_stat sim_cancel(UNIT *unit);
t_stat auto_config(char *name, int32 count);
t_stat set_addr(UNIT *unit, int32 value, char *text, void *desc);
t_stat set_addr_flt(UNIT *unit, int32 value, char *text, void *desc);
t_stat show_addr(FILE *to, UNIT *unit, int32 value, void *desc);
t_stat show_vec(FILE *to, UNIT *unit, int32 value, void *desc);
t_value get_uint(char *text, uint32 radix, t_value limit, t_stat *status);

#define sim_fseek fseek
#define sim_fread fread
#define sim_fwrite fwrite

#endif
