/* rq_bootrom.h: in place of the bootstrap of SIMH's RQ, which examples/simh/build takes out of SIMH's source. */
#define BOOT_START 016000
#define BOOT_ENTRY (BOOT_START + 2)
#define BOOT_UNIT (BOOT_START + 010)
#define BOOT_CSR (BOOT_START + 014)
#define BOOT_LEN (sizeof boot_rom / sizeof *boot_rom)

static const uint16 boot_rom[16] = {0042125};
