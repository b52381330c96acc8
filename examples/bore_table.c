/*
 * Searches a bore table for the outlet's mark with the core's repeating compare, as the mill's firmware does.
 *
 *   ./build
 *   cc -I dist examples/bore_table.c dist/libtlcs900h.a -o bore_table
 *   ./bore_table
 */
#include <stdio.h>
#include <string.h>

#include "tlcs900h.h"

#define ROM_LENGTH 256
#define ROM_START (0x1000000 - ROM_LENGTH) /* ROM ends at FFFFFFH */
#define OFFSET 0x40                        /* where the table stands in ROM */
#define TABLE (ROM_START + OFFSET)

/* The bore table: one mark for each port. */
static const uint8_t marks[] = {0x11, 0x22, 0x27, 0x33, 0x41, 0x55};

/* A number in a record or an image, low byte first. */
static uint32_t get(const uint8_t *at, int bytes) {
    uint32_t value = 0;
    while (bytes-- > 0) value = value << 8 | at[bytes];
    return value;
}

static void put(uint8_t *at, int bytes, uint32_t value) {
    for (; bytes-- > 0; value >>= 8) *at++ = value & 0xFF;
}

/* The firmware: a reset vector, a search for `mark` from the address `table` on, and the table. */
static void build(uint8_t *rom, uint8_t mark, uint32_t table) {
    uint8_t *code = rom + 0x10;
    memset(rom, 0, ROM_LENGTH);
    put(rom, 4, ROM_START + 0x10); /* the reset vector, at FFFF00H */
    code[0] = 0x43;                /* LD XHL,table */
    put(code + 1, 4, table);
    code[5] = 0x31; /* LD BC,entries */
    put(code + 6, 2, sizeof marks);
    code[8] = 0x21; /* LD A,mark */
    code[9] = mark;
    code[10] = 0x83; /* CPIR A,(XHL+) */
    code[11] = 0x15;
    code[12] = 0x01; /* no listed code: the run stops here with 4 */
    memcpy(rom + OFFSET, marks, sizeof marks);
}

static void search(uint8_t mark, uint32_t table) {
    uint8_t record[TLCS900H_RECORD], ram[256] = {0}, rom[ROM_LENGTH];
    uint32_t done, at, past, zero;
    uint8_t number;

    build(rom, mark, table);
    number = tlcs900h_reset(record, sizeof record, ram, sizeof ram, rom, sizeof rom);
    if (number != TLCS900H_DONE) {
        printf("mark %02X: no reset, %u\n", mark, number);
        return;
    }
    number = tlcs900h_run(record, sizeof record, ram, sizeof ram, rom, sizeof rom, 1000, &done, &at);
    past = get(record + TLCS900H_XHL, 4) - table; /* XHL of bank 0 stands behind the last entry compared */
    zero = record[TLCS900H_F] >> 6 & 1;           /* Z: that entry was equal */
    if (number == TLCS900H_UNLISTED && zero)
        printf("mark %02X: port %u, after %u steps\n", mark, past - 1, done);
    else if (number == TLCS900H_MISSING || number == TLCS900H_TO_ROM)
        printf("mark %02X: stopped after %u steps (%s: %06X)\n", mark, done, tlcs900h_name(number), at);
    else
        printf("mark %02X: no port, after %u steps (%s)\n", mark, done, tlcs900h_name(number));
}

int main(void) {
    search(0x33, TABLE);
    search(0x11, TABLE);
    search(0x55, TABLE);
    search(0x77, TABLE);
    search(0x33, 0x800000); /* there is no memory: the run stops, and says where */
    return 0;
}
