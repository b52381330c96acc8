/*
 * A timer interrupts the firmware while it searches a bore table with the core's repeating compare. The handler counts the
 * ticks, and the search ends as it does without the timer: with its pointer just past the match.
 *
 *   ./build
 *   cc -I dist examples/timer.c dist/libtlcs900h.a -o timer
 *   ./timer
 */
#include <stdio.h>

#include "tlcs900h.h"

#define ROM_START 0xFFFF00        /* ROM has 256 bytes and ends at FFFFFFH */
#define VECTOR (ROM_START + 0x08) /* where the address of the timer's handler stands */
#define TABLE (ROM_START + 0x60)  /* where the bore table stands */
#define TICKS 0x80                /* where the handler counts, in RAM */

static const uint8_t rom[256] = {
    0x10, 0xFF, 0xFF, 0x00,          /* FFFF00: the reset vector, FFFF10H */
    [0x08] = 0x40, 0xFF, 0xFF, 0x00, /* FFFF08: the timer's vector, FFFF40H */

    /* the search */
    [0x10] = 0x30, 0x00, 0x00,    /* FFFF10: LD WA,0 */
    0xF0, 0x80, 0x50,             /* FFFF13: LD (80H),WA: no tick was counted yet */
    0x43, 0x60, 0xFF, 0xFF, 0x00, /* FFFF16: LD XHL,FFFF60H: the table */
    0x31, 0x10, 0x00,             /* FFFF1B: LD BC,16: its entries */
    0x21, 0x33,                   /* FFFF1E: LD A,33H: the mark */
    0x06, 0x03,                   /* FFFF20: EI 3: the mask, 7 after a reset, lets level 3 in from here on */
    0x83, 0x15,                   /* FFFF22: CPIR A,(XHL+) */
    0x66, 0x01,                   /* FFFF24: JR Z,FFFF27H: found */
    0x01,                         /* FFFF26: no listed code: the run stops here with 4 if there is no such mark, */
    0x01,                         /* FFFF27: and here if there is */

    /* the timer's handler: it may change no register that the search uses; SR was pushed when the tick was taken */
    [0x40] = 0x28,          /* FFFF40: PUSH WA */
    0xD0, 0x80, 0x20,       /* FFFF41: LD WA,(80H) */
    0xD8, 0xC8, 0x01, 0x00, /* FFFF44: ADD WA,1: one tick more; it changes the flags */
    0xF0, 0x80, 0x50,       /* FFFF48: LD (80H),WA */
    0x48,                   /* FFFF4B: POP WA */
    0x07,                   /* FFFF4C: RETI: the flags, the mask and the counter are those of the search again */

    /* the bore table: one mark for each port; 33H is that of port 11 */
    [0x60] = 0x11, 0x22, 0x27, 0x41, 0x55, 0x5A, 0x61, 0x68, 0x74, 0x7C, 0x2D, 0x33, 0x38, 0x49, 0x4E, 0x6B};

/* A number in a record or in RAM, low byte first. */
static uint32_t get(const uint8_t *at, int bytes) {
    uint32_t value = 0;
    while (bytes-- > 0) value = value << 8 | at[bytes];
    return value;
}

/* Searches, and offers a tick after each `every` steps. */
static void search(uint32_t every) {
    const uint32_t level = 3, vector = VECTOR;
    uint8_t record[TLCS900H_RECORD] = {0}, ram[256] = {0}, number, taken;
    uint32_t done, at, here, steps = 0, ticks[2] = {0, 0}; /* those not taken, and those taken */

    printf("a tick every %u steps\n", every);
    number = tlcs900h_reset(record, sizeof record, ram, sizeof ram, rom, sizeof rom);
    while (number == TLCS900H_DONE) {
        number = tlcs900h_run(record, sizeof record, ram, sizeof ram, rom, sizeof rom, every, &done, &at);
        steps += done;
        if (number != TLCS900H_DONE) break;
        here = get(record + TLCS900H_COUNTER, 4);
        number = tlcs900h_request(record, sizeof record, ram, sizeof ram, rom, sizeof rom, level, vector, &taken, &at);
        if (number != TLCS900H_DONE) break;
        ticks[taken]++; /* one that is not taken is lost here: a timer that may lose none offers it again */
        printf("  after %u steps, at %06X: %s, mask %u, nesting %u\n", steps, here, taken ? "taken" : "not taken",
               get(record + TLCS900H_SR, 2) >> 12 & 7, get(record + TLCS900H_NESTING, 2));
    }

    printf("  stopped after %u steps at %06X (%s): ", steps, get(record + TLCS900H_COUNTER, 4), tlcs900h_name(number));
    if (number == TLCS900H_UNLISTED && (record[TLCS900H_F] >> 6 & 1)) /* Z: the last entry that was compared is equal, */
        printf("port %u, ", get(record + TLCS900H_XHL, 4) - TABLE - 1); /* and XHL of bank 0 stands behind it */
    else
        printf("no port, ");
    printf("XHL %06X, BC %u, A %02X\n", get(record + TLCS900H_XHL, 4), get(record + TLCS900H_XBC, 2), record[TLCS900H_A]);
    printf("  ticks taken %u, not taken %u, counted in RAM %u; nesting %u, XSP %X\n", ticks[1], ticks[0], get(ram + TICKS, 2),
           get(record + TLCS900H_NESTING, 2), get(record + TLCS900H_XSP, 4));
}

int main(void) {
    search(1000); /* the search ends before the first tick */
    search(5);    /* the third tick that is taken comes between the match and the jump that reads its Z */
    return 0;
}
