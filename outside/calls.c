/*
 * Every call of the library from C, at every length that could be wrong. All that is lent lies between bytes that the call
 * must leave alone. What is expected is written from the header and document 01. A line a group; the last line counts them.
 */
#include <stdio.h>
#include <string.h>

#include "tlcs900h.h"

#define COUNT(list) (sizeof(list) / sizeof(list)[0])

enum { GUARD = 64, SPACE = GUARD + 65537 + GUARD };

/* What is lent to a call: `length` bytes behind a guard, and guard behind them. `kept` is what it must all be afterwards. */
struct lent {
    uint8_t bytes[SPACE], kept[SPACE];
    size_t length;
    int null; /* handed over as a null pointer */
};

struct size {
    size_t length;
    int null;
};

static const struct size record_sizes[] = {{0, 1}, {0, 0}, {1, 0}, {88, 0}, {91, 0}, {92, 0}, {93, 0}, {184, 0}};
static const struct size memory_sizes[] = {{0, 1}, {0, 0}, {255, 0}, {256, 0}, {65536, 0}, {65537, 0}};
static const struct size whole = {92, 0}, small = {256, 0};

static struct lent record, ram, rom;
static uint32_t word[3], kept_word;   /* `done` or `length`, between two others */
static uint32_t place[3], kept_place; /* `at`, between two others */
static uint8_t flag[3], kept_flag;    /* `taken`, between two others */
static uint8_t noise;                 /* 00H, then FFH: a byte written by mistake differs from what stood there in one of them */
static unsigned long tried, wrong;
static unsigned passed, failed;

static void lend(struct lent *l, struct size size) {
    size_t i;
    for (i = 0; i < SPACE; i++) l->bytes[i] = (uint8_t)((i * 29 + 7) ^ noise);
    l->length = size.length;
    l->null = size.null;
}

static uint8_t *at(struct lent *l) { return l->null ? NULL : l->bytes + GUARD; }

static uint8_t *kept(struct lent *l) { return l->kept + GUARD; }

/* Writes a number low byte first. */
static void put(uint8_t *to, int bytes, uint32_t value) {
    for (; bytes > 0; bytes--, value >>= 8) *to++ = (uint8_t)value;
}

/* A valid state's record: all flags 1, bank 2, level 5, F' 91H, no mark, a nesting count and registers of noise. */
static void lend_record(struct size size, uint32_t counter) {
    uint8_t *r = record.bytes + GUARD;
    lend(&record, size);
    put(r + 80, 4, counter);
    put(r + 84, 4, 0x0091DAD7);
    put(r + 90, 2, 0);
}

/* Sets down what all of it is before a call. */
static void keep(void) {
    memcpy(record.kept, record.bytes, SPACE);
    memcpy(ram.kept, ram.bytes, SPACE);
    memcpy(rom.kept, rom.bytes, SPACE);
    word[0] = word[1] = word[2] = kept_word = 0xDEADBEEF ^ noise;
    place[0] = place[1] = place[2] = kept_place = 0xDEADBEEF ^ noise;
    flag[0] = flag[1] = flag[2] = kept_flag = 0xA5 ^ noise;
}

static int same(const struct lent *l) { return memcmp(l->bytes, l->kept, SPACE) == 0; }

/* Holds the number of a call to what it should be, and all that was lent to what was kept. */
static void held(const char *call, uint8_t number, uint8_t expected) {
    uint32_t beside = 0xDEADBEEF ^ noise;
    int words = word[0] == beside && word[1] == kept_word && word[2] == beside;
    int places = place[0] == beside && place[1] == kept_place && place[2] == beside;
    int flags = flag[0] == (0xA5 ^ noise) && flag[1] == kept_flag && flag[2] == (0xA5 ^ noise);
    tried++;
    if (number == expected && same(&record) && same(&ram) && same(&rom) && words && places && flags) return;
    if (wrong++ >= 5) return;
    printf("%s: record %lu, RAM %lu, ROM %lu bytes: number %u, to be %u; count %lu, to be %lu; ", call, (unsigned long)record.length,
           (unsigned long)ram.length, (unsigned long)rom.length, number, expected, (unsigned long)word[1], (unsigned long)kept_word);
    printf("at %lX, to be %lX; taken %u, to be %u; record %s, RAM %s, ROM %s\n", (unsigned long)place[1], (unsigned long)kept_place,
           flag[1], kept_flag, same(&record) ? "right" : "wrong", same(&ram) ? "right" : "wrong", same(&rom) ? "right" : "wrong");
}

static uint8_t reset(void) {
    return tlcs900h_reset(at(&record), record.length, at(&ram), ram.length, at(&rom), rom.length);
}

/* A step and a run write `at`: this address, which does not stand there before; 0 where none is named. */
static uint8_t step_to(uint32_t address) {
    kept_place = address;
    place[1] = ~address;
    return tlcs900h_step(at(&record), record.length, at(&ram), ram.length, at(&rom), rom.length, &place[1]);
}

static uint8_t step(void) { return step_to(0); }

static uint8_t run_to(uint32_t steps, uint32_t address) {
    kept_place = address;
    place[1] = ~address;
    return tlcs900h_run(at(&record), record.length, at(&ram), ram.length, at(&rom), rom.length, steps, &word[1], &place[1]);
}

static uint8_t run(uint32_t steps) { return run_to(steps, 0); }

static uint8_t show(uint32_t address) {
    return tlcs900h_show(at(&ram), ram.length, at(&rom), rom.length, address, &word[1]);
}

/* A request writes `taken` and `at`: these, which do not stand there before. */
static uint8_t request_to(uint32_t level, uint32_t vector, uint8_t taken, uint32_t address) {
    kept_flag = taken;
    flag[1] = (uint8_t)~taken;
    kept_place = address;
    place[1] = ~address;
    return tlcs900h_request(at(&record), record.length, at(&ram), ram.length, at(&rom), rom.length, level, vector, &flag[1], &place[1]);
}

/* A record is moved from where records stand to where RAM otherwise stands. */
static uint8_t widen(void) { return tlcs900h_widen(at(&record), record.length, at(&ram), ram.length); }

static uint8_t narrow(void) { return tlcs900h_narrow(at(&record), record.length, at(&ram), ram.length); }

static int too_long(void) { return ram.length > 65536 || rom.length > 65536; }

/* Does a thing for every length of the record and of both memories. */
static void every_length(void (*each)(struct size)) {
    size_t i, j, k;
    for (i = 0; i < COUNT(record_sizes); i++)
        for (j = 0; j < COUNT(memory_sizes); j++)
            for (k = 0; k < COUNT(memory_sizes); k++) {
                lend(&ram, memory_sizes[j]);
                lend(&rom, memory_sizes[k]);
                each(record_sizes[i]);
            }
}

/* ---- the header's constants and names */
static void same_number(unsigned long is, unsigned long expected) {
    tried++;
    if (is == expected) return;
    wrong++;
    printf("a constant is %lu, to be %lu\n", is, expected);
}

static void constants(void) {
    same_number(TLCS900H_VERSION_MAJOR, 3);
    same_number(TLCS900H_VERSION_MINOR, 4);
    same_number(TLCS900H_RECORD, 92);
    same_number(TLCS900H_OLD_RECORD, 88);
    same_number(TLCS900H_MEMORY, 65536);
    same_number(TLCS900H_LEAST_ROM, 256);
    same_number(TLCS900H_MOST_STEPS, 1000000);
    same_number(TLCS900H_XIX, 64);
    same_number(TLCS900H_XIY, 68);
    same_number(TLCS900H_XIZ, 72);
    same_number(TLCS900H_XSP, 76);
    same_number(TLCS900H_COUNTER, 80);
    same_number(TLCS900H_SR, 84);
    same_number(TLCS900H_F, 84);
    same_number(TLCS900H_BANK, 85);
    same_number(TLCS900H_F_PRIME, 86);
    same_number(TLCS900H_NESTING, 88);
    same_number(TLCS900H_MARKS, 90);
    same_number(TLCS900H_MARK_H, 1);
    same_number(TLCS900H_MARK_V, 2);
}

/* The registers of bank 0, in the record's order, and the distance to the next bank. */
static void bank_constants(void) {
    same_number(TLCS900H_XWA, 0);
    same_number(TLCS900H_A, 0);
    same_number(TLCS900H_W, 1);
    same_number(TLCS900H_XBC, 4);
    same_number(TLCS900H_C, 4);
    same_number(TLCS900H_B, 5);
    same_number(TLCS900H_XDE, 8);
    same_number(TLCS900H_E, 8);
    same_number(TLCS900H_D, 9);
    same_number(TLCS900H_XHL, 12);
    same_number(TLCS900H_L, 12);
    same_number(TLCS900H_H, 13);
    same_number(TLCS900H_BANK_SIZE, 16);
}

static void same_name(unsigned long is, unsigned long expected, const char *name) {
    same_number(is, expected);
    tried++;
    if (strcmp(tlcs900h_name((uint8_t)is), name) == 0) return;
    wrong++;
    printf("%lu is called '%s', to be '%s'\n", is, tlcs900h_name((uint8_t)is), name);
}

static void numbers(void) {
    same_name(TLCS900H_DONE, 0, "done");
    same_name(TLCS900H_TOO_LONG, 1, "memory too long");
    same_name(TLCS900H_INVALID, 2, "not valid");
    same_name(TLCS900H_NO_CODE, 3, "no code there");
    same_name(TLCS900H_UNLISTED, 4, "code not listed");
    same_name(TLCS900H_MISSING, 5, "operand missing");
    same_name(TLCS900H_TO_ROM, 6, "store to ROM");
    same_name(TLCS900H_TOO_MANY, 7, "too many steps");
    same_name(TLCS900H_UNDEFINED, 8, "undefined flag");
    same_name(TLCS900H_BAD_REQUEST, 9, "bad request");
    same_name(TLCS900H_NO_OLD_FORM, 10, "no old form");
    same_name(11, 11, "no such number");
    same_name(255, 255, "no such number");
}

/* ---- reset: 1, then 5, then 2 */
static void reset_once(struct size size) {
    uint8_t number;
    lend(&record, size);
    if (rom.length >= 256) put(rom.bytes + GUARD + rom.length - 256, 4, 0xFF543210); /* the vector, at FFFF00H */
    keep();
    number = too_long() ? 1 : rom.length < 256 ? 5 : size.length != 92 ? 2 : 0;
    if (number == 0) {
        memset(kept(&record), 0, 92); /* no mark is left, and no count */
        put(kept(&record) + 76, 4, 0x100);
        put(kept(&record) + 80, 4, 0x543210);
        put(kept(&record) + 84, 2, 0xF800);
    }
    held("reset", reset(), number);
}

static void resets(void) { every_length(reset_once); }

/* ---- one step of NOP, at the first address and at the last: 1, then 2, then 3 */
static void step_at(struct size size, uint32_t counter, int broken) {
    uint8_t number;
    lend_record(size, counter);
    if (broken) record.bytes[GUARD + 87] = 1;
    if (ram.length > 0) ram.bytes[GUARD] = 0;
    if (rom.length > 0) rom.bytes[GUARD + rom.length - 1] = 0;
    keep();
    number = too_long() ? 1 : size.length != 92 || broken ? 2 : (counter == 0 ? ram.length : rom.length) == 0 ? 3 : 0;
    if (number == 0) put(kept(&record) + 80, 4, (counter + 1) % 0x1000000);
    held("step", step(), number);
}

static void step_once(struct size size) {
    step_at(size, 0, 0);
    step_at(size, 0xFFFFFF, 0);
    step_at(size, 0, 1);
}

static void steps(void) { every_length(step_once); }

/* ---- runs over a RAM of NOPs: 7, then 1, then 2, then 3 behind the last of them */
static void run_for(struct size size, uint32_t steps, int broken) {
    uint8_t number;
    lend_record(size, 0);
    if (broken) record.bytes[GUARD + 85] |= 4;
    memset(ram.bytes + GUARD, 0, ram.length);
    keep();
    number = steps > 1000000 ? 7 : too_long() ? 1 : size.length != 92 || broken ? 2 : steps > ram.length ? 3 : 0;
    kept_word = 0;
    if (number == 0 || number == 3) {
        kept_word = steps > ram.length ? (uint32_t)ram.length : steps;
        put(kept(&record) + 80, 4, kept_word);
    }
    held("run", run(steps), number);
}

static void run_once(struct size size) {
    static const uint32_t asked[] = {0, 1, 255, 256, 257, 1000000, 1000001, 0xFFFFFFFF};
    size_t i;
    for (i = 0; i < COUNT(asked); i++) {
        run_for(size, asked[i], 0);
        run_for(size, asked[i], 1);
    }
}

static void runs(void) { every_length(run_once); }

/* ---- show over memories of NOPs: 1, then 2, then 3 */
static void show_once(struct size size) {
    static const uint32_t places[] = {0,        254,      255,      256,      65535,    65536,     0xFEFFFF,
                                      0xFF0000, 0xFFFEFF, 0xFFFF00, 0xFFFF01, 0xFFFFFF, 0x1000000, 0xFFFFFFFF};
    size_t i;
    lend(&record, size);
    memset(ram.bytes + GUARD, 0, ram.length);
    memset(rom.bytes + GUARD, 0, rom.length);
    for (i = 0; i < COUNT(places); i++) {
        int there = places[i] < ram.length || places[i] >= 0x1000000 - rom.length;
        uint8_t number = too_long() ? 1 : places[i] >= 0x1000000 ? 2 : there ? 0 : 3;
        keep();
        kept_word = number == 0;
        held("show", show(places[i]), number);
    }
}

static void shows(void) { every_length(show_once); }

/* ---- requests: 1, then 2, then 9, then whether it is taken, then 5 for the vector, then 5 or 6 for the stack, which ends with RAM */
static uint8_t wanted_of(uint32_t level, uint32_t vector, int valid, uint32_t *address) {
    size_t length = vector == 0 ? ram.length : rom.length; /* of where the vector is */
    *address = 0;
    if (too_long()) return 1;
    if (!valid) return 2;
    if (level < 1 || level > 7 || vector >= 0x1000000) return 9;
    if (level < 5) return 0; /* the mask is 5 */
    *address = vector;
    if (length == 0) return 5;
    *address = 0xFFFFFA;
    if (ram.length == 0) return rom.length == 0 ? 5 : 6;
    *address = 0;
    return 0;
}

static void request_at(struct size size, uint32_t level, uint32_t vector, int broken) {
    uint32_t address, stack = (uint32_t)ram.length;
    uint8_t number, taken;
    lend_record(size, 0x123456);
    put(record.bytes + GUARD + 76, 4, stack);
    put(record.bytes + GUARD + TLCS900H_NESTING, 2, 0xFFFF);
    if (broken) record.bytes[GUARD + 91] = 1;
    if (ram.length > 0) put(ram.bytes + GUARD, 4, 0x99ABCDEF);
    if (rom.length > 0) put(rom.bytes + GUARD + rom.length - 4, 4, 0x99ABCDEF);
    keep();
    number = wanted_of(level, vector, size.length == 92 && !broken, &address);
    taken = number == 0 && level >= 5;
    if (taken) {
        put(kept(&ram) + stack - 6, 2, 0xDAD7);
        put(kept(&ram) + stack - 4, 4, 0x123456);
        put(kept(&record) + 76, 4, stack - 6);
        put(kept(&record) + 80, 4, 0xABCDEF);
        kept(&record)[85] = (uint8_t)((kept(&record)[85] & 0x8F) | (level == 7 ? 7 : level + 1) << 4);
        put(kept(&record) + TLCS900H_NESTING, 2, 0);
    }
    held("request", request_to(level, vector, taken, address), number);
}

static void request_once(struct size size) {
    static const uint32_t levels[] = {7, 6, 5, 4, 0, 8, 257};
    size_t i;
    for (i = 0; i < COUNT(levels); i++) request_at(size, levels[i], i % 2 ? 0 : 0xFFFFFC, 0);
    request_at(size, 7, 0, 0);
    request_at(size, 7, 0x1000000, 0);
    request_at(size, 7, 0, 1);
    request_at(size, 0, 0xFFFFFFFF, 1);
}

static void requests(void) { every_length(request_once); }

/* ---- instructions of 1 to 7 bytes, whole or cut off by the end of their memory; and codes that are not listed */
struct code {
    uint8_t length, bytes[7];
};

static void show_end(struct lent *memory, uint32_t end, const uint8_t *bytes, uint8_t there, uint8_t number, uint8_t length) {
    lend(&ram, small);
    lend(&rom, small);
    lend(&record, whole);
    memcpy(memory->bytes + GUARD + 256 - there, bytes, there);
    keep();
    kept_word = length;
    held("show", show(end - there), number);
}

static const struct code listed[] = {{1, {0x00}},
                                     {2, {0x21, 0x05}},
                                     {2, {0x17, 0x05}},
                                     {2, {0x17, 0x07}},
                                     {2, {0x06, 0x00}},
                                     {2, {0x06, 0x07}},
                                     {1, {0x02}},
                                     {1, {0x03}},
                                     {1, {0x07}},
                                     {3, {0x31, 0x34, 0x12}},
                                     {4, {0x1D, 0x10, 0x20, 0x30}},
                                     {5, {0x43, 0x78, 0x56, 0x34, 0x12}},
                                     {6, {0xE8, 0xC8, 0x78, 0x56, 0x34, 0x12}},
                                     {3, {0xC7, 0x20, 0x61}},
                                     {3, {0xD7, 0xD2, 0x12}},
                                     {4, {0xC7, 0x3F, 0xC8, 0x5A}},
                                     {4, {0xE7, 0xFC, 0xEC, 0x0F}},
                                     {5, {0xD7, 0xEE, 0xCF, 0x34, 0x12}},
                                     {7, {0xE7, 0x20, 0xC8, 0x78, 0x56, 0x34, 0x12}},
                                     {2, {0xC8, 0x41}},
                                     {2, {0xDF, 0x5F}},
                                     {3, {0xC9, 0x08, 0x5A}},
                                     {4, {0xDF, 0x0B, 0x34, 0x12}},
                                     {4, {0xD8, 0x38, 0x01, 0x00}},
                                     {4, {0xDF, 0x3E, 0xFC, 0x7F}},
                                     {3, {0xC7, 0x21, 0x47}},
                                     {3, {0xD7, 0x22, 0x50}},
                                     {4, {0xC7, 0xF0, 0x0A, 0x5A}},
                                     {5, {0xD7, 0x3C, 0x09, 0x34, 0x12}},
                                     {5, {0xD7, 0x22, 0x3D, 0x06, 0x00}}};
static const struct code unlisted[] = {{1, {0x01}},
                                       {1, {0x04}},
                                       {1, {0x05}},
                                       {1, {0x2F}},
                                       {2, {0x17, 0x08}},
                                       {2, {0x06, 0x08}},
                                       {2, {0x06, 0xFF}},
                                       {3, {0xC9, 0xEC, 0x10}},
                                       {2, {0xC7, 0x40}},
                                       {2, {0xD7, 0x21}},
                                       {2, {0xE7, 0x22}},
                                       {3, {0xC7, 0x20, 0x12}},
                                       {3, {0xE7, 0x20, 0x20}},
                                       {4, {0xD7, 0x20, 0xEC, 0x10}},
                                       {2, {0xC8, 0x08}},
                                       {2, {0xC9, 0x40}},
                                       {2, {0xE8, 0x40}},
                                       {2, {0xE8, 0x0B}},
                                       {2, {0xC9, 0x38}},
                                       {2, {0xD8, 0x3B}},
                                       {2, {0xE8, 0x3C}},
                                       {3, {0xC7, 0x21, 0x08}},
                                       {3, {0xD7, 0x22, 0x0A}},
                                       {3, {0xD8, 0x39, 0x00}},
                                       {4, {0xD8, 0x3A, 0x0C, 0x01}},
                                       {5, {0xD7, 0x22, 0x3D, 0x06, 0x01}},
                                       {2, {0x80, 0x41}},
                                       {3, {0xD0, 0x10, 0x50}}};

static void lengths(void) {
    size_t i;
    uint8_t there;
    for (i = 0; i < COUNT(listed); i++)
        for (there = 1; there <= listed[i].length; there++) {
            int cut = there < listed[i].length;
            show_end(&ram, 0x100, listed[i].bytes, there, cut ? 3 : 0, cut ? 0 : listed[i].length);
            show_end(&rom, 0x1000000, listed[i].bytes, there, cut ? 3 : 0, cut ? 0 : listed[i].length);
        }
    for (i = 0; i < COUNT(unlisted); i++)
        for (there = 1; there <= unlisted[i].length; there++) {
            show_end(&ram, 0x100, unlisted[i].bytes, there, there < unlisted[i].length ? 3 : 4, 0);
            show_end(&rom, 0x1000000, unlisted[i].bytes, there, there < unlisted[i].length ? 3 : 4, 0);
        }
}

/* ---- each refusal of an instruction leaves the record and RAM, in a step and in a run */
static void lend_code(uint32_t counter, const uint8_t *bytes, size_t length) {
    lend(&ram, small);
    lend(&rom, small);
    lend_record(whole, counter);
    memcpy(ram.bytes + GUARD, bytes, length);
}

static void refused(uint32_t counter, const uint8_t *bytes, uint8_t number, uint32_t address) {
    lend_code(counter, bytes, 6);
    keep();
    held("step", step_to(address), number);
    kept_word = 0;
    held("run", run_to(1000, address), number);
    held("run", run_to(1000, address), number); /* the same again, while nothing has changed */
}

static void refusals(void) {
    static const uint8_t unlisted[6] = {0x01};
    static const uint8_t load[6] = {0xC1, 0x00, 0x80, 0x21};          /* LD A,(8000H), where nothing is */
    static const uint8_t load_half[6] = {0xD1, 0xFF, 0x00, 0x20};     /* LD WA,(00FFH), half of it in RAM */
    static const uint8_t store[6] = {0xF1, 0x00, 0x01, 0x41};         /* LD (0100H),A, behind RAM */
    static const uint8_t store_half[6] = {0xF1, 0xFF, 0x00, 0x50};    /* LD (00FFH),WA, half of it in RAM */
    static const uint8_t store_rom[6] = {0xF2, 0x80, 0xFF, 0xFF, 0x41}; /* LD (FFFF80H),A */
    static const uint8_t add_rom[6] = {0xC2, 0x80, 0xFF, 0xFF, 0x89};   /* ADD (FFFF80H),A */
    static const uint8_t load_two[6] = {0xE1, 0xFE, 0x00, 0x20};         /* LD XWA,(00FEH), half of it in RAM */
    static const uint8_t load_top[6] = {0xE2, 0xFE, 0xFF, 0xFF, 0x20};  /* LD XWA,(FFFFFEH): two bytes of ROM, then 000000H */
    static const uint8_t load_below[6] = {0xD2, 0xFF, 0xFE, 0xFF, 0x20}; /* LD WA,(FFFEFFH), half of it in ROM */
    static const uint8_t no_byte[6] = {0xC7, 0x40, 0x61};                /* INC 1, of no register */
    static const uint8_t no_word[6] = {0xD7, 0x21, 0x61};
    static const uint8_t no_long[6] = {0xE7, 0x22, 0x61};
    refused(0x8000, unlisted, 3, 0);
    refused(0, unlisted, 4, 0);
    refused(0, no_byte, 4, 0);
    refused(0, no_word, 4, 0);
    refused(0, no_long, 4, 0);
    refused(0, load, 5, 0x8000);
    refused(0, load_half, 5, 0x100);
    refused(0, load_two, 5, 0x100);
    refused(0, load_top, 5, 0);
    refused(0, load_below, 5, 0xFFFEFF);
    refused(0, store, 5, 0x100);
    refused(0, store_half, 5, 0x100);
    refused(0, store_rom, 6, 0xFFFF80);
    refused(0, add_rom, 6, 0xFFFF80);
}

/* ---- a copy looks for its source first, and then for its target */
static void copy_refused(uint32_t source, uint32_t target, uint8_t number, uint32_t address) {
    static const uint8_t copy[6] = {0x93, 0x10}; /* LDIW (XDE+),(XHL+) */
    lend_code(0, copy, 6);
    put(record.bytes + GUARD + TLCS900H_BANK_SIZE * 2 + TLCS900H_XHL, 4, source);
    put(record.bytes + GUARD + TLCS900H_BANK_SIZE * 2 + TLCS900H_XDE, 4, target);
    keep();
    held("step", step_to(address), number);
    kept_word = 0;
    held("run", run_to(1000, address), number);
}

static void copies(void) {
    copy_refused(0x12345678, 0x80, 5, 0x345678);
    copy_refused(0x80, 0x12345678, 5, 0x345678);
    copy_refused(0x8000, 0x9000, 5, 0x8000);
    copy_refused(0x8000, 0xFFFF80, 5, 0x8000);
    copy_refused(0xFF, 0xFFFF80, 5, 0x100);
    copy_refused(0x80, 0xFF, 5, 0x100);
    copy_refused(0x80, 0xFFFF80, 6, 0xFFFF80);
    copy_refused(0xFFFFFF, 0x80, 5, 0);
}

/* ---- a done step changes what it names and the counter, and no more */
static void load_constant(uint8_t code, uint8_t bank, size_t offset, int bytes) {
    uint8_t load[6] = {0, 0x9A, 0xBC, 0xDE, 0xF1, 0};
    load[0] = code;
    lend_code(0, load, 6);
    record.bytes[GUARD + 85] = (uint8_t)(0xD8 | bank);
    keep();
    memcpy(kept(&record) + offset, load + 1, (size_t)bytes);
    put(kept(&record) + 80, 4, (uint32_t)bytes + 1);
    held("step", step(), 0);
}

/* The eight bytes, words and longs, in document 01's order, in each bank. */
static void registers(void) {
    static const size_t byte_at[8] = {TLCS900H_W, TLCS900H_A, TLCS900H_B, TLCS900H_C,
                                      TLCS900H_D, TLCS900H_E, TLCS900H_H, TLCS900H_L};
    static const size_t long_at[8] = {TLCS900H_XWA, TLCS900H_XBC, TLCS900H_XDE, TLCS900H_XHL,
                                      TLCS900H_XIX, TLCS900H_XIY, TLCS900H_XIZ, TLCS900H_XSP};
    uint8_t r, bank;
    for (bank = 0; bank < 4; bank++)
        for (r = 0; r < 8; r++) {
            size_t from = (size_t)TLCS900H_BANK_SIZE * bank, shared = r < 4 ? from : 0;
            load_constant((uint8_t)(0x20 + r), bank, from + byte_at[r], 1);
            load_constant((uint8_t)(0x30 + r), bank, shared + long_at[r], 2);
            load_constant((uint8_t)(0x40 + r), bank, shared + long_at[r], 4);
        }
}

static void changes(void) {
    static const uint8_t store[6] = {0xF1, 0x10, 0x00, 0x60}; /* LD (0010H),XWA, of bank 2 */
    static const uint8_t swap[6] = {0x16};                    /* EX F,F' */
    uint8_t ldf[6] = {0x17};                                  /* LDF, with each number */
    lend_code(0, store, 6);
    keep();
    memcpy(kept(&ram) + 0x10, kept(&record) + 32, 4);
    put(kept(&record) + 80, 4, 4);
    held("step", step(), 0);
    lend_code(0, swap, 6);
    keep();
    put(kept(&record) + 80, 4, 1);
    put(kept(&record) + 84, 4, 0x00D7DA91);
    held("step", step(), 0);
    for (ldf[1] = 0; ldf[1] < 8; ldf[1]++) {
        lend_code(0, ldf, 6);
        keep();
        put(kept(&record) + 80, 4, 2);
        kept(&record)[85] = (uint8_t)(0xD8 | ldf[1] % 4);
        held("step", step(), 0);
    }
}

/* ---- C7, D7 and E7, and behind them a code byte that names a register of any bank, or none */
static void name(uint8_t *instruction, int bytes, int code) {
    instruction[0] = bytes == 1 ? 0xC7 : bytes == 2 ? 0xD7 : 0xE7;
    instruction[1] = (uint8_t)code;
}

/* Where it stands in the record, as the header says; -1 for none of so many bytes. */
static int named_at(int code, int bytes, int bank) {
    int low = code % 16;
    if (code % bytes != 0) return -1;
    if (code < 0x40) return code;
    if (code < 0xD0) return -1;
    if (code < 0xE0) return TLCS900H_BANK_SIZE * ((bank + 3) % 4) + low;
    if (code < 0xF0) return TLCS900H_BANK_SIZE * bank + low;
    return TLCS900H_XIX + low;
}

/* So many bytes of an instruction, the last that RAM has. */
static void lend_end(const uint8_t *bytes, int there, int bank) {
    lend(&ram, small);
    lend(&rom, small);
    lend_record(whole, (uint32_t)(256 - there));
    record.bytes[GUARD + 85] = (uint8_t)(0xD8 | bank);
    memcpy(ram.bytes + GUARD + 256 - there, bytes, (size_t)there);
}

/* LD r,n: the whole of it, and in bank 0 what is left where RAM ends sooner. */
static void load_named(int code, int bytes, int bank) {
    uint8_t load[7] = {0, 0, 0x03, 0x9A, 0xBC, 0xDE, 0xF1};
    int to = named_at(code, bytes, bank), length = 3 + bytes, there;
    name(load, bytes, code);
    for (there = bank == 0 ? 1 : length; there <= length; there++) {
        uint8_t number = there > 1 && to < 0 ? 4 : there < length ? 3 : 0;
        lend_end(load, there, bank);
        keep();
        kept_word = number == 0 ? (uint32_t)length : 0;
        held("show", show((uint32_t)(256 - there)), number);
        if (number == 0) {
            memcpy(kept(&record) + to, load + 3, (size_t)bytes);
            put(kept(&record) + 80, 4, 256);
        }
        held("step", step(), number);
    }
}

/* LD R,r by 89H and LD r,R by 99H, where R is A, BC or XBC of the bank in use. */
static void move_named(int code, int bytes, int bank, uint8_t last) {
    uint8_t move[3];
    int named = named_at(code, bytes, bank), other = TLCS900H_BANK_SIZE * bank + (bytes == 1 ? TLCS900H_A : TLCS900H_XBC);
    int from = last == 0x89 ? named : other, to = last == 0x89 ? other : named;
    name(move, bytes, code);
    move[2] = last;
    lend_end(move, 3, bank);
    keep();
    memcpy(kept(&record) + to, record.bytes + GUARD + from, (size_t)bytes);
    put(kept(&record) + 80, 4, 256);
    held("step", step(), 0);
}

static void named_registers(void) {
    int code, bytes, bank;
    for (code = 0; code < 256; code++)
        for (bytes = 1; bytes <= 4; bytes *= 2)
            for (bank = 0; bank < 4; bank++) {
                load_named(code, bytes, bank);
                if (named_at(code, bytes, bank) < 0) continue;
                move_named(code, bytes, bank, 0x89);
                move_named(code, bytes, bank, 0x99);
            }
}

/* What an instruction makes of some bytes of the record, and the flags and marks that it leaves. */
struct work {
    struct code code;
    uint8_t to, bytes;
    uint32_t before, after;
    uint8_t f, marks;
};

/* In bank 2, with all flags 1 before. XWA of bank 0 is 1. */
static void work_held(const struct work *w, int by_run) {
    lend_end(w->code.bytes, w->code.length, 2);
    put(record.bytes + GUARD, 4, 1);
    put(record.bytes + GUARD + w->to, w->bytes, w->before);
    keep();
    put(kept(&record) + w->to, w->bytes, w->after);
    put(kept(&record) + 80, 4, 256);
    kept(&record)[84] = w->f;
    kept(&record)[TLCS900H_MARKS] = w->marks;
    if (by_run) kept_word = 1;
    held(by_run ? "run" : "step", by_run ? run(1) : step(), 0);
}

static void named_work(void) {
    static const struct work list[] = {
        {{3, {0xC7, 0x20, 0x61}}, 32, 1, 0x7F, 0x80, 0x95, 0},                                      /* INC 1,RA2 */
        {{3, {0xC7, 0x20, 0x81}}, 32, 1, 0x40, 0x80, 0x84, 0},                                      /* ADD A,RA2: both are A */
        {{4, {0xC7, 0x33, 0xC8, 0x01}}, 51, 1, 0xFF, 0x00, 0x51, 0},                                /* ADD QW3,1 */
        {{4, {0xC7, 0xF1, 0xCC, 0x0F}}, 65, 1, 0x5A, 0x0A, 0x14, 0},                                /* AND IXH,0FH */
        {{3, {0xD7, 0x00, 0x80}}, 32, 2, 0x7FFF, 0x8000, 0x94, 0},                                  /* ADD WA,RWA0 */
        {{3, {0xD7, 0xD2, 0x69}}, 18, 2, 0x0000, 0xFFFF, 0xD7, 0},                                  /* DEC 1,QWA': bank 1 */
        {{3, {0xD7, 0xE2, 0x13}}, 34, 2, 0x1280, 0xFF80, 0xD7, 0},                                  /* EXTS QWA */
        {{4, {0xD7, 0x3E, 0xEC, 0x04}}, 62, 2, 0x1234, 0x2340, 0x05, 0},                            /* SLA 4,QHL3 */
        {{4, {0xE7, 0x0C, 0xEF, 0x04}}, 12, 4, 0x80000018, 0x08000001, 0x01, 2},                    /* SRL 4,XHL0 */
        {{7, {0xE7, 0x20, 0xC8, 0x78, 0x56, 0x34, 0x12}}, 32, 4, 0xF0000000, 0x02345678, 0x01, 1},  /* ADD XWA2,n */
        {{7, {0xE7, 0x38, 0xCF, 0x78, 0x56, 0x34, 0x12}}, 56, 4, 0x12345678, 0x12345678, 0x42, 1},  /* CP XDE3,n */
        {{7, {0xE7, 0xFC, 0x03, 0x98, 0xBA, 0xDC, 0xFE}}, 76, 4, 0x00000100, 0xFEDCBA98, 0xD7, 0}}; /* LD XSP,n */
    size_t i;
    for (i = 0; i < COUNT(list); i++) {
        work_held(&list[i], 0);
        work_held(&list[i], 1);
    }
}

/* ---- MUL, MULS, DIV and DIVS: the destination, of so many bytes, and the register of half as many that it is multiplied or divided by */
enum { KEPT = -1, NO_REGISTER = 255 }; /* V is as it was; the operand is a constant, in the code */

struct scale {
    struct code code;
    uint8_t to, bytes, from;
    uint32_t before, by, after;
    int v;
};

/* In bank 2, with some marks; all flags are 1 that are not marked, but V is not where it is to become 1. */
static void scale_held(const struct scale *s, uint8_t marks, int by_run) {
    uint8_t f = (uint8_t)(0xD7 & ~(marks & 1 ? 0x10 : 0) & ~(marks & 2 || s->v == 1 ? 0x04 : 0));
    uint8_t spare = (uint8_t)(0xD7 & ~(marks & 4 ? 0x10 : 0) & ~(marks & 8 ? 0x04 : 0));
    lend_end(s->code.bytes, s->code.length, 2);
    put(record.bytes + GUARD + s->to, s->bytes, s->before);
    if (s->from != NO_REGISTER) put(record.bytes + GUARD + s->from, s->bytes / 2, s->by);
    record.bytes[GUARD + TLCS900H_F] = f;
    record.bytes[GUARD + TLCS900H_F_PRIME] = spare;
    record.bytes[GUARD + TLCS900H_MARKS] = marks;
    keep();
    put(kept(&record) + s->to, s->bytes, s->after);
    put(kept(&record) + 80, 4, 256);
    if (s->v != KEPT) {
        kept(&record)[TLCS900H_F] = (uint8_t)((f & ~0x04) | (s->v ? 0x04 : 0));
        kept(&record)[TLCS900H_MARKS] = marks & 13;
    }
    if (by_run) kept_word = 1;
    held(by_run ? "run" : "step", by_run ? run(1) : step(), 0);
}

static void scales(void) {
    static const struct scale list[] = {
        /* the book's examples: MUL, MULS, DIV and DIVS of XIX by IY */
        {{2, {0xDD, 0x44}}, TLCS900H_XIX, 4, TLCS900H_XIY, 0x55661234, 0x89AB, 0x09C9FCBC, KEPT},
        {{2, {0xDD, 0x4C}}, TLCS900H_XIX, 4, TLCS900H_XIY, 0x55661234, 0x89AB, 0xF795FCBC, KEPT},
        {{2, {0xDD, 0x54}}, TLCS900H_XIX, 4, TLCS900H_XIY, 0x12345678, 0x89AB, 0x0FDA21DA, 0},
        {{2, {0xDD, 0x5C}}, TLCS900H_XIX, 4, TLCS900H_XIY, 0x12345678, 0x89AB, 0x16EED89E, 0},
        /* bytes: WA BC DE HL of bank 2, by a register and by a constant */
        {{2, {0xCA, 0x41}}, 32, 2, 37, 0x55FF, 0xFF, 0xFE01, KEPT},
        {{2, {0xC9, 0x4B}}, 36, 2, 32, 0x5580, 0x7F, 0xC080, KEPT},
        {{2, {0xCF, 0x55}}, 40, 2, 44, 0x1234, 0x56, 0x1036, 0},
        {{2, {0xCC, 0x5F}}, 44, 2, 41, 0xFFF9, 0x02, 0xFFFD, 0}, /* -7 by 2 is -3, and -1 is left */
        {{3, {0xC9, 0x08, 0x00}}, 32, 2, NO_REGISTER, 0x55FF, 0, 0x0000, KEPT},
        {{3, {0xCB, 0x09, 0x80}}, 36, 2, NO_REGISTER, 0x5580, 0, 0x4000, KEPT},
        {{3, {0xCD, 0x0A, 0xFF}}, 40, 2, NO_REGISTER, 0xFEFF, 0, 0xFEFF, 0}, /* FFH, and FEH is left */
        {{3, {0xCF, 0x0B, 0xFE}}, 44, 2, NO_REGISTER, 0x0007, 0, 0x01FD, 0}, /* 7 by -2 is -3, and 1 is left */
        /* signed quotients at the ends of their range, and one past them */
        {{3, {0xC9, 0x0B, 0xFF}}, 32, 2, NO_REGISTER, 0xFF81, 0, 0x007F, 0},
        {{3, {0xC9, 0x0B, 0xFF}}, 32, 2, NO_REGISTER, 0xFF80, 0, 0xFF80, 1},
        {{3, {0xC9, 0x0B, 0xFF}}, 32, 2, NO_REGISTER, 0x0080, 0, 0x0080, 0},
        {{3, {0xC9, 0x0B, 0xFF}}, 32, 2, NO_REGISTER, 0x0081, 0, 0x0081, 1},
        {{3, {0xC9, 0x0B, 0x80}}, 32, 2, NO_REGISTER, 0x407F, 0, 0x7F80, 0}, /* 407FH by -80H is -80H, and 7FH is left */
        {{3, {0xC9, 0x0B, 0x80}}, 32, 2, NO_REGISTER, 0x4080, 0, 0x4080, 1},
        {{3, {0xC9, 0x0B, 0x80}}, 32, 2, NO_REGISTER, 0xC001, 0, 0x817F, 0}, /* -3FFFH by -80H is 7FH, and -7FH is left */
        {{3, {0xC9, 0x0B, 0x80}}, 32, 2, NO_REGISTER, 0xC000, 0, 0xC000, 1},
        {{4, {0xDE, 0x0B, 0xFF, 0xFF}}, TLCS900H_XIZ, 4, NO_REGISTER, 0xFFFF8001, 0, 0x00007FFF, 0},
        {{4, {0xDE, 0x0B, 0xFF, 0xFF}}, TLCS900H_XIZ, 4, NO_REGISTER, 0xFFFF8000, 0, 0xFFFF8000, 1},
        {{4, {0xDE, 0x0B, 0xFF, 0xFF}}, TLCS900H_XIZ, 4, NO_REGISTER, 0x80000000, 0, 0x80000000, 1},
        {{4, {0xDE, 0x0B, 0x00, 0x80}}, TLCS900H_XIZ, 4, NO_REGISTER, 0x40007FFF, 0, 0x7FFF8000, 0},
        {{4, {0xDE, 0x0B, 0x00, 0x80}}, TLCS900H_XIZ, 4, NO_REGISTER, 0x40008000, 0, 0x40008000, 1},
        /* quotients without a sign, the same; and a divisor of 0 */
        {{2, {0xD9, 0x50}}, 32, 4, 36, 0xFFFEFFFF, 0xFFFF, 0xFFFEFFFF, 0},
        {{2, {0xD9, 0x50}}, 32, 4, 36, 0xFFFF0000, 0xFFFF, 0xFFFF0000, 1},
        {{3, {0xC9, 0x0A, 0x01}}, 32, 2, NO_REGISTER, 0x00FF, 0, 0x00FF, 0},
        {{3, {0xC9, 0x0A, 0x01}}, 32, 2, NO_REGISTER, 0x0100, 0, 0x0100, 1},
        {{3, {0xC9, 0x0A, 0x00}}, 32, 2, NO_REGISTER, 0x0000, 0, 0x0000, 1},
        {{2, {0xD9, 0x58}}, 32, 4, 36, 0x12345678, 0x0000, 0x12345678, 1},
        {{2, {0xDC, 0x57}}, TLCS900H_XSP, 4, TLCS900H_XIX, 0x00000100, 0x0000, 0x00000100, 1},
        /* a register by itself or by a part of itself: both are read first */
        {{2, {0xC9, 0x41}}, 32, 2, NO_REGISTER, 0xFF0C, 0, 0x0090, KEPT},
        {{2, {0xCE, 0x47}}, 44, 2, NO_REGISTER, 0x0203, 0, 0x0006, KEPT},
        {{2, {0xCF, 0x57}}, 44, 2, NO_REGISTER, 0x0110, 0, 0x0011, 0},
        {{2, {0xC8, 0x59}}, 32, 2, NO_REGISTER, 0xFF81, 0, 0x007F, 0},
        {{3, {0xD7, 0xE2, 0x58}}, 32, 4, NO_REGISTER, 0xFFFF8001, 0, 0x00007FFF, 0}, /* DIVS XWA,QWA */
        /* registers by a code byte: by RW0; by QIX; IX, XDE3, HL' and XBC' by a constant. The bank before is bank 1 */
        {{3, {0xC7, 0x01, 0x43}}, 36, 2, 1, 0x5512, 0x10, 0x0120, KEPT},
        {{3, {0xD7, 0xF2, 0x5D}}, TLCS900H_XIY, 4, 66, 0xFFFFFFF9, 0xFFFE, 0xFFFF0003, 0},
        {{4, {0xC7, 0xF0, 0x08, 0x02}}, TLCS900H_XIX, 2, NO_REGISTER, 0x55FF, 0, 0x01FE, KEPT},
        {{5, {0xD7, 0x38, 0x0A, 0x00, 0x01}}, 56, 4, NO_REGISTER, 0x00123456, 0, 0x00561234, 0},
        {{4, {0xC7, 0xDC, 0x09, 0xFF}}, 28, 2, NO_REGISTER, 0x5580, 0, 0x0080, KEPT},
        {{5, {0xD7, 0xD4, 0x0B, 0x00, 0x00}}, 20, 4, NO_REGISTER, 0x00000000, 0, 0x00000000, 1}};
    uint8_t marks;
    size_t i;
    for (i = 0; i < COUNT(list); i++)
        for (marks = 0; marks < 16; marks++) scale_held(&list[i], marks, marks % 2);
}

/* ---- which operand codes MUL to DIVS, MINC and MDEC have: each is done, or refused with 4 at the byte that forces it */

/* An instruction of so many bytes, whole and cut off; or one whose byte `bad`, from 1 on, is 4, and which is not looked at further. */
static void taken_as(const uint8_t *bytes, int length, int bad) {
    int there, most = bad > 0 ? bad : length;
    for (there = 1; there <= most; there++) {
        uint8_t number = there == bad ? 4 : there < length ? 3 : 0;
        lend_end(bytes, there, 2);
        keep();
        kept_word = number == 0 ? (uint32_t)length : 0;
        held("show", show((uint32_t)(256 - there)), number);
        if (number != 0) held("step", step(), number);
    }
}

/* Behind C8, D8, E8 and r, or C7, D7, E7 and a code byte: `low` says whether the operand is the lower half of a wider one. */
static void operand_taken(const uint8_t *start, int length, int bytes, int low) {
    uint8_t code[7];
    int second;
    memcpy(code, start, (size_t)length);
    for (second = 0x08; second < 0x60; second++) {
        int number = second >= 0x38 && second < 0x40, by_register = second >= 0x40;
        if (second > 0x0B && !number && !by_register) continue;
        code[length] = (uint8_t)second;
        put(code + length + 1, 2, number ? 0x80u - (1u << second % 4) : 0); /* a table of 80H, less the step */
        if (number)
            taken_as(code, length + 3, bytes == 2 && second % 4 != 3 ? 0 : length + 1);
        else if (by_register)
            taken_as(code, length + 1, bytes == 2 || (bytes == 1 && second % 2 == 1) ? 0 : length + 1);
        else
            taken_as(code, length + 1 + bytes, low ? 0 : length + 1);
    }
}

static void operands_taken(void) {
    static const uint8_t codes[] = {0x00, 0x01, 0x02, 0x3F, 0xD3, 0xE4, 0xE6, 0xF0, 0xFC, 0xFD, 0xFE};
    uint8_t start[2];
    int bytes;
    size_t i;
    for (bytes = 1; bytes <= 4; bytes *= 2) {
        for (i = 0; i < 8; i++) {
            start[0] = (uint8_t)((bytes == 1 ? 0xC8 : bytes == 2 ? 0xD8 : 0xE8) + i);
            operand_taken(start, 1, bytes, bytes == 2 || (bytes == 1 && i % 2 == 1));
        }
        for (i = 0; i < COUNT(codes); i++) {
            name(start, bytes, codes[i]);
            if (named_at(codes[i], bytes, 2) < 0) continue;
            operand_taken(start, 2, bytes, bytes < 4 && named_at(codes[i], 2 * bytes, 2) >= 0);
        }
    }
}

/* Whether num is one that the header names for a step. */
static int is_number(long num, int stride) { return num >= 2 * stride && num <= 32768 && (num & (num - 1)) == 0; }

/* Numbers of MINC and MDEC of IX: 2^n less the step, and those beside it. n is at least 1, 2 or 3, and at most 15. */
static void numbers_taken(void) {
    uint8_t code[4] = {0xDC};
    int n, beside, kind;
    for (kind = 0; kind < 6; kind++)
        for (n = 0; n <= 16; n++)
            for (beside = -1; beside <= 1; beside++) {
                int from = kind % 3, stride = 1 << from;
                long last = (1L << n) - stride + beside;
                if (last < 0 || last > 0xFFFF) continue;
                code[1] = (uint8_t)((kind < 3 ? 0x38 : 0x3C) + from);
                put(code + 2, 2, (uint32_t)last);
                lend_end(code, 4, 2);
                keep();
                if (is_number(last + stride, stride)) {
                    kept_word = 4;
                    held("show", show(252), 0);
                } else {
                    kept_word = 0;
                    held("show", show(252), 4);
                    held("step", step(), 4);
                }
            }
}

static void feed_codes(void) {
    operands_taken();
    numbers_taken();
}

/* ---- MINC and MDEC: a pointer before and after */
static void cycle_held(const uint8_t *bytes, int length, size_t to, uint16_t before, uint16_t after, uint8_t marks) {
    lend_end(bytes, length, 2);
    record.bytes[GUARD + TLCS900H_F] = 0xC3;
    record.bytes[GUARD + TLCS900H_F_PRIME] = 0x81;
    record.bytes[GUARD + TLCS900H_MARKS] = marks;
    put(record.bytes + GUARD + to, 2, before);
    keep();
    put(kept(&record) + to, 2, after);
    put(kept(&record) + 80, 4, 256);
    held("step", step(), 0);
}

struct cycle {
    uint8_t second;
    uint16_t last, before, after;
};

/* The book's examples, both steps of each; ends of the largest table and of the words; and pointers between entries. */
static const struct cycle cycles[] = {
    {0x38, 0x0007, 0x1206, 0x1207}, {0x38, 0x0007, 0x1207, 0x1200}, {0x39, 0x0006, 0x1234, 0x1236}, {0x39, 0x0006, 0x1236, 0x1230},
    {0x3A, 0x003C, 0x1278, 0x127C}, {0x3A, 0x003C, 0x127C, 0x1240}, {0x3C, 0x0007, 0x1231, 0x1230}, {0x3C, 0x0007, 0x1230, 0x1237},
    {0x3D, 0x0006, 0x123A, 0x1238}, {0x3D, 0x0006, 0x1238, 0x123E}, {0x3E, 0x007C, 0x1284, 0x1280}, {0x3E, 0x007C, 0x1280, 0x12FC},
    {0x38, 0x7FFF, 0x7FFF, 0x0000}, {0x38, 0x7FFF, 0xFFFF, 0x8000}, {0x3C, 0x7FFF, 0x0000, 0x7FFF}, {0x3C, 0x7FFF, 0x8000, 0xFFFF},
    {0x3A, 0x7FFC, 0x7FFC, 0x0000}, {0x3E, 0x7FFC, 0x8000, 0xFFFC}, {0x38, 0x0001, 0xFFFF, 0xFFFE}, {0x3C, 0x0001, 0xFFFE, 0xFFFF},
    {0x39, 0x0006, 0x1237, 0x1239}, {0x39, 0x0006, 0xFFFF, 0x0001}, {0x3A, 0x003C, 0x127D, 0x1281}, {0x3D, 0x0006, 0x1231, 0x122F},
    {0x3D, 0x0006, 0x0001, 0xFFFF}, {0x3E, 0x0004, 0x0003, 0xFFFF}};

/* So many entries up, or down, come back to the first one; XIX's upper half and all else stay. JR leads back to the step. */
static void goes_round(uint8_t second, uint16_t last, uint32_t entries) {
    uint8_t loop[6] = {0xDC, 0, 0, 0, 0x68, 0xFA};
    loop[1] = second;
    put(loop + 2, 2, last);
    lend_code(0, loop, 6);
    put(record.bytes + GUARD + TLCS900H_XIX, 4, 0x56788000);
    keep();
    kept_word = 2 * entries;
    held("run", run(2 * entries), 0);
}

static void cycles_held(void) {
    uint8_t marks;
    size_t i;
    for (i = 0; i < COUNT(cycles); i++)
        for (marks = 0; marks < 16; marks++) {
            uint8_t plain[4] = {0xDC}, named[5] = {0xD7, 0x22}; /* IX; QWA2 */
            plain[1] = named[2] = cycles[i].second;
            put(plain + 2, 2, cycles[i].last);
            put(named + 3, 2, cycles[i].last);
            cycle_held(plain, 4, TLCS900H_XIX, cycles[i].before, cycles[i].after, marks);
            cycle_held(named, 5, 34, cycles[i].before, cycles[i].after, marks);
        }
    for (i = 1; i <= 15; i++) {
        uint32_t num = 1u << i;
        goes_round(0x38, (uint16_t)(num - 1), num);
        goes_round(0x3C, (uint16_t)(num - 1), num);
        if (num >= 4) goes_round(0x39, (uint16_t)(num - 2), num / 2);
        if (num >= 4) goes_round(0x3D, (uint16_t)(num - 2), num / 2);
        if (num >= 8) goes_round(0x3A, (uint16_t)(num - 4), num / 4);
        if (num >= 8) goes_round(0x3E, (uint16_t)(num - 4), num / 4);
    }
}

/* ---- a run that stops, and is asked again; and the longest run */
static void stops(void) {
    static const uint8_t sum[6] = {0x21, 0x05, 0xC9, 0xC8, 0x03, 0x01};  /* LD A,5; ADD A,3; then a code that is not listed */
    static const uint8_t lost[6] = {0x21, 0x05, 0xF1, 0x00, 0x01, 0x41}; /* LD A,5; LD (0100H),A, behind RAM */
    static const uint8_t round[6] = {0x68, 0xFE};                        /* JR to itself */
    lend_code(0, sum, 6);
    keep();
    kept(&record)[TLCS900H_BANK_SIZE * (kept(&record)[TLCS900H_BANK] & 3) + TLCS900H_A] = 8; /* as the header says */
    put(kept(&record) + 80, 4, 5);
    kept(&record)[84] = 0; /* not negative, not zero, no carry of any kind, no overflow */
    kept_word = 2;
    held("run", run(1000), 4);
    kept_word = 0;
    held("run", run(1000), 4);
    held("step", step(), 4);
    held("run", run(0), 0);
    lend_code(0, lost, 6);
    keep();
    kept(&record)[TLCS900H_BANK_SIZE * (kept(&record)[TLCS900H_BANK] & 3) + TLCS900H_A] = 5;
    put(kept(&record) + 80, 4, 2);
    kept_word = 1;
    held("run", run_to(1000, 0x100), 5);
    kept_word = 0;
    held("run", run_to(1000, 0x100), 5);
    held("step", step_to(0x100), 5);
    held("run", run(0), 0);
    lend_code(0, round, 6);
    keep();
    kept_word = 1000000;
    held("run", run(1000000), 0);
    kept_word = 0;
    held("run", run(1000001), 7);
}

/* ---- the marks, in the byte at 90: H of F, V of F, H of F', V of F'. A marked flag is 0 */
static void lend_marked(const uint8_t *bytes, uint8_t f, uint8_t spare, uint8_t marks) {
    lend_code(0, bytes, 6);
    record.bytes[GUARD + 84] = f;
    record.bytes[GUARD + 86] = spare;
    record.bytes[GUARD + TLCS900H_MARKS] = marks;
}

/* The operations below take zeros: XWA of bank 2, and memory at 0010H. */
static void clear_operands(void) {
    memset(record.bytes + GUARD + 32, 0, 4);
    memset(ram.bytes + GUARD + 0x10, 0, 4);
}

/* A step that leaves these flags and marks, and nothing else new. S, Z and N are 1 before. */
static void marked(const uint8_t *bytes, uint8_t length, uint8_t marks, uint8_t f, uint8_t left) {
    lend_marked(bytes, 0xC2, 0x81, marks);
    clear_operands();
    keep();
    put(kept(&record) + 80, 4, length);
    kept(&record)[84] = f;
    kept(&record)[TLCS900H_MARKS] = left;
    held("step", step(), 0);
}

/* An operation by its number, 0 to 7: as a long with a register, a constant and memory, both ways; and as a byte and a word. */
static void marked_operation(uint8_t operation, uint8_t marks, uint8_t f, uint8_t left, uint8_t short_f) {
    uint8_t along = (uint8_t)(0x80 + 16 * operation), spare = marks & 12;
    uint8_t with_register[6] = {0xE8, 0}, with_constant[6] = {0xE8, 0}, with_memory[6] = {0xE0, 0x10, 0};
    with_register[1] = along;
    with_constant[1] = (uint8_t)(0xC8 + operation);
    with_memory[2] = along;
    marked(with_register, 2, marks, f, left);
    marked(with_constant, 6, marks, f, left);
    marked(with_memory, 3, marks, f, left);
    with_memory[2] |= 8;
    marked(with_memory, 3, marks, f, left);
    with_register[0] = 0xC8;
    marked(with_register, 2, marks, short_f, spare);
    with_register[0] = 0xD8;
    marked(with_register, 2, marks, short_f, spare);
}

static void marked_shift(uint8_t second, uint8_t marks) {
    uint8_t shift[6] = {0xE8, 0, 0x01};
    shift[1] = second;
    marked(shift, 3, marks, 0x40, (uint8_t)((marks & 12) | 2));
    shift[0] = 0xC8;
    marked(shift, 3, marks, 0x44, marks & 12); /* no ones, which is even */
}

static void marked_swap(uint8_t marks) {
    static const uint8_t swap[6] = {0x16}; /* EX F,F' */
    lend_marked(swap, 0xC2, 0x81, marks);
    keep();
    put(kept(&record) + 80, 4, 1);
    kept(&record)[84] = 0x81;
    kept(&record)[86] = 0xC2;
    kept(&record)[TLCS900H_MARKS] = (uint8_t)((marks << 2 | marks >> 2) & 15);
    held("step", step(), 0);
}

static void marked_pop(uint8_t marks) {
    static const uint8_t pop[6] = {0x19}; /* POP F, of FFH */
    lend_marked(pop, 0xC2, 0x81, marks);
    put(record.bytes + GUARD + 76, 4, 0x80);
    ram.bytes[GUARD + 0x80] = 0xFF;
    keep();
    put(kept(&record) + 76, 4, 0x81);
    put(kept(&record) + 80, 4, 1);
    kept(&record)[84] = 0xD7;
    kept(&record)[TLCS900H_MARKS] = marks & 12;
    held("step", step(), 0);
}

static void mark_changes(void) {
    static const uint8_t nop[6] = {0x00}, rcf[6] = {0x10}, scf[6] = {0x11}, ccf[6] = {0x12}, zcf[6] = {0x13};
    uint8_t marks;
    for (marks = 0; marks < 16; marks++) {
        uint8_t spare = marks & 12, v = marks & 2, i;
        marked(nop, 1, marks, 0xC2, marks);
        marked(rcf, 1, marks, 0xC0, spare | v);
        marked(scf, 1, marks, 0xC1, spare | v);
        marked(ccf, 1, marks, 0xC1, spare | v | 1);
        marked(zcf, 1, marks, 0xC0, spare | v | 1);
        for (i = 0; i < 2; i++) marked_operation(i, marks, 0x40, spare | 1, 0x40);    /* ADD ADC */
        for (i = 2; i < 4; i++) marked_operation(i, marks, 0x42, spare | 1, 0x42);    /* SUB SBC */
        marked_operation(4, marks, 0x50, spare | 2, 0x54);                             /* AND */
        for (i = 5; i < 7; i++) marked_operation(i, marks, 0x40, spare | 2, 0x44);    /* XOR OR */
        marked_operation(7, marks, 0x42, spare | 1, 0x42);                             /* CP */
        for (i = 0xEC; i <= 0xEF; i++) marked_shift(i, marks);                         /* SLA SRA SLL SRL */
        marked_swap(marks);
        marked_pop(marks);
    }
}

/* Each condition with each set of marks: 8 for LT, LE, V and their opposites, where V of F is marked. */
static void marked_jump(const uint8_t *bytes, uint8_t length, uint8_t marks) {
    static const uint8_t with_c3[16] = {0, 1, 1, 1, 0, 1, 1, 1, 1, 0, 0, 0, 1, 0, 0, 0}; /* S, Z, N and C are 1 */
    uint8_t cc = bytes[0] & 15, reads_v = cc == 1 || cc == 2 || cc == 4 || cc == 9 || cc == 10 || cc == 12;
    lend_marked(bytes, 0xC3, 0x81, marks);
    keep();
    if (reads_v && (marks & 2)) {
        held("step", step(), TLCS900H_UNDEFINED);
        kept_word = 0;
        held("run", run(1000), TLCS900H_UNDEFINED);
        held("run", run(1000), TLCS900H_UNDEFINED); /* the same again, while nothing has changed */
        return;
    }
    put(kept(&record) + 80, 4, with_c3[cc] ? length + 0x10u : length);
    held("step", step(), 0);
}

/* PUSH F and PUSH SR, where they would be done, where they would be 5 and where they would be 6: by where their first byte goes */
static void marked_push(uint8_t code, uint8_t marks, uint32_t first, uint8_t number, uint32_t address) {
    uint8_t push[6] = {0, 0x01}; /* and a code that is not listed */
    uint32_t pointer = first + (code == 0x18 ? 1 : 2);
    push[0] = code;
    lend_marked(push, 0xC3, 0x81, marks);
    put(record.bytes + GUARD + 76, 4, pointer);
    keep();
    if (marks & 3) number = TLCS900H_UNDEFINED, address = 0;
    if (number == 0) {
        put(kept(&record) + 76, 4, first);
        put(kept(&record) + 80, 4, 1);
        put(kept(&ram) + first, code == 0x18 ? 1 : 2, 0xDAC3);
    }
    held("step", step_to(address), number);
    if (number == 0) return;
    kept_word = 0;
    held("run", run_to(1000, address), number);
}

static void mark_refusals(void) {
    static const uint8_t stop[6] = {0xE8, 0xC0, 0x00, 0x61, 0x10}; /* AND XWA,XWA; NOP; JR LT */
    uint8_t cc, marks;
    for (marks = 0; marks < 16; marks++) {
        for (cc = 0; cc < 16; cc++) {
            uint8_t jr[6] = {0, 0x10}, jrl[6] = {0, 0x10, 0x00};
            jr[0] = (uint8_t)(0x60 + cc);
            jrl[0] = (uint8_t)(0x70 + cc);
            marked_jump(jr, 2, marks);
            marked_jump(jrl, 3, marks);
        }
        for (cc = 0; cc < 2; cc++) {
            uint8_t push = cc ? 0x02 : 0x18;
            marked_push(push, marks, 0x80, 0, 0);
            marked_push(push, marks, 0x100, 5, 0x100);
            marked_push(push, marks, 0x12345678, 5, 0x345678);
            marked_push(push, marks, 0xFFFFFFFE, 6, 0xFFFFFE);
            marked_push(push, marks, 0xFFFF80, 6, 0xFFFF80);
        }
        marked_push(0x18, marks, 0xFFFFFFFF, 6, 0xFFFFFF);
        marked_push(0x02, marks, 0xFFFFFFFF, 5, 0);
        marked_push(0x02, marks, 0xFF, 5, 0x100);
    }
    /* a run does the steps before it */
    lend_marked(stop, 0xC3, 0x81, 0);
    clear_operands();
    keep();
    put(kept(&record) + 80, 4, 3);
    kept(&record)[84] = 0x50;
    kept(&record)[TLCS900H_MARKS] = 2;
    kept_word = 2;
    held("run", run(1000), TLCS900H_UNDEFINED);
    kept_word = 0;
    held("run", run(1000), TLCS900H_UNDEFINED);
    held("step", step(), TLCS900H_UNDEFINED);
    held("run", run(0), 0);
}

/* ---- EI, POP SR and RETI; the marks of F are cleared, those of F' are not */
static void ei(void) {
    uint8_t code[6] = {0x06}, mask;
    int num;
    for (num = 0; num < 256; num++)
        for (mask = 0; mask < 8; mask++) {
            code[1] = (uint8_t)num;
            lend_code(0, code, 6);
            record.bytes[GUARD + 85] = (uint8_t)(0x8A | mask << 4);
            keep();
            if (num < 8) {
                put(kept(&record) + 80, 4, 2);
                kept(&record)[85] = (uint8_t)(0x8A | num << 4);
            }
            held("step", step(), num < 8 ? 0 : 4);
        }
}

/* Pops SR, and for RETI the counter above it, from 80H. */
static void popped(uint8_t code, uint8_t marks, uint16_t word_popped, uint16_t nesting) {
    uint8_t pop[6] = {0};
    int reti = code == 0x07;
    pop[0] = code;
    lend_marked(pop, 0xC2, 0x81, marks);
    put(record.bytes + GUARD + 76, 4, 0xAB000080);
    put(record.bytes + GUARD + TLCS900H_NESTING, 2, nesting);
    put(ram.bytes + GUARD + 0x80, 2, word_popped);
    put(ram.bytes + GUARD + 0x82, 4, 0x99ABCDEF);
    keep();
    put(kept(&record) + 76, 4, reti ? 0xAB000086 : 0xAB000082);
    put(kept(&record) + 80, 4, reti ? 0xABCDEF : 1);
    put(kept(&record) + 84, 2, (word_popped & 0x73D7u) | 0x8800u); /* bits 15 and 11 are 1, bits 10, 5 and 3 are 0 */
    kept(&record)[TLCS900H_MARKS] = marks & 12;
    if (reti) put(kept(&record) + TLCS900H_NESTING, 2, nesting - 1u);
    held("step", step(), 0);
}

static void pops(void) {
    static const uint16_t words[] = {0x0000, 0xFFFF, 0x0428, 0x8800, 0xFBD7, 0x77FF, 0xDA14, 0x2600};
    static const uint16_t counts[] = {0, 1, 0x100, 0x8000, 0xFFFF};
    uint8_t marks;
    size_t i;
    int bit;
    for (marks = 0; marks < 16; marks++)
        for (i = 0; i < COUNT(words); i++) {
            popped(0x03, marks, words[i], 0x1234);
            popped(0x07, marks, words[i], counts[i % COUNT(counts)]);
        }
    for (bit = 0; bit < 16; bit++) {
        popped(0x03, 0, (uint16_t)(1u << bit), 0);
        popped(0x07, 0, (uint16_t)(1u << bit), 0);
    }
    for (i = 0; i < COUNT(counts); i++) popped(0x07, 0, 0x8800, counts[i]);
}

/* What POP SR and RETI need is missing, wholly or from some byte on. */
static void pop_refused(uint8_t code, uint32_t pointer, uint32_t address) {
    uint8_t pop[6] = {0};
    pop[0] = code;
    lend_code(0, pop, 6);
    put(record.bytes + GUARD + 76, 4, pointer);
    keep();
    held("step", step_to(address), 5);
    kept_word = 0;
    held("run", run_to(1000, address), 5);
}

static void pop_refusals(void) {
    uint32_t inside;
    pop_refused(0x03, 0xFF, 0x100);
    pop_refused(0x03, 0xFFFFFFFF, 0);
    pop_refused(0x03, 0xFFFEFF, 0xFFFEFF);
    for (inside = 0; inside < 6; inside++) {
        pop_refused(0x07, 0x100 - inside, 0x100);
        if (inside > 0) pop_refused(0x07, 0xFF000000 - inside, 0);
        if (inside > 0) pop_refused(0x07, 0xFFFF00 - inside, 0xFFFF00 - inside);
    }
    pop_refused(0x07, 0x12345678, 0x345678);
}

static void statuses(void) {
    ei();
    pops();
    pop_refusals();
}

/* ---- requests: at every mask, with every mark, from every end */
static void lend_request(uint32_t stack, uint8_t mask) {
    static const uint8_t nop[6] = {0};
    lend_code(0x123456, nop, 6);
    put(record.bytes + GUARD + 76, 4, stack);
    record.bytes[GUARD + 85] = (uint8_t)(0x8A | mask << 4);
    put(ram.bytes + GUARD + 0x40, 4, 0x99ABCDEF);
}

/* What a request leaves that is taken, with its stack in RAM. */
static void keep_taken(uint32_t level) {
    uint8_t *r = kept(&record);
    uint32_t first = (record.bytes[GUARD + 76] | (uint32_t)record.bytes[GUARD + 77] << 8) - 6u;
    uint16_t nesting = (uint16_t)(r[TLCS900H_NESTING] | r[TLCS900H_NESTING + 1] << 8);
    memcpy(kept(&ram) + first, r + 84, 2);
    put(kept(&ram) + first + 2, 4, 0x123456);
    put(r + 76, 2, first);
    put(r + 80, 4, 0xABCDEF);
    r[85] = (uint8_t)((r[85] & 0x8F) | (level == 7 ? 7 : level + 1) << 4);
    put(r + TLCS900H_NESTING, 2, nesting + 1u);
}

static void request_levels(void) {
    static const char *const taken_at[8] = {"1234567", "1234567", "234567", "34567", "4567", "567", "67", "7"};
    static const uint32_t none[] = {0, 8, 9, 15, 255, 256, 257, 263, 65537, 0x80000001, 0xFFFFFFFF};
    static const uint32_t nowhere[] = {0x1000000, 0x1000040, 0x80000040, 0xFFFFFFFF};
    uint8_t mask, level;
    size_t i;
    for (mask = 0; mask < 8; mask++) {
        for (level = 1; level < 8; level++) {
            int taken = strchr(taken_at[mask], '0' + level) != NULL;
            lend_request(0xAB000080, mask);
            keep();
            if (taken) keep_taken(level);
            held("request", request_to(level, 0x40, (uint8_t)taken, 0), 0);
            for (i = 0; i < COUNT(nowhere); i++) {
                lend_request(0x80, mask);
                keep();
                held("request", request_to(level, nowhere[i], 0, 0), TLCS900H_BAD_REQUEST);
            }
        }
        for (i = 0; i < COUNT(none); i++) {
            lend_request(0x80, mask);
            keep();
            held("request", request_to(none[i], 0x40, 0, 0), TLCS900H_BAD_REQUEST);
        }
    }
}

/* With every set of marks and some counts: the 0s are pushed and the marks stand. Then RETI leads back, and F is known. */
static void request_and_back(uint8_t marks, uint16_t nesting) {
    lend_request(0x80, 3);
    record.bytes[GUARD + 84] = 0xC3;
    record.bytes[GUARD + 86] = 0x81;
    record.bytes[GUARD + TLCS900H_MARKS] = marks;
    put(record.bytes + GUARD + TLCS900H_NESTING, 2, nesting);
    put(ram.bytes + GUARD + 0x40, 4, 0x00000010);
    ram.bytes[GUARD + 0x10] = 0x07; /* RETI */
    keep();
    keep_taken(3);
    put(kept(&record) + 80, 4, 0x10);
    held("request", request_to(3, 0x40, 1, 0), 0);
    put(kept(&record) + 76, 4, 0x80);
    put(kept(&record) + 80, 4, 0x123456);
    kept(&record)[85] = 0xBA;
    kept(&record)[TLCS900H_MARKS] = marks & 12;
    put(kept(&record) + TLCS900H_NESTING, 2, nesting);
    held("step", step(), 0);
}

static void requests_and_back(void) {
    static const uint16_t counts[] = {0, 1, 0xFF, 0x7FFF, 0xFFFF};
    uint8_t marks;
    size_t i;
    for (marks = 0; marks < 16; marks++)
        for (i = 0; i < COUNT(counts); i++) request_and_back(marks, counts[i]);
}

/* A request of level 7 with a vector and a stack somewhere; one of level 6, which is not taken, looks for neither. */
static void request_refused(uint32_t vector, uint32_t stack, uint8_t number, uint32_t address) {
    lend_request(stack, 7);
    keep();
    held("request", request_to(7, vector, 0, address), number);
    held("request", request_to(7, vector, 0, address), number); /* the same again, while nothing has changed */
    held("request", request_to(6, vector, 0, 0), 0);
}

static void request_refusals(void) {
    uint32_t inside;
    for (inside = 0; inside < 4; inside++) { /* the vector's bytes that are there */
        request_refused(0x100 - inside, 0x80, 5, 0x100);
        request_refused(0x100 - inside, 0x12345678, 5, 0x100);
        request_refused(0x100 - inside, 0, 5, 0x100);
        if (inside > 0) request_refused(0x1000000 - inside, 0x80, 5, 0);
        if (inside > 0) request_refused(0xFFFF00 - inside, 0x80, 5, 0xFFFF00 - inside);
    }
    request_refused(0x800000, 0x80, 5, 0x800000);
    for (inside = 0; inside < 6; inside++) { /* the stack's */
        request_refused(0x40, 0x106 - inside, 5, 0x100);
        request_refused(0xFFFF80, 0xAB000106 - inside, 5, 0x100);
        if (inside > 0) request_refused(0x40, 6 - inside, 5, 0);
        if (inside > 0) request_refused(0x40, 0xFFFF06 - inside, 5, 0xFFFF00 - inside);
    }
    request_refused(0x40, 0x12345678, 5, 0x345672);
    request_refused(0x40, 0, 6, 0xFFFFFA);
    request_refused(0x40, 0xFF000000, 6, 0xFFFFFA);
    request_refused(0xFFFFFC, 0xFFFF06, 6, 0xFFFF00);
}

/* The vector lies across what is pushed, or beside it; and the ends of both memories are good. */
static void request_edges(void) {
    uint32_t vector, stack;
    for (vector = 0x70; vector < 0x90; vector++) {
        lend_request(0x80, 7);
        put(ram.bytes + GUARD + vector, 4, 0x99ABCDEF);
        keep();
        keep_taken(7);
        held("request", request_to(7, vector, 1, 0), 0);
    }
    for (stack = 6; stack <= 0x100; stack += 0xFA) {
        lend_request(stack, 0);
        put(rom.bytes + GUARD + 252, 4, 0x99ABCDEF);
        keep();
        keep_taken(1);
        held("request", request_to(1, 0xFFFFFC, 1, 0), 0);
    }
}

static void all_requests(void) {
    request_levels();
    requests_and_back();
    request_refusals();
    request_edges();
}

/* ---- every bit of a record turned over, one at a time: a run of 0 steps tells whether the record is good */
static int is_good_old(const uint8_t *r) {
    if (r[83] != 0) return 0;                       /* a counter below 2^24 */
    if ((r[84] & 0x28) || (r[86] & 0x28)) return 0; /* F and F' */
    if ((r[85] & 0x8C) != 0x88) return 0;           /* bank and level */
    return r[87] == 0;
}

static int is_good(const uint8_t *r) {
    uint8_t marked_f = (uint8_t)((r[TLCS900H_MARKS] & 1 ? 0x10 : 0) | (r[TLCS900H_MARKS] & 2 ? 0x04 : 0));
    uint8_t marked_spare = (uint8_t)((r[TLCS900H_MARKS] & 4 ? 0x10 : 0) | (r[TLCS900H_MARKS] & 8 ? 0x04 : 0));
    if (!is_good_old(r) || r[91]) return 0; /* any nesting count will do */
    if (r[TLCS900H_MARKS] > 15) return 0;   /* four marks, and a marked flag is 0 */
    return (r[84] & marked_f) == 0 && (r[86] & marked_spare) == 0;
}

static void turn_bits(uint8_t f, uint8_t spare, uint8_t marks) {
    static const uint8_t nop[6] = {0};
    size_t byte;
    int bit;
    for (byte = 0; byte < 92; byte++)
        for (bit = 0; bit < 8; bit++) {
            uint8_t number;
            lend_marked(nop, f, spare, marks);
            record.bytes[GUARD + byte] ^= (uint8_t)(1 << bit);
            number = is_good(record.bytes + GUARD) ? 0 : 2;
            keep();
            kept_word = 0;
            held("run", run(0), number);
            word[1] = place[1] = 1;
            held("run", tlcs900h_run(at(&record), 92, NULL, 0, NULL, 0, 0, &word[1], &place[1]), number);
            if (number == 0) continue;
            held("run", run(1), number);
            held("step", step(), number);
            held("request", request_to(7, 0x40, 0, 0), number);
            held("request", request_to(0, 0xFFFFFFFF, 0, 0), number);
        }
}

/* All flags 1; no flag that can be marked; all of these marked; one of each. */
static void record_bits(void) {
    turn_bits(0xD7, 0xD7, 0);
    turn_bits(0xC3, 0x81, 0);
    turn_bits(0xC3, 0x81, 15);
    turn_bits(0xD3, 0x85, 2 | 4);
}

/* ---- records moved to the other form: 2, then 10 */
static const struct size old_size = {88, 0};

/* A record to move, of flags that may be marked, with a nesting count and marks; and the room for it. */
static void lend_move(struct size size, struct size room, uint32_t nesting, uint8_t marks) {
    lend_record(size, 0x123456);
    put(record.bytes + GUARD + 84, 4, 0x0081DAC3);
    put(record.bytes + GUARD + TLCS900H_NESTING, 2, nesting);
    record.bytes[GUARD + TLCS900H_MARKS] = marks;
    lend(&rom, small);
    lend(&ram, room);
}

/* Moves what was lent; done, the room holds the same bytes, and in the new form zeros behind them. */
static void move_held(const char *call, uint8_t (*move)(void), uint8_t number) {
    keep();
    if (number == 0) {
        memcpy(kept(&ram), kept(&record), 88);
        memset(kept(&ram) + 88, 0, ram.length - 88);
    }
    held(call, move(), number);
}

static void widen_held(uint8_t number) { move_held("widen", widen, number); }

static void narrow_held(uint8_t number) { move_held("narrow", narrow, number); }

/* Every length of the record and of the room; with a count, and with a byte that no record has. */
static void moves_at(struct size size, struct size room) {
    int to_new = size.length == 88 && room.length == 92, to_old = size.length == 92 && room.length == 88;
    lend_move(size, room, 0, 0);
    widen_held(to_new ? 0 : 2);
    lend_move(size, room, 0, 0);
    narrow_held(to_old ? 0 : 2);
    lend_move(size, room, 1, 0);
    narrow_held(to_old ? TLCS900H_NO_OLD_FORM : 2);
    lend_move(size, room, 1, 0);
    record.bytes[GUARD + 87] = 1;
    narrow_held(2);
    widen_held(2);
    widen_held(2); /* the same again, while nothing has changed */
}

static void moves(void) {
    static const struct size sizes[] = {{0, 1},  {0, 0},  {1, 0},  {4, 0},   {87, 0},  {88, 0},    {89, 0},   {91, 0},
                                        {92, 0}, {93, 0}, {96, 0}, {176, 0}, {184, 0}, {65535, 0}, {65536, 0}};
    size_t i, j;
    for (i = 0; i < COUNT(sizes); i++)
        for (j = 0; j < COUNT(sizes); j++) moves_at(sizes[i], sizes[j]);
}

/* Every bit of an old record and of a new one turned over, one at a time. */
static void turn_moved_bits(uint32_t nesting, uint8_t marks) {
    size_t byte;
    int bit;
    for (byte = 0; byte < 92; byte++)
        for (bit = 0; bit < 8; bit++) {
            uint8_t *r = record.bytes + GUARD;
            lend_move(whole, old_size, nesting, marks);
            r[byte] ^= (uint8_t)(1 << bit);
            narrow_held(!is_good(r) ? 2 : r[88] || r[89] || r[90] ? TLCS900H_NO_OLD_FORM : 0);
            if (byte >= 88) continue;
            lend_move(old_size, whole, nesting, marks);
            r[byte] ^= (uint8_t)(1 << bit);
            widen_held(is_good_old(r) ? 0 : 2);
        }
}

/* Every count that is a power of two, every set of marks; and marks of flags that are 1, which are no record's. */
static void counts_and_marks(void) {
    static const uint8_t flag_of[4] = {0x10, 0x04, 0x10, 0x04};
    uint8_t marks, mark;
    int bit;
    for (bit = 0; bit < 16; bit++) {
        lend_move(whole, old_size, 1u << bit, 0);
        narrow_held(TLCS900H_NO_OLD_FORM);
    }
    for (marks = 0; marks < 16; marks++) {
        lend_move(whole, old_size, 0, marks);
        narrow_held(marks ? TLCS900H_NO_OLD_FORM : 0);
        for (mark = 0; mark < 4; mark++) {
            int bad = marks >> mark & 1;
            lend_move(whole, old_size, 0, marks);
            record.bytes[GUARD + (mark < 2 ? 84 : 86)] |= flag_of[mark];
            narrow_held(bad ? 2 : marks ? TLCS900H_NO_OLD_FORM : 0);
        }
    }
}

/* Both ways by the library alone: what it made of an old record is good, and goes back to the same bytes. */
static void there_and_back(void) {
    uint8_t wide[TLCS900H_RECORD], thin[TLCS900H_OLD_RECORD];
    uint32_t done = 1, none = 1;
    lend_move(old_size, whole, 0, 0);
    memset(wide, noise, sizeof wide);
    memset(thin, noise, sizeof thin);
    keep();
    held("widen", tlcs900h_widen(at(&record), TLCS900H_OLD_RECORD, wide, sizeof wide), 0);
    held("run", tlcs900h_run(wide, sizeof wide, NULL, 0, NULL, 0, 0, &done, &none), 0);
    held("narrow", tlcs900h_narrow(wide, sizeof wide, thin, sizeof thin), 0);
    same_number((unsigned long)memcmp(thin, at(&record), sizeof thin), 0);
}

static void all_moves(void) {
    counts_and_marks();
    there_and_back();
    turn_moved_bits(0, 0);
    turn_moved_bits(0x100, 0);
    turn_moved_bits(0, 15);
    turn_moved_bits(0, 2 | 4);
}

static void group(const char *name, void (*does)(void)) {
    tried = wrong = 0;
    noise = 0;
    does();
    noise = 0xFF;
    does();
    printf("%s: %lu tried, %lu wrong\n", name, tried, wrong);
    if (wrong == 0 && tried > 0)
        passed++;
    else
        failed++;
}

int main(void) {
    group("constants of the header", constants);
    group("where a bank's registers stand", bank_constants);
    group("the numbers and their names", numbers);
    group("reset at every length", resets);
    group("step at every length", steps);
    group("run at every length", runs);
    group("show at every length", shows);
    group("request at every length", requests);
    group("lengths of instructions, whole and cut off", lengths);
    group("refused instructions leave the record and RAM, and tell the address", refusals);
    group("a copy without its source or its target", copies);
    group("constants loaded into every register of every bank", registers);
    group("a store, F and F' exchanged, LDF 0 to 7", changes);
    group("every code byte behind C7, D7 and E7, in every bank", named_registers);
    group("work on registers of every bank", named_work);
    group("products and quotients, and V, with every mark", scales);
    group("which operand codes multiply, divide and modulo steps have", feed_codes);
    group("modulo steps, once and all the way round", cycles_held);
    group("a run that stops, and the longest", stops);
    group("what sets, clears, keeps and exchanges the marks", mark_changes);
    group("jumps, PUSH F and PUSH SR that read a marked flag", mark_refusals);
    group("EI, POP SR and RETI", statuses);
    group("requests of every level, with every mark, at every end", all_requests);
    group("records with one bit turned over", record_bits);
    group("records moved at every length", moves);
    group("records moved with every mark and with one bit turned over", all_moves);
    printf("%u passed, %u failed\n", passed, failed);
    return failed != 0;
}
