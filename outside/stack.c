/*
 * How much stack each call takes: it is called on a painted stack, and what is no longer paint was used. Every first byte of an
 * instruction is tried with every byte behind it, and with every byte behind one, two and three others, which are 0; behind C7,
 * D7 and E7 the first of these is also the code of a register of bank 2, of the bank before, of the bank in use and of all
 * banks, and behind a register it is also DIVS with a constant and MINC2 with a number; from RAM and from ROM; with registers
 * that point to RAM, to ROM and to neither; with H and V of F and F' marked, and with no mark. Requests of every level have
 * their vector in RAM, in ROM and in neither. Records that are moved are good ones, of which the old form holds some, and such
 * as are cut short. The header names a bound; the last line counts the calls that keep below it.
 * Stack that is set aside and never written is not seen. For x86-64.
 */
#define _XOPEN_SOURCE 700
#include <stdio.h>
#include <string.h>
#include <ucontext.h>

#include "tlcs900h.h"

enum { CASES = 256, MEMORY = 256, SPACE = 65536 };

static uint8_t records[CASES][TLCS900H_RECORD], rams[CASES][MEMORY], roms[CASES][MEMORY];
static uint8_t space[SPACE], *top; /* the painted stack; where it stood just before a call */
static uint32_t counter, count, place;
static uint8_t was_taken;
static uint8_t moved[TLCS900H_RECORD];
static unsigned long answers[11], taken_requests;
static ucontext_t here, there;

/* The stack pointer: what a call pushes for itself lies below it. */
#define MARK() __asm__ volatile("mov %%rsp, %0" : "=r"(top))

static void resets(void) {
    MARK();
    for (int i = 0; i < CASES; i++) answers[tlcs900h_reset(records[i], TLCS900H_RECORD, rams[i], MEMORY, roms[i], MEMORY)]++;
}

static void steps(void) {
    MARK();
    for (int i = 0; i < CASES; i++) answers[tlcs900h_step(records[i], TLCS900H_RECORD, rams[i], MEMORY, roms[i], MEMORY, &place)]++;
}

static void runs(void) {
    MARK();
    for (int i = 0; i < CASES; i++)
        answers[tlcs900h_run(records[i], TLCS900H_RECORD, rams[i], MEMORY, roms[i], MEMORY, 20, &count, &place)]++;
}

static void shows(void) {
    MARK();
    for (int i = 0; i < CASES; i++) answers[tlcs900h_show(rams[i], MEMORY, roms[i], MEMORY, counter, &count)]++;
}

/* Levels 0 to 8, and a vector by turns in each memory and in neither. */
static void requests(void) {
    static const uint32_t vectors[] = {0x10, 0xFFFF10, 0x800000, 0x1000000};
    MARK();
    for (int i = 0; i < CASES; i++) {
        uint32_t level = (uint32_t)(i % 3 ? 7 : i % 9), vector = vectors[i % 5 ? i % 2 : i % 4];
        answers[tlcs900h_request(records[i], TLCS900H_RECORD, rams[i], MEMORY, roms[i], MEMORY, level, vector, &was_taken, &place)]++;
        taken_requests += was_taken;
    }
}

/* Every eighth record to move is a byte short. */
static size_t cut(size_t length, int i) { return i % 8 == 7 ? length - 1 : length; }

static void widens(void) {
    MARK();
    for (int i = 0; i < CASES; i++) answers[tlcs900h_widen(records[i], cut(TLCS900H_OLD_RECORD, i), moved, TLCS900H_RECORD)]++;
}

static void narrows(void) {
    MARK();
    for (int i = 0; i < CASES; i++) answers[tlcs900h_narrow(records[i], cut(TLCS900H_RECORD, i), moved, TLCS900H_OLD_RECORD)]++;
}

static void put(uint8_t *to, uint32_t value) {
    for (int i = 0; i < 4; i++, value >>= 8) to[i] = (uint8_t)value;
}

/* A case for every byte `behind` bytes behind the first one. */
static void prepare(int first, int second, int behind, int in_rom, uint32_t pointer) {
    counter = in_rom ? 0xFFFF10 : 0x10;
    memset(rams, 0, sizeof rams);
    memset(roms, 0, sizeof roms);
    for (int i = 0; i < CASES; i++) {
        uint8_t *code = (in_rom ? roms : rams)[i] + 0x10;
        code[0] = (uint8_t)first;
        code[1] = (uint8_t)second;
        code[1 + behind] = (uint8_t)i;
        put(roms[i], counter);
        for (int r = TLCS900H_XWA; r <= TLCS900H_XSP; r += 4) put(records[i] + r, pointer);
        put(records[i] + TLCS900H_COUNTER, counter);
        put(records[i] + TLCS900H_SR, i % 2 ? 0xF8D7 : 0xF800);
        put(records[i] + TLCS900H_NESTING, i % 8 == 1 ? 0 : (uint32_t)i); /* and no mark */
        records[i][TLCS900H_MARKS] = i % 4 ? 0 : 0x0F; /* every fourth has all marks, and the flags 0 */
    }
}

/* The bytes of stack that one round of calls takes. */
static size_t taken(void (*call)(void), int paint) {
    size_t clean = 0;
    memset(space, paint, sizeof space);
    getcontext(&there);
    there.uc_stack.ss_sp = space;
    there.uc_stack.ss_size = sizeof space;
    there.uc_link = &here;
    makecontext(&there, call, 0);
    swapcontext(&here, &there);
    while (space[clean] == paint) clean++;
    return (size_t)(top - space) - clean;
}

/* The most that it takes for a first and a second byte, with every byte in place of the second and behind it. */
static size_t most_of(void (*call)(void), int first, int second) {
    static const uint32_t pointers[] = {0x00000080, 0x00FFFF80, 0x00800000};
    size_t deepest = 0;
    for (int round = 0; round < 24; round++) {
        size_t bytes;
        prepare(first, second, round % 4, round / 4 % 2, pointers[round / 8]);
        bytes = taken(call, first % 2 ? 0xA5 : 0x5A);
        if (bytes > deepest) deepest = bytes;
    }
    return deepest;
}

/* The most that it takes for every kind of instruction. */
static size_t most(void (*call)(void)) {
    static const uint8_t codes[] = {0x00, 0x2C, 0xD8, 0xE4, 0xF0}; /* of longs, so that they name a word and a byte too */
    static const uint8_t feeds[] = {0x00, 0x0B, 0x39};             /* DIVS and MINC2, with every byte of what they are given */
    size_t deepest = 0;
    for (int first = 0; first < 256; first++) {
        int named = first == 0xC7 || first == 0xD7 || first == 0xE7;
        int of_register = first >= 0xC8 && first < 0xF0 && first & 8;
        for (size_t i = 0; i < (named ? sizeof codes : of_register ? sizeof feeds : 1); i++) {
            size_t bytes = most_of(call, first, named ? codes[i] : feeds[i]);
            if (bytes > deepest) deepest = bytes;
        }
    }
    return deepest;
}

static int keeps(const char *name, void (*call)(void)) {
    size_t bytes;
    memset(answers, 0, sizeof answers);
    bytes = most(call);
    printf("%s takes %lu bytes of stack at most; it answered 0 to 6 and 8 to 10 so often:", name, (unsigned long)bytes);
    for (int number = 0; number <= TLCS900H_NO_OLD_FORM; number++)
        if (number != TLCS900H_TOO_MANY) printf(" %lu", answers[number]);
    printf("\n");
    return bytes < TLCS900H_STACK && answers[0] > 0;
}

int main(void) {
    int passed = 0;
    passed += keeps("tlcs900h_reset", resets);
    passed += keeps("tlcs900h_step", steps);
    passed += keeps("tlcs900h_run", runs);
    passed += keeps("tlcs900h_show", shows);
    passed += keeps("tlcs900h_request", requests) && taken_requests > 0;
    passed += keeps("tlcs900h_widen", widens) && answers[TLCS900H_INVALID] > 0;
    passed += keeps("tlcs900h_narrow", narrows) && answers[TLCS900H_INVALID] > 0 && answers[TLCS900H_NO_OLD_FORM] > 0;
    printf("%d passed, %d failed\n", passed, 7 - passed);
    return passed != 7;
}
