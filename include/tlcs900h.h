/*
 * A proved TLCS-900/H core: reset, one step, many steps, requests for an interrupt, the length of an instruction, and records
 * of the old form moved to the new one and back.
 *
 * Link with libtlcs900h.a (x86-64 Linux), or, where flash is short, with the archive of that name in the folder flash: the same
 * calls with the same answers, in fewer bytes, and slower by up to a fifth. Either calls no other function, keeps nothing between
 * calls and allocates nothing: two threads may call it at once, each with its own record and RAM. A call takes less than
 * TLCS900H_STACK bytes of stack (measured over every kind of instruction, not proved). What tlcs900h_show needs is linked only
 * where it is called, and so is what tlcs900h_widen and tlcs900h_narrow need. With --gc-sections a linker of GNU's kind also
 * leaves out each of the other calls that the program does not make.
 *
 * The machine
 *   RAM  holds the addresses 0 to ram_len - 1.
 *   ROM  holds the top addresses and ends at FFFFFFH: its first byte stands at 1000000H - rom_len.
 *   Either may be empty, and neither may be longer than TLCS900H_MEMORY bytes.
 *
 * The record is the whole state of the machine, TLCS900H_RECORD bytes, every number low byte first:
 *   offset  0   XWA XBC XDE XHL of bank 0, of bank 1, of bank 2, of bank 3: four bytes each
 *   offset 64   XIX XIY XIZ XSP: four bytes each
 *   offset 80   the program counter, four bytes, below 2^24
 *   offset 84   SR, two bytes: F in bits 0 to 7 (S 7, Z 6, H 4, V 2, N 1, C 0; bits 5 and 3 zero),
 *               the bank in bits 8 to 10 (0 to 3), bit 11 one, the interrupt level in bits 12 to 14, bit 15 one
 *   offset 86   F', one byte (bits 5 and 3 zero)
 *   offset 87   a zero byte
 *   offset 88   the nesting count, two bytes: 1 more for each request taken, 1 less for each RETI; it goes round at 65,536
 *   offset 90   the marks: bit 0 H of F, bit 1 V of F, bit 2 H of F', bit 3 V of F'; the other bits zero
 *   offset 91   a zero byte
 * A marked flag is one that Toshiba's book leaves undefined after the instruction that wrote it last: H after ADD, ADC, SUB,
 * SBC and CP of a long and after CCF and ZCF, V after AND, OR, XOR and the shifts of a long. Its bit is 0, and a record where
 * it is 1 is no state's. The mark goes when the flag gets a value; EX F,F' exchanges those of F and F'; POP F, POP SR and
 * RETI clear those of F; reset leaves none.
 *
 * A record may be copied, stored and handed back later; tlcs900h_reset makes the first one. A run of 0 steps tells whether a
 * record is good: with both memories empty it changes nothing, and answers 0 for a state's record and 2 for any other.
 *
 * Before 3.0 a record had only the first TLCS900H_OLD_RECORD of these bytes. No call but tlcs900h_widen takes such an old
 * record; it makes it a new one. To go back, call tlcs900h_narrow, and do not just cut a record off: it refuses one that has
 * a mark or whose nesting count is not 0, which the old record cannot hold.
 *
 * Parts of a register: WA is the low two bytes of XWA, A its byte 0 and W its byte 1. So it is with BC, C and B; with DE, E
 * and D; with HL, L and H; and IX, IY, IZ and SP are the low two bytes of theirs. The bank in use is
 * record[TLCS900H_BANK] & 3; its registers stand TLCS900H_BANK_SIZE times that number behind those of bank 0. The A that
 * the firmware sees is
 *   record[TLCS900H_BANK_SIZE * (record[TLCS900H_BANK] & 3) + TLCS900H_A]
 *
 * Registers of every bank: behind C7, D7 or E7 stands a code byte, which names a byte, a word or a long. Its lowest byte stands
 * in the record at this offset, where `bank` is the bank in use:
 *   00H to 3FH   code: banks 0 to 3. 20H is RA2, RWA2 or XWA2, 21H is RW2, 22H is QA2 or QWA2, 23H is QW2
 *   D0H to DFH   TLCS900H_BANK_SIZE * ((bank + 3) % 4) + code % 16: the bank before. D0H is A', WA' or XWA'
 *   E0H to EFH   TLCS900H_BANK_SIZE * bank + code % 16: the bank in use. E0H is A, WA or XWA
 *   F0H to FFH   TLCS900H_XIX + code % 16: what all banks share. F0H is IXL, IX or XIX
 * A word needs an even code, a long a multiple of 4. 40H to CFH name no register. A code byte that names none is refused
 * with 4.
 *
 * Multiply, divide, modulo steps: r is a byte or a word, by C8+r or D8+r or by C7 or D7 and a code byte. Then comes
 *   40+R MUL, 48+R MULS, 50+R DIV, 58+R DIVS   of a destination, by r. The destination is twice as wide as r and of the bank in
 *                                              use: for bytes R is 1 WA, 3 BC, 5 DE, 7 HL; for words 0 XWA, 1 XBC .. 7 XSP
 *   08 MUL, 09 MULS, 0A DIV, 0B DIVS           of the destination whose lower half r is, by a constant of r's size. So for
 *                                              bytes r is 1 WA, 3 BC, 5 DE or 7 HL, or has an even code byte (F0H is IX);
 *                                              for words it is any r, or has a code byte that is a multiple of 4
 *   38 MINC1, 39 MINC2, 3A MINC4               of a word r, and as a word num less the step of 1, 2 or 4. num is 2^n: at most
 *   3C MDEC1, 3D MDEC2, 3E MDEC4               32,768, and at least 2, 4 or 8 with the step 1, 2 or 4
 * Other operand codes of these are refused with 4: another R, r, code byte or num, a long, and an operand in memory; so are
 * 3BH and 3FH.
 *   MUL, MULS   multiply the destination's lower half. The product fills the destination. No flag and no mark changes
 *   DIV, DIVS   divide the whole destination: the quotient goes into its lower half and the remainder into its upper half, and
 *               V is 0. With signs (DIVS) the quotient is rounded toward zero, and a remainder that is not 0 has the dividend's
 *               sign. V is 1, and the destination stays as it was, where the divisor is 0 or the quotient does not fit: for
 *               bytes DIV has room for 0 to 255 and DIVS for -128 to 127, for words 0 to 65,535 and -32,768 to 32,767. V has a
 *               value either way, so that its mark goes and a jump behind it that reads V is not refused with 8. The other
 *               flags stay, and so does H's mark
 *   MINC, MDEC  move a pointer by the step in a table of num bytes, which begins at a multiple of num: MINC up, and from the
 *               last entry to the first, MDEC down, and from the first entry to the last. No flag and no mark changes, and
 *               no part of the register but the word. A pointer that is no multiple of the step is at no entry: it is moved
 *               too, but does not turn round, and so leaves its table. With num 8 MINC2 goes from 1237H to 1239H
 * Both operands are read before the result is written, so that one may be a part of the other.
 *
 * The caller's part
 *   Every pointer is the caller's memory, lent for the length of the call. Each must be good for the length that follows
 *   it, and for writing where it is not const. A null pointer with length 0 is an empty memory, or a record of no bytes.
 *   `done`, `taken`, `at` and `length` are never null. The parts of one call must not overlap: `done` and `at` are two
 *   variables, and so are `taken` and `at`; a record is moved to another place than its own. Nothing else may write any of
 *   them while it runs.
 *
 * The answer of each call is a number, 0 to 10, and depends on nothing but what the call is given. A step or run that was
 * refused with 1 to 6 or 8, asked again for a step or more, is refused with the same number and address (and *done is then 0)
 * until the caller changes what it hands over. So it is with a refused request that is offered again.
 *
 * Which address: a step, a run and a request write *at every time. With 5 and 6 it is an address below 2^24, and it may be 0;
 * with any other number, 0 too, it is 0. So look at the number, and not at *at, for what happened; the counter in the record
 * is then that of the refused instruction (after a request: of the next one). An operand is what an instruction reads or
 * stores in memory: the bytes at an address that it names, what it pushes or pops, a return address, an element of a copy or
 * compare. RETI pops one of six bytes; a request has two, its vector of four bytes and the six that it pushes. The first byte
 * of an operand is the one with the address that is named, modulo 2^24 (for a push: XSP less the operand's size); the byte
 * after FFFFFFH is 000000H.
 *   With 5 *at is the address of the operand's first byte, if that lies in neither memory; otherwise that of the first of its
 *   bytes that is not in the same memory as its first byte. So four bytes from ram_len - 2 on give ram_len, and four bytes
 *   from FFFFFEH on, with ROM there, give 000000H.
 *   With 6 *at is the address of the first byte that would have been stored.
 * A copy looks for its source first: where that is missing, *at tells of it, whatever the target is. A request looks for its
 * vector first, and then for its stack.
 */
#ifndef TLCS900H_INCLUDED
#define TLCS900H_INCLUDED

#include <stddef.h>
#include <stdint.h>

#ifdef __cplusplus
extern "C" {
#endif

/*
 * The version of this header and of the archives beside it. The first number grows where a program that was right before
 * has to be changed; the second where something was added.
 *   1.0  the first
 *   1.1  LDF with 04 to 07 is done, where it was refused with 4: it selects the bank of the number's low two bits, 0 to 3
 *   2.0  tlcs900h_step and tlcs900h_run have one more parameter, `at`: the address that goes with 5 and 6. Compile again all
 *        that calls them: the linker does not notice an old call
 *   3.0  a record has 92 bytes, with the marks at offset 90; one of 88 is refused with 2 (see 3.2). A jump whose condition
 *        reads a marked V, and PUSH F with a mark of F set, are refused with 8; before, they took the undefined flag as 0
 *   3.1  tlcs900h_request, and its number 9. PUSH SR (02), POP SR (03), EI (06, then 00 to 07) and RETI (07) are done, where
 *        they were refused with 4. The record has the nesting count at offset 88, where two zero bytes were
 *   3.2  tlcs900h_widen makes an old record of 88 bytes a new one; tlcs900h_narrow goes back, and has the number 10
 *   3.3  C7, D7 and E7, each with a code byte that names a register of any bank, are done in place of C8 to CF, D8 to DF and
 *        E8 to EF, where they were refused with 4. An instruction has 1 to 7 bytes, where it had 1 to 6: see tlcs900h_show
 *   3.4  MUL, MULS, DIV and DIVS of bytes and words, by a register or a constant, and MINC1, MINC2, MINC4, MDEC1, MDEC2 and MDEC4
 *        are done, where they were refused with 4
 */
#define TLCS900H_VERSION_MAJOR 3
#define TLCS900H_VERSION_MINOR 4

#define TLCS900H_RECORD 92          /* the bytes of a record */
#define TLCS900H_OLD_RECORD 88      /* the bytes of an old record, as it was before 3.0 */
#define TLCS900H_MEMORY 65536       /* the most bytes of RAM, and of ROM */
#define TLCS900H_LEAST_ROM 256      /* the fewest bytes of ROM for a reset */
#define TLCS900H_MOST_STEPS 1000000 /* the most steps of a run */
#define TLCS900H_STACK 2048         /* a call takes less stack than so many bytes */

/* Offsets in a record. */
enum {
    /* of bank 0; those of bank b stand TLCS900H_BANK_SIZE * b bytes behind */
    TLCS900H_XWA = 0,
    TLCS900H_XBC = 4,
    TLCS900H_XDE = 8,
    TLCS900H_XHL = 12,
    TLCS900H_BANK_SIZE = 16,
    /* their bytes 0 and 1 */
    TLCS900H_A = 0,
    TLCS900H_W = 1,
    TLCS900H_C = 4,
    TLCS900H_B = 5,
    TLCS900H_E = 8,
    TLCS900H_D = 9,
    TLCS900H_L = 12,
    TLCS900H_H = 13,
    /* the same in every bank */
    TLCS900H_XIX = 64,
    TLCS900H_XIY = 68,
    TLCS900H_XIZ = 72,
    TLCS900H_XSP = 76,
    TLCS900H_COUNTER = 80,
    TLCS900H_SR = 84,
    TLCS900H_F = 84,       /* the low byte of SR */
    TLCS900H_BANK = 85,    /* the high byte of SR: the bank in use is its low two bits, the interrupt level its bits 4 to 6 */
    TLCS900H_F_PRIME = 86, /* F' */
    TLCS900H_NESTING = 88, /* the nesting count */
    TLCS900H_MARKS = 90    /* the marks */
};

/* The bits of the marks of F; those of F' stand two bits above. */
enum {
    TLCS900H_MARK_H = 1,
    TLCS900H_MARK_V = 2
};

/* The numbers that a call answers. */
enum {
    TLCS900H_DONE = 0,        /* done */
    TLCS900H_TOO_LONG = 1,    /* RAM or ROM is longer than 65,536 bytes */
    TLCS900H_INVALID = 2,     /* a record, or the room for one, has the wrong length; a record is no state's; an address to show is 2^24 or more */
    TLCS900H_NO_CODE = 3,     /* no memory at the counter, or the instruction goes on where its memory ends */
    TLCS900H_UNLISTED = 4,    /* the bytes at the counter begin no listed instruction */
    TLCS900H_MISSING = 5,     /* an operand lies in neither memory, or only partly in one, see *at; at reset: ROM has fewer than 256 bytes */
    TLCS900H_TO_ROM = 6,      /* a store would go to ROM, see *at */
    TLCS900H_TOO_MANY = 7,    /* a run is asked for more than 1,000,000 steps */
    TLCS900H_UNDEFINED = 8,   /* a jump reads V (LT, LE, V, their opposites) and V is marked; or PUSH F or PUSH SR, and H or V of F is marked */
    TLCS900H_BAD_REQUEST = 9, /* a request's level is not 1 to 7, or its vector's address is 2^24 or more */
    TLCS900H_NO_OLD_FORM = 10 /* a record to narrow has a mark, or its nesting count is not 0: 88 bytes cannot hold its state */
};

/* A few words for a number, to print. A program that does not call this holds none of them. */
static inline const char *tlcs900h_name(uint8_t number) {
    switch (number) {
    case TLCS900H_DONE: return "done";
    case TLCS900H_TOO_LONG: return "memory too long";
    case TLCS900H_INVALID: return "not valid";
    case TLCS900H_NO_CODE: return "no code there";
    case TLCS900H_UNLISTED: return "code not listed";
    case TLCS900H_MISSING: return "operand missing";
    case TLCS900H_TO_ROM: return "store to ROM";
    case TLCS900H_TOO_MANY: return "too many steps";
    case TLCS900H_UNDEFINED: return "undefined flag";
    case TLCS900H_BAD_REQUEST: return "bad request";
    case TLCS900H_NO_OLD_FORM: return "no old form";
    default: return "no such number";
    }
}

/*
 * Writes the record of the reset state: XSP 100H, bank 0, level 7, everything else zero, and the counter from the low 24
 * bits of the four bytes at FFFF00H. No flag is marked, and the nesting count is 0. RAM is only measured.
 * Looks for 1, then 5, then 2 (a buffer that is not TLCS900H_RECORD bytes long; what it holds does not matter).
 * A refusal leaves the buffer as it was.
 */
uint8_t tlcs900h_reset(uint8_t *record, size_t record_len, const uint8_t *ram, size_t ram_len, const uint8_t *rom, size_t rom_len);

/*
 * Does the one instruction at the counter: the record and RAM are then those after it.
 * Looks for 1, then 2, then 3 or 4, then 8, then 5, then 6. A refusal leaves the record and RAM as they were; with 5
 * and 6 *at says which address it was. With 8 a jump is refused whether it would be taken or not.
 * A repeating copy or compare does one round a step and stays at its address until it ends.
 */
uint8_t tlcs900h_step(uint8_t *record, size_t record_len, uint8_t *ram, size_t ram_len, const uint8_t *rom, size_t rom_len, uint32_t *at);

/*
 * Does `steps` steps, or those before the first one refused, and answers with that step's number.
 * *done is the count of steps done, and the record and RAM are those after them; *at is that step's, 0 where all were done.
 * Looks for 7, then 1, then 2, even for 0 steps; after one of these *done is 0 and the record and RAM are as they were.
 */
uint8_t tlcs900h_run(uint8_t *record, size_t record_len, uint8_t *ram, size_t ram_len, const uint8_t *rom, size_t rom_len, uint32_t steps, uint32_t *done, uint32_t *at);

/*
 * Offers a request for an interrupt, between two steps. Its level is 1 to 7; `vector` is the address, below 2^24, of the four
 * bytes that hold the handler's address, low byte first.
 *
 * It is taken if its level is at least the mask, which is the interrupt level in SR. Mask 0 counts as 1; level 7 is always
 * taken. To take it is no step, and no run counts it. This is then done:
 *   the counter and SR are pushed as one operand of six bytes, and XSP is 6 less: SR in two, above it the counter in four
 *   the mask is the level plus 1; after level 7 it is 7
 *   the nesting count is 1 more; after 65,535 comes 0
 *   the counter is the low 24 bits of the vector's four bytes
 * All else stays, bank and flags too. A marked flag is pushed as the 0 that it is, and its mark stands: the request is not
 * refused for it, but in the handler PUSH F, PUSH SR and jumps that read V may be. No other register is saved: the handler
 * must keep what the firmware uses. It ends with RETI, which pops the six bytes, takes 1 off the count and so goes on where
 * the firmware was, at a repeating copy or compare too. No flag of F is marked then: flags that were popped count as known,
 * so that a jump or push which answers 8 without the request may be done after it.
 *
 * Looks for 1, then 2, then 9. Then a request that the mask keeps out is not taken: the answer is 0, and nothing is read or
 * changed. One that is let in looks for 5 of the vector's four bytes, then for 5 and then 6 of the six bytes below XSP.
 * *taken is 1 where the request was taken and 0 after every other call; *at is as after a step. Both are written every time.
 * A refusal and a request not taken leave the record and RAM as they were.
 *
 * The caller decides when to offer: between any two calls of step or run. A request not taken is not remembered: offer it
 * again. After a reset the mask is 7, so that only level 7 is taken until the firmware lowers it (EI, POP SR or RETI). In the
 * handler of a level below 7 the mask keeps out that level and those below it, until the handler lowers it itself. Level 7
 * has no mask above it: after it the mask is 7, which lets level 7 in again and no other, even before its handler's first
 * step. So offer it once for each event.
 */
uint8_t tlcs900h_request(uint8_t *record, size_t record_len, uint8_t *ram, size_t ram_len, const uint8_t *rom, size_t rom_len,
                         uint32_t level, uint32_t vector, uint8_t *taken, uint32_t *at);

/*
 * Sets *length to the number of bytes (1 to 7) of the instruction at an address; the caller finds them there.
 * Looks for 1, then 2 (an address of 2^24 or more), then 3 or 4. After a refusal *length is 0.
 */
uint8_t tlcs900h_show(const uint8_t *ram, size_t ram_len, const uint8_t *rom, size_t rom_len, uint32_t address, uint32_t *length);

/*
 * Moves an old record to the new form: the same TLCS900H_OLD_RECORD bytes, and behind them four zero bytes, so that the nesting
 * count is 0 and no flag is marked. The state in it is the same. A flag that was undefined when the old record was made is 0
 * in it, as before 3.0, and counts as known.
 * Looks for 2: `old` is not TLCS900H_OLD_RECORD bytes long, or they are no state's; or the room for the new one is not
 * TLCS900H_RECORD bytes. What the room holds does not matter, and a refusal leaves it as it was.
 */
uint8_t tlcs900h_widen(const uint8_t *old, size_t old_len, uint8_t *new_, size_t new_len);

/*
 * Moves a record back to the old form: its first TLCS900H_OLD_RECORD bytes. What was widened and is narrowed is the same bytes
 * again, and so is what was narrowed and is widened.
 * Looks for 2: `new_` is not TLCS900H_RECORD bytes long, or they are no state's; or the room for the old one is not
 * TLCS900H_OLD_RECORD bytes. Then for 10: the nesting count is not 0, or a flag is marked. The old form has no place for
 * these. A refusal leaves the room as it was.
 */
uint8_t tlcs900h_narrow(const uint8_t *new_, size_t new_len, uint8_t *old, size_t old_len);

#ifdef __cplusplus
}
#endif

#endif
