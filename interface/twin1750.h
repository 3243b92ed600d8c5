/* The C interface of the twin of the MIL-STD-1750A: four calls, in the static library libcapi.a. Two load and run a machine; two go
 * between the words of an instruction and its mnemonic line.
 *
 * The machine is lent by the caller as four lists of 16-bit words, in the byte order of the host:
 *
 *   state    256 words, the packed state: see below
 *   memory   one word per physical address: a multiple of 4,096 words, from 4,096 to 1,048,576
 *   pages    512 page registers: 0 to 255 the instruction set, 256 to 511 the operand set, each at 16 x group + page
 *   ports    1,024 ports
 *
 * A run is also lent 257 durations, in tenths of a microsecond, which it only reads: numbers 0 to 255 are those of the opcodes,
 * legal or not, 256 is that of a step that fetches no first word, which enters an interrupt or has its first fetch refused. At the
 * end of each step its duration is added to the remainder of each timer that runs; timer A rises once for each 100 tenths in the sum,
 * timer B once for each 1,000, and what is left is the new remainder. Two runs may be lent different durations.
 *
 * Each pointer to a list is followed by the number of elements that it points to. A pointer is not null, also where that number is
 * 0, as with an image of no bytes, and is aligned for its type; no two of the lists overlap, and neither the image of a load nor the
 * durations of a run overlap any of them. Any number may be given, and one that is wrong is refused. A call keeps nothing after it has
 * returned, takes nothing from the heap, and may run beside a call on other lists; durations may be lent to both.
 *
 * A mnemonic line is the bytes of one instruction in the mnemonics of section 5 of the standard, such as LISP R3,16. It has no
 * newline and is not ended by a NUL: its length is a number of its own. The calls on lines take no machine. What they write to has a
 * size by its type: 256 bytes for a line, two words, one number for a length or a count. The rules for pointers hold for these too;
 * none of them overlaps another or the line that is read.
 *
 * Words of the packed state (bit 0 is the most significant bit of a word, bit 15 the least significant):
 *
 *   0 to 15  R0 to R15
 *   16       IC, the instruction counter
 *   17       SW, the status word
 *   18       MK, the interrupt mask
 *   19       PI, the pending interrupts
 *   20       FT, the faults
 *   21       marks: bit 15 interrupts enabled, bit 14 hold, bit 13 timer A running, bit 12 timer B running;
 *            bits 0 to 11 are not looked at, and 0 after a call that is done
 *   22, 23   timer A, timer B
 *   24, 25   the remainders of timer A and of timer B, in tenths of a microsecond; any number may be given
 *   26       MFS, the memory fault status, which tells the page register that refused the most recent access that set a bit of FT:
 *            bits 0 to 3 its page, bit 11 set for the instruction set, bits 12 to 15 its group; 0 after a reset. Any word may be given
 *   27 to 30 kept for parts of a later version
 *   32, 33   the step counter, its high word first
 *
 * Every word that is not named here, or is kept, is not looked at, and is 0 after a call that is done.
 *
 * An answer is 0 when the call is done, else the number of the first question that was answered by "no". A refusal changes nothing:
 * state, memory, page registers and ports are as they were, down to the words and bits that are not looked at, and so are the line
 * and its length, the words and their count.
 */
#ifndef TWIN1750_H
#define TWIN1750_H

#include <stddef.h>
#include <stdint.h>

#ifdef __cplusplus
extern "C" {
#endif

/* The version of this interface. It rises when a word of the layout or a call changes its meaning. */
#define TWIN1750_VERSION 5

/* The numbers of packed words, page registers and ports that a call takes, and of durations that a run takes. */
enum {
    TWIN1750_STATE = 256,
    TWIN1750_PAGES = 512,
    TWIN1750_PORTS = 1024,
    TWIN1750_DURATIONS = 257
};

/* The bytes that a line is printed into; the longest line has 17. */
enum {
    TWIN1750_LINE = 256
};

/* The words of the packed state after R0 to R15. */
enum {
    TWIN1750_IC = 16,
    TWIN1750_SW = 17,
    TWIN1750_MK = 18,
    TWIN1750_PI = 19,
    TWIN1750_FT = 20,
    TWIN1750_MARKS = 21,
    TWIN1750_TIMER_A = 22,
    TWIN1750_TIMER_B = 23,
    TWIN1750_REMAINDER_A = 24,
    TWIN1750_REMAINDER_B = 25,
    TWIN1750_MFS = 26,
    TWIN1750_COUNTER_HIGH = 32,
    TWIN1750_COUNTER_LOW = 33
};

/* The marks, by the weights of their bits. */
enum {
    TWIN1750_ENABLED = 1,
    TWIN1750_HOLD = 2,
    TWIN1750_A_RUNS = 4,
    TWIN1750_B_RUNS = 8
};

/* The answers: done, or the question that was answered by "no". A load and a run ask 100 first, then 1 to 3; then a run asks 17, 4
 * and 5, a load 6 to 12, of which 9 to 11 are asked entry by entry. An image of no bytes is asked none after 6. Reading a line asks
 * 14, then 15 of the whole line, then 16; printing asks 14 alone. */
enum {
    TWIN1750_DONE = 0,
    TWIN1750_REFUSED_MEMORY = 1,        /* is memory a multiple of 4,096 words, from 4,096 to 1,048,576? */
    TWIN1750_REFUSED_PAGES = 2,         /* are there exactly 512 page registers? */
    TWIN1750_REFUSED_PORTS = 3,         /* are there exactly 1,024 ports? */
    TWIN1750_REFUSED_BUDGET = 4,        /* is the budget at most 1,000,000? */
    TWIN1750_REFUSED_COUNTER = 5,       /* is counter plus budget at most 4,294,967,295? */
    TWIN1750_REFUSED_NO_COUNT = 6,      /* does the image have no bytes, or at least two? */
    TWIN1750_REFUSED_MANY_ENTRIES = 7,  /* does it have at most 64 entries? */
    TWIN1750_REFUSED_SHORT_TABLE = 8,   /* is its table whole? */
    TWIN1750_REFUSED_KIND = 9,          /* is the kind 1 to 4? */
    TWIN1750_REFUSED_RANGE = 10,        /* is the length at least 1, and start plus length within the target? */
    TWIN1750_REFUSED_SHARED_WORD = 11,  /* is no word shared with an earlier entry of the same kind? */
    TWIN1750_REFUSED_BODIES = 12,       /* do exactly the bodies follow? */
    TWIN1750_REFUSED_MNEMONIC = 14,     /* is the mnemonic known? print: does the first word begin a legal instruction? */
    TWIN1750_REFUSED_OPERANDS = 15,     /* do the operands have the form of the instruction's box? */
    TWIN1750_REFUSED_FIELD = 16,        /* is each operand inside its field? */
    TWIN1750_REFUSED_DURATIONS = 17,    /* are there exactly 257 durations? */
    TWIN1750_REFUSED_STATE = 100        /* is the packed state exactly 256 words? */
};

/* Loads an image: resets the machine, then writes the bodies. One of no bytes, with length 0, leaves the machine as reset. Of what
 * is lent only the lengths matter to an accepted image. */
uint32_t twin1750_load(const uint8_t *image, size_t image_len,
                       uint16_t *state, size_t state_len,
                       uint16_t *memory, size_t memory_len,
                       uint16_t *pages, size_t pages_len,
                       uint16_t *ports, size_t ports_len);

/* Runs exactly as many steps as the budget says; by the durations of these the timers rise. */
uint32_t twin1750_run(uint32_t budget,
                      const uint16_t *durations, size_t durations_len,
                      uint16_t *state, size_t state_len,
                      uint16_t *memory, size_t memory_len,
                      uint16_t *pages, size_t pages_len,
                      uint16_t *ports, size_t ports_len);

/* Prints an instruction: its line at the start of `line`, whose other bytes stay, and the length of the line, at most 17. The second
 * word is looked at only where the instruction has one. 14: the first word begins no legal instruction. */
uint32_t twin1750_print(uint16_t first, uint16_t second,
                        uint8_t line[TWIN1750_LINE], size_t *length);

/* Reads a line of any length: its words, and how many they are, 1 or 2. The second word of an instruction of one word is 0, and so
 * are the fields of the first that no line shows. 14 to 16: the line is refused. */
uint32_t twin1750_read(const uint8_t *line, size_t line_len,
                       uint16_t words[2], size_t *count);

#ifdef __cplusplus
}
#endif

#endif
