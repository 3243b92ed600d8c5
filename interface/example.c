/* An example of the C interface: loads examples/loop.image, runs 1,000 steps and prints the registers as the program `twin` does, and
 * the timers; runs on with other durations; tries lengths that are refused; runs a store that is refused, and tells which page
 * register refused it; then prints instructions as mnemonic lines, reads them
 * back, and tries lines that are refused. Run it in the root of the repository. It ends with status 1 if anything is unexpected. */
#include <stdio.h>
#include <string.h>

#include "twin1750.h"

#if TWIN1750_VERSION != 5
#error "this example is written for version 5 of the interface"
#endif

enum { MEMORY = 16384, STEPS = 1000, BGT = 0x79 };

/* The machine. A list may be given with fewer words than it has. */
struct machine {
    uint16_t state[TWIN1750_STATE + 1];
    uint16_t memory[MEMORY];
    uint16_t pages[TWIN1750_PAGES + 1];
    uint16_t ports[TWIN1750_PORTS + 1];
};

static struct machine m, kept;

/* What every run is lent of durations. */
static uint16_t durations[TWIN1750_DURATIONS + 1];
static size_t durations_len = TWIN1750_DURATIONS;

static uint8_t image[32768];
static size_t image_len;

static int surprises = 0;

static void expect(const char *what, uint32_t answer, uint32_t number)
{
    if (answer != number) {
        fprintf(stderr, "%s: answer %u, expected %u\n", what, (unsigned)answer, (unsigned)number);
        surprises++;
    }
}

/* Reads the image; 0 if there is none. */
static int read_image(const char *path)
{
    FILE *file = fopen(path, "rb");
    if (file == NULL) {
        perror(path);
        return 0;
    }
    image_len = fread(image, 1, sizeof image, file);
    fclose(file);
    return 1;
}

static void print_eight(int first)
{
    printf("r%d", first);
    for (int n = first; n < first + 8; n++)
        printf(" %04X", (unsigned)m.state[n]);
    printf("\n");
}

static void print_state(void)
{
    printf("steps %d\n", STEPS);
    printf("ic %04X sw %04X mk %04X pi %04X ft %04X\n", (unsigned)m.state[TWIN1750_IC], (unsigned)m.state[TWIN1750_SW],
           (unsigned)m.state[TWIN1750_MK], (unsigned)m.state[TWIN1750_PI], (unsigned)m.state[TWIN1750_FT]);
    print_eight(0);
    print_eight(8);
}

/* Calls with given lengths: of the state, memory, page registers and ports. */
static uint32_t load(size_t words, size_t size, size_t pages, size_t ports)
{
    return twin1750_load(image, image_len, m.state, words, m.memory, size, m.pages, pages, m.ports, ports);
}

static uint32_t run(uint32_t budget, size_t words, size_t size, size_t pages, size_t ports)
{
    return twin1750_run(budget, durations, durations_len, m.state, words, m.memory, size, m.pages, pages, m.ports, ports);
}

/* A run with the right lengths of the machine. */
static uint32_t run_right(uint32_t budget)
{
    return run(budget, TWIN1750_STATE, MEMORY, TWIN1750_PAGES, TWIN1750_PORTS);
}

/* BGT takes so many tenths of a microsecond, every other step 100. */
static void lend(uint16_t tenths)
{
    for (int n = 0; n < TWIN1750_DURATIONS; n++)
        durations[n] = n == BGT ? tenths : 100;
}

/* Both timers, each with its remainder, which have to be these. */
static void timers(uint16_t a, uint16_t tenths_a, uint16_t b, uint16_t tenths_b)
{
    expect("timer A", m.state[TWIN1750_TIMER_A], a);
    expect("remainder A", m.state[TWIN1750_REMAINDER_A], tenths_a);
    expect("timer B", m.state[TWIN1750_TIMER_B], b);
    expect("remainder B", m.state[TWIN1750_REMAINDER_B], tenths_b);
    printf("timer A %u and %u tenths, timer B %u and %u tenths\n", (unsigned)a, (unsigned)tenths_a, (unsigned)b, (unsigned)tenths_b);
}

/* A call that was refused by the number has left the machine as it was kept. */
static void unchanged(const char *what, uint32_t number)
{
    if (memcmp(&kept, &m, sizeof m) != 0) {
        fprintf(stderr, "%s: a refusal changed something\n", what);
        surprises++;
    }
    printf("%s: refused %u\n", what, (unsigned)number);
}

/* Both calls with other lengths answer the number, and leave the whole machine as it was. */
static void refused(const char *what, uint32_t number, size_t words, size_t size, size_t pages, size_t ports)
{
    kept = m;
    expect(what, load(words, size, pages, ports), number);
    expect(what, run(1, words, size, pages, ports), number);
    unchanged(what, number);
}

/* A run with another number of durations, whatever its budget is. */
static void refused_durations(const char *what, size_t length)
{
    kept = m;
    durations_len = length;
    expect(what, run_right(0), TWIN1750_REFUSED_DURATIONS);
    expect(what, run_right(2000000), TWIN1750_REFUSED_DURATIONS);
    durations_len = TWIN1750_DURATIONS;
    unchanged(what, TWIN1750_REFUSED_DURATIONS);
}

/* The line of an instruction, and that line back. The bytes behind it stay. */
static void there_and_back(uint16_t first, uint16_t second, const char *line)
{
    uint8_t printed[TWIN1750_LINE];
    uint16_t words[2] = {0x1750, 0x1750};
    size_t length = 0, count = 0;
    memset(printed, '#', sizeof printed);
    expect("print", twin1750_print(first, second, printed, &length), TWIN1750_DONE);
    expect("length", (uint32_t)length, (uint32_t)strlen(line));
    expect("bytes that differ", memcmp(printed, line, strlen(line)) != 0, 0);
    expect("the byte behind the line", printed[length], '#');
    expect("read", twin1750_read(printed, length, words, &count), TWIN1750_DONE);
    expect("first word", words[0], first);
    expect("second word", words[1], count == 2 ? second : 0);
    printf("%.*s: %04X", (int)length, (const char *)printed, (unsigned)words[0]);
    if (count == 2)
        printf(" %04X", (unsigned)words[1]);
    printf("\n");
}

/* Reading the line answers the number, and leaves words and count as they were. */
static void refused_line(const char *line, uint32_t number)
{
    uint16_t words[2] = {0x1750, 0x1751};
    size_t count = 1752;
    expect(line, twin1750_read((const uint8_t *)line, strlen(line), words, &count), number);
    if (words[0] != 0x1750 || words[1] != 0x1751 || count != 1752) {
        fprintf(stderr, "%s: a refusal changed something\n", line);
        surprises++;
    }
    printf("%s: refused %u\n", line, (unsigned)number);
}

static void lines(void)
{
    uint8_t line[TWIN1750_LINE] = "as it was";
    size_t length = 1750;
    there_and_back(0x823F, 0, "LISP R3,16");
    there_and_back(0x8012, 0x0100, "L R1,0100,R2");
    there_and_back(0x74FE, 0x1750, "BR -2");
    refused_line("LIPS R3,16", TWIN1750_REFUSED_MNEMONIC);
    refused_line("LISP R3, 16", TWIN1750_REFUSED_OPERANDS);
    refused_line("LISP R3,17", TWIN1750_REFUSED_FIELD);
    expect("4900", twin1750_print(0x4900, 0, line, &length), TWIN1750_REFUSED_MNEMONIC);
    expect("line or length changed", memcmp(line, "as it was", 10) != 0 || length != 1750, 0);
    printf("4900: refused %d\n", TWIN1750_REFUSED_MNEMONIC);
}

/* Lengths that are refused; what is not looked at stays too. */
static void lengths(void)
{
    m.state[TWIN1750_MARKS] |= 0x8000;
    m.state[27] = 0x1750;
    m.state[TWIN1750_STATE - 1] = 0x1750;
    refused("no packed words", TWIN1750_REFUSED_STATE, 0, MEMORY, TWIN1750_PAGES, TWIN1750_PORTS);
    refused("32 packed words", TWIN1750_REFUSED_STATE, 32, MEMORY, TWIN1750_PAGES, TWIN1750_PORTS);
    refused("255 packed words", TWIN1750_REFUSED_STATE, TWIN1750_STATE - 1, MEMORY, TWIN1750_PAGES, TWIN1750_PORTS);
    refused("257 packed words", TWIN1750_REFUSED_STATE, TWIN1750_STATE + 1, MEMORY, TWIN1750_PAGES, TWIN1750_PORTS);
    refused("nothing at all", TWIN1750_REFUSED_STATE, 0, 0, 0, 0);
    refused("no memory", TWIN1750_REFUSED_MEMORY, TWIN1750_STATE, 0, TWIN1750_PAGES, TWIN1750_PORTS);
    refused("4,095 words of memory", TWIN1750_REFUSED_MEMORY, TWIN1750_STATE, 4095, TWIN1750_PAGES, TWIN1750_PORTS);
    refused("511 page registers", TWIN1750_REFUSED_PAGES, TWIN1750_STATE, MEMORY, TWIN1750_PAGES - 1, TWIN1750_PORTS);
    refused("513 page registers", TWIN1750_REFUSED_PAGES, TWIN1750_STATE, MEMORY, TWIN1750_PAGES + 1, TWIN1750_PORTS);
    refused("1,023 ports", TWIN1750_REFUSED_PORTS, TWIN1750_STATE, MEMORY, TWIN1750_PAGES, TWIN1750_PORTS - 1);
    refused("1,025 ports", TWIN1750_REFUSED_PORTS, TWIN1750_STATE, MEMORY, TWIN1750_PAGES, TWIN1750_PORTS + 1);
    refused_durations("no durations", 0);
    refused_durations("256 durations", TWIN1750_DURATIONS - 1);
    refused_durations("258 durations", TWIN1750_DURATIONS + 1);

    /* a call that is done leaves 0 there */
    expect("run of no steps", run_right(0), TWIN1750_DONE);
    expect("marks", m.state[TWIN1750_MARKS], TWIN1750_A_RUNS + TWIN1750_B_RUNS);
    expect("word 27", m.state[27], 0);
    expect("the last word", m.state[TWIN1750_STATE - 1], 0);
}

/* DST R1,0FFF in the reset machine, which no bytes load: the second word of the store lies in page 1, which may not be written. */
static void refused_store(void)
{
    image_len = 0;
    expect("load of no bytes", load(TWIN1750_STATE, MEMORY, TWIN1750_PAGES, TWIN1750_PORTS), TWIN1750_DONE);
    m.memory[0] = 0x9610;
    m.memory[1] = 0x0FFF;
    m.pages[256 + 1] = 0x0801;
    m.state[1] = 0x1750;
    expect("run", run_right(1), TWIN1750_DONE);
    expect("ft", m.state[TWIN1750_FT], 0x8000);
    expect("memory fault status", m.state[TWIN1750_MFS], 0x1000);
    expect("the first word", m.memory[0x0FFF], 0);
    printf("ft %04X mfs %04X: refused by the register of page %u, group %u of the %s set\n", (unsigned)m.state[TWIN1750_FT],
           (unsigned)m.state[TWIN1750_MFS], m.state[TWIN1750_MFS] / 4096u, m.state[TWIN1750_MFS] % 16u,
           m.state[TWIN1750_MFS] & 16 ? "instruction" : "operand");
}

int main(void)
{
    if (!read_image("examples/loop.image"))
        return 1;
    lend(100);
    expect("load", load(TWIN1750_STATE, MEMORY, TWIN1750_PAGES, TWIN1750_PORTS), TWIN1750_DONE);
    expect("run", run_right(STEPS), TWIN1750_DONE);
    print_state();
    timers(1000, 0, 100, 0);
    expect("ic", m.state[TWIN1750_IC], 1);
    expect("r3", m.state[3], 0x0010);
    expect("marks", m.state[TWIN1750_MARKS], TWIN1750_A_RUNS + TWIN1750_B_RUNS);
    expect("counter", 65536u * m.state[TWIN1750_COUNTER_HIGH] + m.state[TWIN1750_COUNTER_LOW], STEPS);

    /* 28 steps of 37 tenths are 1,036 tenths */
    lend(37);
    expect("run", run_right(28), TWIN1750_DONE);
    timers(1010, 36, 101, 36);
    lengths();
    refused_store();
    lines();
    return surprises == 0 ? 0 : 1;
}
