/* Measures the stack that each call takes: a stack of its own is painted, the call runs on it, and the deepest changed byte is looked for. */
#include "basintilt.h"

#include <stdio.h>
#include <string.h>

enum { STACK_BYTES = 32768, PAINT = 0xA5, BLOCKS_TRIED = 3, BLOCKS_PROBED = 4096 };

/* What docs/INTEGRATION.md says is enough. */
enum { ENOUGH_FOR_POWER_ON = 2048, ENOUGH_FOR_EVENT = 2048, ENOUGH_FOR_QUERY = 256, ENOUGH_FOR_ORIGIN = 2048 };

/* crates/stack_probe: the filled blocks, and 65,536 more where the journal is spoiled. */
uint32_t stack_probe(const uint8_t *journal, size_t journal_length);

static uint8_t stack[STACK_BYTES] __attribute__((aligned(16)));
static uint8_t journal[BLOCKS_PROBED * BASINTILT_BLOCK_BYTES];
static size_t journal_length;
static struct basintilt_device device;
static struct basintilt_stepped stepped;
static struct basintilt_answer answer;
static struct basintilt_happening happening;
static struct basintilt_finding finding;
static uint16_t asked_index;
static uint8_t asked_subindex;
static volatile uint32_t judged;
static volatile uint32_t probed;

static void power_on(void)
{
    stepped = basintilt_power_on(1, (struct basintilt_identity){1, 2, 3, 4}, journal, journal_length);
}

static void event(void)
{
    answer = basintilt_event(&device, journal, journal_length, happening);
}

static void block(void)
{
    judged = basintilt_block(journal, BASINTILT_BLOCK_BYTES, 1);
}

static void origin(void)
{
    finding = basintilt_origin(journal, journal_length, asked_index, asked_subindex);
}

static void probe(void)
{
    probed = stack_probe(journal, journal_length);
}

/* Makes the call on another stack. The own stack's place waits in a register that the call keeps. */
#if defined(__x86_64__)
static void call_on(uint8_t *top, void (*call)(void))
{
    __asm__ volatile("movq %%rsp, %%rbx\n\tmovq %0, %%rsp\n\tcallq *%1\n\tmovq %%rbx, %%rsp"
                     :
                     : "r"(top), "r"(call)
                     : "rax", "rbx", "rcx", "rdx", "rsi", "rdi", "r8", "r9", "r10", "r11", "cc", "memory", "xmm0",
                       "xmm1", "xmm2", "xmm3", "xmm4", "xmm5", "xmm6", "xmm7", "xmm8", "xmm9", "xmm10", "xmm11", "xmm12", "xmm13", "xmm14", "xmm15");
}
#elif defined(__arm__)
static void call_on(uint8_t *top, void (*call)(void))
{
    __asm__ volatile("mov r4, sp\n\tmov sp, %0\n\tblx %1\n\tmov sp, r4"
                     :
                     : "r"(top), "r"(call)
                     : "r0", "r1", "r2", "r3", "r4", "r12", "lr", "cc", "memory");
}
#endif

/* The bytes between the top of the painted stack and the deepest changed one. */
static size_t depth(void (*call)(void))
{
    size_t untouched = 0;
    memset(stack, PAINT, sizeof stack);
    call_on(stack + sizeof stack, call);
    while (untouched < sizeof stack && stack[untouched] == PAINT)
        untouched++;
    return sizeof stack - untouched;
}

static void note(size_t *most, size_t now)
{
    *most = now > *most ? now : *most;
}

/* A journal whose first blocks are good: saves, one after the other. */
static void fill(uint16_t filled)
{
    memset(journal, 0xFF, sizeof journal);
    power_on();
    device = stepped.device;
    happening = (struct basintilt_happening){.identifier = 0x601, .length = 8, .bytes = {0x23, 0x10, 0x10, 1, 's', 'a', 'v', 'e'}};
    for (uint16_t i = 0; i < filled; i++)
        event();
}

/* A journal full of good blocks that change the heartbeat's period by turns: saves of 100 ms and loads. */
static void fill_by_turns(uint16_t filled)
{
    fill(0);
    happening = (struct basintilt_happening){.identifier = 0x601, .length = 8, .bytes = {0x2B, 0x17, 0x10, 0, 100}};
    event();
    for (uint16_t i = 0; i < filled; i++) {
        happening.bytes[0] = 0x23;
        memcpy(happening.bytes + 1, i % 2 ? "\x11\x10\x01load" : "\x10\x10\x01save", 7);
        event();
    }
}

/* Every first byte of a request on every object, in Operational, with both axes good. */
static size_t requests(void)
{
    static const uint8_t firsts[] = {0x22, 0x23, 0x27, 0x2B, 0x2F, 0x40, 0x60, 0x70, 0x80, 0xFF};
    static const uint16_t indices[] = {0x1000, 0x1001, 0x1003, 0x1005, 0x1008, 0x1010, 0x1011, 0x1014, 0x1017, 0x1018,
                                       0x1200, 0x1201, 0x1800, 0x1A00, 0x2100, 0x2101, 0x6000, 0x6010, 0x6011, 0x6012,
                                       0x6013, 0x6014, 0x6020, 0x6021, 0x6022, 0x6023, 0x6024, 0x7000};
    size_t most = 0;
    for (size_t f = 0; f < sizeof firsts; f++)
        for (size_t i = 0; i < sizeof indices / sizeof *indices; i++)
            for (uint8_t sub = 0; sub < 7; sub++) {
                happening = (struct basintilt_happening){.identifier = 0x601 + 0x80 * (sub & 1), .length = 8};
                memcpy(happening.bytes, (uint8_t[]){firsts[f], (uint8_t)indices[i], (uint8_t)(indices[i] >> 8), sub, 's', 'a', 'v', 'e'}, 8);
                if (indices[i] == 0x1011)
                    memcpy(happening.bytes + 4, "load", 4);
                else if (indices[i] != 0x1010)
                    memset(happening.bytes + 4, 0, 4);
                note(&most, depth(event));
            }
    return most;
}

/* NMT commands, SYNC, ticks, readings, good and not. */
static size_t others(void)
{
    static const uint8_t commands[] = {0x01, 0x02, 0x80, 0x81, 0x82, 0x01};
    static const int32_t readings[] = {0, 180001, -180000, -180001, 90000};
    size_t most = 0;
    for (size_t i = 0; i < sizeof commands; i++) {
        happening = (struct basintilt_happening){.length = 2, .bytes = {commands[i], 0}};
        note(&most, depth(event));
        happening = (struct basintilt_happening){.identifier = 0x80};
        note(&most, depth(event));
        happening = (struct basintilt_happening){.kind = BASINTILT_TICK, .ms = 100};
        note(&most, depth(event));
        for (size_t k = 0; k < 2 * sizeof readings / sizeof *readings; k++) {
            happening = (struct basintilt_happening){.kind = k % 2 ? BASINTILT_READING_X : BASINTILT_READING_Y, .m = readings[k / 2]};
            note(&most, depth(event));
        }
    }
    return most;
}

/* Every LSS command in Stopped and in both modes, the four matches in their order among them; then resets with the number that was set. */
static size_t lss_requests(void)
{
    size_t most = 0;
    device.network = BASINTILT_STOPPED;
    for (unsigned i = 0; i < 2 * 256; i++) {
        device.lss.mode = i < 256 ? BASINTILT_WAITING : BASINTILT_CONFIGURATION;
        happening = (struct basintilt_happening){.identifier = BASINTILT_LSS_REQUEST_AT, .length = 8, .bytes = {(uint8_t)i, i % 4 + 1}};
        note(&most, depth(event));
    }
    note(&most, others());
    return most;
}

/* Every setting, subindices beside, and an index that has none. */
static size_t origins(void)
{
    static const uint16_t indices[] = {0x1017, 0x1800, 0x6000, 0x6011, 0x6012, 0x6013, 0x6014, 0x6021, 0x6022, 0x6023, 0x6024, 0x7000};
    size_t most = 0;
    for (size_t i = 0; i < sizeof indices / sizeof *indices; i++) {
        asked_index = indices[i];
        for (asked_subindex = 0; asked_subindex < 6; asked_subindex++)
            note(&most, depth(origin));
    }
    return most;
}

static int over(const char *what, unsigned blocks, size_t bytes, size_t enough)
{
    printf("%s, %u blocks: %u bytes of stack%s\n", what, blocks, (unsigned)bytes, bytes > enough ? ", TOO MANY" : "");
    return bytes > enough;
}

/* What power-on counts, over more blocks than it accepts: so many are good, and it goes over all the blank ones behind them. */
static int over_long_journal(uint16_t filled)
{
    journal_length = BASINTILT_MOST_BLOCKS * BASINTILT_BLOCK_BYTES;
    fill(filled);
    journal_length = sizeof journal;
    size_t bytes = depth(probe);
    if (probed != filled)
        printf("%u blocks are counted, not %u\n", (unsigned)probed, filled);
    return (probed != filled) + over(filled ? "what power-on counts, some good" : "what power-on counts, all blank", BLOCKS_PROBED, bytes, ENOUGH_FOR_POWER_ON);
}

int main(void)
{
    static const uint16_t blocks[BLOCKS_TRIED] = {1, 2, BASINTILT_MOST_BLOCKS};
    int failures = 0;
    for (int i = 0; i < BLOCKS_TRIED; i++) {
        journal_length = (size_t)blocks[i] * BASINTILT_BLOCK_BYTES;
        fill(0);
        failures += over("power-on, all blank", blocks[i], depth(power_on), ENOUGH_FOR_POWER_ON);
        failures += over("origin query, all blank", blocks[i], origins(), ENOUGH_FOR_ORIGIN);
        fill(blocks[i]);
        failures += over("power-on, all good", blocks[i], depth(power_on), ENOUGH_FOR_POWER_ON);
        failures += over("origin query, all good", blocks[i], origins(), ENOUGH_FOR_ORIGIN);
        fill_by_turns(blocks[i]);
        failures += over("origin query, all good and changed", blocks[i], origins(), ENOUGH_FOR_ORIGIN);
        fill(0);
        size_t most = others();
        note(&most, requests());
        fill(0);
        note(&most, lss_requests());
        failures += over("an event, the deepest", blocks[i], most, ENOUGH_FOR_EVENT);
    }
    failures += over_long_journal(0) + over_long_journal(BASINTILT_MOST_BLOCKS);
    return failures + over("block query", 1, depth(block), ENOUGH_FOR_QUERY);
}
