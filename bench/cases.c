/* Each kind of event once, power-on over blank and over full journals of 128 blocks, and the queries. */
#include "cases.h"

#define REQUEST(a, b, c, d, e, f, g, h) { BENCH_FRAME, 0x600 + BENCH_NODE, 8, { a, b, c, d, e, f, g, h }, 0 }
#define NETWORK(command) { BENCH_FRAME, 0x000, 2, { command, BENCH_NODE }, 0 }
#define LSS(command, number) { BENCH_FRAME, 0x7E5, 8, { command, number }, 0 }
#define SYNC { BENCH_FRAME, 0x080, 0, { 0 }, 0 }
#define TICK(ms) { BENCH_TICK, 0, 0, { 0 }, ms }
#define READING(m) { BENCH_READING_X, 0, 0, { 0 }, m }
#define POWER_ON { BENCH_POWER_ON, 0, 0, { 0 }, 0 }
#define BLOCK { BENCH_BLOCK, 0, 0, { 0 }, 0 }
#define ORIGIN(index, subindex) { BENCH_ORIGIN, index, subindex, { 0 }, 0 }

#define START NETWORK(0x01)
#define STOP NETWORK(0x02)
#define CONFIGURATION LSS(0x04, 1)
#define HEARTBEAT_OF_25 REQUEST(0x2B, 0x17, 0x10, 0, 25, 0, 0, 0)
#define OPERATING_OF_2 REQUEST(0x2F, 0x11, 0x60, 0, 2, 0, 0, 0)
#define DIFFERENTIAL_OF_32767 REQUEST(0x2B, 0x14, 0x60, 0, 0xFF, 0x7F, 0, 0)
#define READ_STRING REQUEST(0x40, 0x08, 0x10, 0, 0, 0, 0, 0)

const struct bench_case bench_cases[] = {
    { "power-on, 128 blank blocks", 0, 0, { { 0 } }, POWER_ON },
    { "power-on, 128 filled blocks", 128, 0, { { 0 } }, POWER_ON },
    { "block query, a filled block", 1, 0, { { 0 } }, BLOCK },
    { "origin, 128 filled blocks", 128, 0, { { 0 } }, ORIGIN(0x6013, 0) },
    { "origin, a pair that is none", 128, 0, { { 0 } }, ORIGIN(0x1000, 0) },
    { "NMT start", 0, 0, { { 0 } }, START },
    { "NMT 81h", 0, 0, { { 0 } }, NETWORK(0x81) },
    { "NMT 82h", 0, 0, { { 0 } }, NETWORK(0x82) },
    { "read 1000", 0, 0, { { 0 } }, REQUEST(0x40, 0x00, 0x10, 0, 0, 0, 0, 0) },
    { "read 6010", 0, 1, { READING(12345) }, REQUEST(0x40, 0x10, 0x60, 0, 0, 0, 0, 0) },
    { "read 6010, turned", 0, 3, { READING(12345), OPERATING_OF_2, DIFFERENTIAL_OF_32767 }, REQUEST(0x40, 0x10, 0x60, 0, 0, 0, 0, 0) },
    { "read 2101", 0, 0, { { 0 } }, REQUEST(0x40, 0x01, 0x21, 0, 0, 0, 0, 0) },
    { "read the string", 0, 0, { { 0 } }, READ_STRING },
    { "next segment", 0, 1, { READ_STRING }, REQUEST(0x60, 0, 0, 0, 0, 0, 0, 0) },
    { "abort of a missing object", 0, 0, { { 0 } }, REQUEST(0x40, 0x00, 0x50, 0, 0, 0, 0, 0) },
    { "write 1017", 0, 0, { { 0 } }, HEARTBEAT_OF_25 },
    { "write 6014", 0, 0, { { 0 } }, REQUEST(0x2B, 0x14, 0x60, 0, 5, 0, 0, 0) },
    { "write 6012", 0, 1, { READING(12345) }, REQUEST(0x2B, 0x12, 0x60, 0, 0, 0, 0, 0) },
    { "save", 0, 0, { { 0 } }, REQUEST(0x23, 0x10, 0x10, 1, 0x73, 0x61, 0x76, 0x65) },
    { "load", 0, 0, { { 0 } }, REQUEST(0x23, 0x11, 0x10, 1, 0x6C, 0x6F, 0x61, 0x64) },
    { "LSS match", 0, 1, { STOP }, LSS(0x40, 0) },
    { "LSS 11h", 0, 2, { STOP, CONFIGURATION }, LSS(0x11, 2) },
    { "LSS 17h store", 0, 3, { STOP, CONFIGURATION, LSS(0x11, 2) }, LSS(0x17, 0) },
    { "SYNC, nothing due", 0, 1, { START }, SYNC },
    { "SYNC, PDO", 0, 2, { REQUEST(0x2F, 0x00, 0x18, 2, 1, 0, 0, 0), START }, SYNC },
    { "tick, nothing due", 0, 0, { { 0 } }, TICK(1) },
    { "tick, heartbeat", 0, 1, { HEARTBEAT_OF_25 }, TICK(25) },
    { "tick, PDO", 0, 2, { READING(12345), START }, TICK(100) },
    { "tick, heartbeat and PDO", 0, 3, { READING(12345), HEARTBEAT_OF_25, START }, TICK(100) },
    { "reading, good", 0, 0, { { 0 } }, READING(12345) },
    { "reading, EMCY", 0, 0, { { 0 } }, READING(200000) },
    { "frame that no rule names", 0, 0, { { 0 } }, { BENCH_FRAME, 0x123, 8, { 0 }, 0 } },
    { "frame refused with 2", 0, 0, { { 0 } }, { BENCH_FRAME, 0x800, 8, { 0 }, 0 } },
};

const unsigned bench_case_count = sizeof bench_cases / sizeof bench_cases[0];
