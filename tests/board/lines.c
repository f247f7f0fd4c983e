/* The firmware's slcan lines without a board: lines taken apart, malformed ones of every length, frames written. */
#include "slcan.h"

#include <stdio.h>
#include <string.h>

static unsigned checks, failures;

static void check(int right, const char *what)
{
    checks++;
    if (!right) {
        failures++;
        printf("FAILED: %s\n", what);
    }
}

/* Gives a line, and looks that only its end ends it. */
static struct slcan_command given(const char *text, size_t length)
{
    struct slcan_line line = {0};
    for (size_t i = 0; i < length; i++)
        check(!slcan_take(&line, text[i]), "a line ends too early");
    check(slcan_take(&line, SLCAN_END), "a line does not end");
    struct slcan_command command = slcan_read(&line);
    check(line.length == 0, "a line stays");
    return command;
}

static struct slcan_command read_text(const char *text)
{
    return given(text, strlen(text));
}

static void kinds(void)
{
    static const struct { const char *text; enum slcan_kind kind; } rows[] = {
        {"", SLCAN_EMPTY}, {"O", SLCAN_OPEN}, {"C", SLCAN_CLOSE}, {"V", SLCAN_VERSION}, {"N", SLCAN_SERIAL},
        {"S0", SLCAN_BIT_RATE}, {"S8", SLCAN_BIT_RATE}, {"Z0", SLCAN_STAMPS}, {"Z1", SLCAN_STAMPS},
        {"t0000", SLCAN_FRAME}, {"t7FF0", SLCAN_FRAME}, {"t7ff0", SLCAN_FRAME}, {"t601101", SLCAN_FRAME},
        {"T1FFFFFFF80102030405060708", SLCAN_FRAME}, {"r6018", SLCAN_FRAME}, {"R000006010", SLCAN_FRAME},
        {"x0", SLCAN_READING}, {"x2147483647", SLCAN_READING}, {"y-2147483648", SLCAN_READING}, {"y-1", SLCAN_READING},
        {"o", SLCAN_MALFORMED}, {"O0", SLCAN_MALFORMED}, {"C ", SLCAN_MALFORMED}, {"V1", SLCAN_MALFORMED}, {"NN", SLCAN_MALFORMED},
        {"S", SLCAN_MALFORMED}, {"S9", SLCAN_MALFORMED}, {"S/", SLCAN_MALFORMED}, {"S00", SLCAN_MALFORMED}, {"Z", SLCAN_MALFORMED},
        {"Z2", SLCAN_MALFORMED}, {"Z11", SLCAN_MALFORMED}, {"t", SLCAN_MALFORMED}, {"t601", SLCAN_MALFORMED}, {"t8000", SLCAN_MALFORMED},
        {"tFFF0", SLCAN_MALFORMED}, {"t60G0", SLCAN_MALFORMED}, {"t6019", SLCAN_MALFORMED}, {"t601901020304050607080", SLCAN_MALFORMED},
        {"t601A", SLCAN_MALFORMED}, {"t6011", SLCAN_MALFORMED}, {"t60110", SLCAN_MALFORMED}, {"t6011010", SLCAN_MALFORMED},
        {"t60110G", SLCAN_MALFORMED}, {"t6010 ", SLCAN_MALFORMED}, {"T20000000", SLCAN_MALFORMED}, {"T200000000", SLCAN_MALFORMED},
        {"T1FFFFFFF801020304050607080", SLCAN_MALFORMED}, {"r60180102030405060708", SLCAN_MALFORMED}, {"r6019", SLCAN_MALFORMED},
        {"R00000601", SLCAN_MALFORMED}, {"x", SLCAN_MALFORMED}, {"x-", SLCAN_MALFORMED}, {"x-0", SLCAN_MALFORMED}, {"x00", SLCAN_MALFORMED},
        {"x01", SLCAN_MALFORMED}, {"x+1", SLCAN_MALFORMED}, {"x1A", SLCAN_MALFORMED}, {"x--1", SLCAN_MALFORMED},
        {"x2147483648", SLCAN_MALFORMED}, {"y-2147483649", SLCAN_MALFORMED}, {"x4294967296", SLCAN_MALFORMED},
        {"x99999999999", SLCAN_MALFORMED}, {"x 1", SLCAN_MALFORMED}, {"\n", SLCAN_MALFORMED}, {"O\n", SLCAN_MALFORMED},
    };
    for (size_t i = 0; i < sizeof rows / sizeof rows[0]; i++)
        check(read_text(rows[i].text).kind == rows[i].kind, rows[i].text);
    for (unsigned first = 0; first < 256; first++) {
        char character = (char)first;
        if (first != SLCAN_END && strchr("OCVN", (int)first) == NULL)
            check(given(&character, 1).kind == SLCAN_MALFORMED, "a character alone");
    }
    check(given("O\0", 2).kind == SLCAN_MALFORMED, "a zero behind O");
}

static void parts(void)
{
    static const uint8_t bytes[8] = {0x40, 0x10, 0x60, 0x00, 0xAB, 0xCD, 0xEF, 0x00};
    struct basintilt_happening frame;
    check(read_text("t601740106000abCDe").kind == SLCAN_MALFORMED, "an odd digit");
    frame = read_text("t601740106000abCDef").happening;
    check(frame.kind == BASINTILT_FRAME && frame.identifier == 0x601 && frame.length == 7 && memcmp(frame.bytes, bytes, 8) == 0, "t601");
    frame = read_text("T000006012abCD").happening;
    check(frame.identifier == (SLCAN_EXTENDED | 0x601) && frame.length == 2 && frame.bytes[1] == 0xCD, "T00000601 is not 601");
    frame = read_text("r6818").happening;
    check(frame.kind == BASINTILT_REMOTE_FRAME && frame.identifier == 0x681 && frame.length == 8, "r681");
    frame = read_text("R1ABCDEF03").happening;
    check(frame.kind == BASINTILT_REMOTE_FRAME && frame.identifier == (SLCAN_EXTENDED | 0x1ABCDEF0), "R1ABCDEF0");
    struct basintilt_happening reading = read_text("x-2147483648").happening;
    check(reading.kind == BASINTILT_READING_X && reading.m == INT32_MIN, "the least reading");
    reading = read_text("y2147483647").happening;
    check(reading.kind == BASINTILT_READING_Y && reading.m == INT32_MAX, "the greatest reading");
    check(read_text("S8").digit == 8 && read_text("Z1").digit == 1 && read_text("Z0").digit == 0, "digits");
}

/* A line of any length takes the memory of the longest, and is malformed; the one behind it is taken. */
static void lengths(void)
{
    static struct { struct slcan_line line; uint8_t behind[64]; } room;
    for (unsigned length = 27; length < 70000; length += length < 1100 ? 1 : 509) {
        memset(&room, 0, sizeof room);
        memset(room.behind, 0xA5, sizeof room.behind);
        for (unsigned i = 0; i < length; i++)
            slcan_take(&room.line, i == 0 ? 'O' : '0');
        check(slcan_read(&room.line).kind == SLCAN_MALFORMED, "a long line is taken");
        slcan_take(&room.line, 'O');
        check(slcan_read(&room.line).kind == SLCAN_OPEN, "the line behind a long one is not taken");
        for (unsigned i = 0; i < sizeof room.behind; i++)
            check(room.behind[i] == 0xA5, "a long line goes over its memory");
    }
}

static void written(void)
{
    struct basintilt_frame boot_up = {0x701, 1, {0}}, angles = {0x181, 4, {0xD3, 0x04, 0x00, 0x80}}, reply = {0x6AF, 8, {0x60, 0x10, 0x10, 0x01, 0, 0, 0, 0xFE}};
    char line[SLCAN_MOST_WRITTEN];
    check(slcan_write(line, &boot_up, SLCAN_MINUTE) == 8 && memcmp(line, "t701100\r", 8) == 0, "boot-up written");
    check(slcan_write(line, &angles, SLCAN_MINUTE) == 14 && memcmp(line, "t1814D3040080\r", 14) == 0, "a PDO written");
    check(slcan_write(line, &reply, 59999) == 26 && memcmp(line, "t6AF860101001000000FEEA5F\r", 26) == 0, "a stamped reply written");
    check(slcan_write(line, &boot_up, 0) == 12 && memcmp(line, "t7011000000\r", 12) == 0, "a stamp of 0");
}

int main(void)
{
    kinds();
    parts();
    lengths();
    written();
    printf("lines: %u checks, %u failures\n", checks, failures);
    return failures != 0;
}
