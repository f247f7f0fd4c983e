/* CAN over a serial line in the slcan form: a line is collected, taken apart and written, without any hardware. */
#ifndef SLCAN_H
#define SLCAN_H

#include "basintilt.h"

/* The longest line: T, an identifier of 8 digits, the length and 8 bytes. The longest that is written has t, 3 digits, the length, 8 bytes, a time
 * stamp and the end. */
enum { SLCAN_MOST_READ = 26, SLCAN_MOST_WRITTEN = 26 };

enum { SLCAN_END = '\r', SLCAN_BELL = '\a' };

/* An extended frame is none of the sensor's, whatever its identifier: this is added to it, and the library refuses it with 2. */
#define SLCAN_EXTENDED UINT32_C(0x80000000)

/* Time stamps are milliseconds of a minute. */
enum { SLCAN_MINUTE = 60000 };

/* The characters of a line so far; of a longer one only that it is too long. */
struct slcan_line {
    uint8_t length;
    char text[SLCAN_MOST_READ];
};

enum slcan_kind {
    SLCAN_MALFORMED,
    SLCAN_EMPTY,
    SLCAN_OPEN,
    SLCAN_CLOSE,
    SLCAN_BIT_RATE,
    SLCAN_STAMPS,
    SLCAN_VERSION,
    SLCAN_SERIAL,
    SLCAN_FRAME,
    SLCAN_READING
};

/* What a line asks: digit is that of S and Z; a frame and a reading have the happening. */
struct slcan_command {
    enum slcan_kind kind;
    uint8_t digit;
    struct basintilt_happening happening;
};

/* Takes one character; 1 where it ends the line. */
int slcan_take(struct slcan_line *line, char character);

/* What the line asks. The line is empty then. */
struct slcan_command slcan_read(struct slcan_line *line);

/* Writes a frame as a line and gives its length. The stamp is written where it is below SLCAN_MINUTE. */
unsigned slcan_write(char line[SLCAN_MOST_WRITTEN], const struct basintilt_frame *frame, unsigned stamp);

/* Writes a number as that many hexadecimal digits in capitals, and gives the place behind them. */
char *slcan_hex(char *at, unsigned digits, uint32_t number);

#endif
