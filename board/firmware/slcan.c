/* Lines of slcan taken apart and written; every character of a line has to be as the form says, or the line is malformed. */
#include "slcan.h"

int slcan_take(struct slcan_line *line, char character)
{
    if (character == SLCAN_END)
        return 1;
    if (line->length < SLCAN_MOST_READ)
        line->text[line->length] = character;
    if (line->length <= SLCAN_MOST_READ)
        line->length++;
    return 0;
}

/* The digit's number, 16 where it is none. */
static unsigned digit(char character)
{
    if (character >= '0' && character <= '9')
        return (unsigned)(character - '0');
    if (character >= 'A' && character <= 'F')
        return (unsigned)(character - 'A') + 10;
    if (character >= 'a' && character <= 'f')
        return (unsigned)(character - 'a') + 10;
    return 16;
}

/* Reads so many hexadecimal digits; 0 where one is none. */
static int read_hex(const char *text, unsigned digits, uint32_t *number)
{
    *number = 0;
    for (unsigned i = 0; i < digits; i++) {
        if (digit(text[i]) > 15)
            return 0;
        *number = *number << 4 | digit(text[i]);
    }
    return 1;
}

/* A frame: so many digits of identifier, the length, and the bytes where it is no remote frame. */
static int read_frame(const struct slcan_line *line, unsigned digits, int remote, struct basintilt_happening *happening)
{
    uint32_t length, byte;
    if (line->length < 2 + digits || !read_hex(line->text + 1, digits, &happening->identifier)
        || !read_hex(line->text + 1 + digits, 1, &length) || length > 8)
        return 0;
    if (happening->identifier > (digits == 3 ? UINT32_C(0x7FF) : UINT32_C(0x1FFFFFFF)))
        return 0;
    if (line->length != 2 + digits + (remote ? 0 : 2 * length))
        return 0;
    happening->kind = remote ? BASINTILT_REMOTE_FRAME : BASINTILT_FRAME;
    happening->length = (uint8_t)length;
    for (unsigned i = 0; !remote && i < length; i++) {
        if (!read_hex(line->text + 2 + digits + 2 * i, 2, &byte))
            return 0;
        happening->bytes[i] = (uint8_t)byte;
    }
    if (digits == 8)
        happening->identifier |= SLCAN_EXTENDED;
    return 1;
}

/* A reading: 32 signed bits in decimal without leading zeros, - before a negative. */
static int read_reading(const struct slcan_line *line, struct basintilt_happening *happening)
{
    int negative = line->length > 1 && line->text[1] == '-';
    unsigned first = negative ? 2 : 1;
    uint32_t most = negative ? UINT32_C(2147483648) : UINT32_C(2147483647), size = 0;
    if (line->length <= first || (line->text[first] == '0' && (negative || line->length > first + 1)))
        return 0;
    for (unsigned i = first; i < line->length; i++) {
        unsigned next = digit(line->text[i]);
        if (next > 9 || size > (most - next) / 10)
            return 0;
        size = 10 * size + next;
    }
    happening->kind = line->text[0] == 'x' ? BASINTILT_READING_X : BASINTILT_READING_Y;
    happening->m = negative ? (int32_t)-(int64_t)size : (int32_t)size;
    return 1;
}

/* A letter alone. */
static enum slcan_kind alone(const struct slcan_line *line, enum slcan_kind kind)
{
    return line->length == 1 ? kind : SLCAN_MALFORMED;
}

/* A letter and a digit up to the last one. */
static enum slcan_kind with_digit(const struct slcan_line *line, char last, enum slcan_kind kind, uint8_t *number)
{
    if (line->length != 2 || line->text[1] < '0' || line->text[1] > last)
        return SLCAN_MALFORMED;
    *number = (uint8_t)(line->text[1] - '0');
    return kind;
}

static enum slcan_kind judge(const struct slcan_line *line, struct slcan_command *command)
{
    if (line->length == 0)
        return SLCAN_EMPTY;
    if (line->length > SLCAN_MOST_READ)
        return SLCAN_MALFORMED;
    switch (line->text[0]) {
    case 'O': return alone(line, SLCAN_OPEN);
    case 'C': return alone(line, SLCAN_CLOSE);
    case 'V': return alone(line, SLCAN_VERSION);
    case 'N': return alone(line, SLCAN_SERIAL);
    case 'S': return with_digit(line, '8', SLCAN_BIT_RATE, &command->digit);
    case 'Z': return with_digit(line, '1', SLCAN_STAMPS, &command->digit);
    case 't': return read_frame(line, 3, 0, &command->happening) ? SLCAN_FRAME : SLCAN_MALFORMED;
    case 'T': return read_frame(line, 8, 0, &command->happening) ? SLCAN_FRAME : SLCAN_MALFORMED;
    case 'r': return read_frame(line, 3, 1, &command->happening) ? SLCAN_FRAME : SLCAN_MALFORMED;
    case 'R': return read_frame(line, 8, 1, &command->happening) ? SLCAN_FRAME : SLCAN_MALFORMED;
    case 'x':
    case 'y': return read_reading(line, &command->happening) ? SLCAN_READING : SLCAN_MALFORMED;
    default: return SLCAN_MALFORMED;
    }
}

struct slcan_command slcan_read(struct slcan_line *line)
{
    struct slcan_command command = {0};
    command.kind = judge(line, &command);
    line->length = 0;
    return command;
}

char *slcan_hex(char *at, unsigned digits, uint32_t number)
{
    for (unsigned i = digits; i > 0; i--)
        *at++ = "0123456789ABCDEF"[number >> (4 * (i - 1)) & 15];
    return at;
}

unsigned slcan_write(char line[SLCAN_MOST_WRITTEN], const struct basintilt_frame *frame, unsigned stamp)
{
    char *at = line;
    *at++ = 't';
    at = slcan_hex(at, 3, frame->identifier);
    at = slcan_hex(at, 1, frame->length);
    for (unsigned i = 0; i < frame->length; i++)
        at = slcan_hex(at, 2, frame->bytes[i]);
    if (stamp < SLCAN_MINUTE)
        at = slcan_hex(at, 4, stamp);
    *at++ = SLCAN_END;
    return (unsigned)(at - line);
}
