/* The trace program: events in as lines, the sensor's frames or a refusal out. */
#include "sensor.h"

#include <stdbool.h>
#include <stdio.h>
#include <string.h>

enum {
    LONGEST_LINE = 29,
    MOST_IDENTIFIER_DIGITS = 8,
    MOST_GIVEN_BYTES = 9,
    MOST_DECIMAL_DIGITS = 10,
    BLOCKS = 2,
    JOURNAL_BYTES = BLOCKS * REFERENCE_BLOCK_SIZE
};

/* One line without its line feed; a line too long for any form keeps only its beginning. */
struct line {
    size_t length;
    bool too_long;
    char text[LONGEST_LINE];
};

struct device {
    struct reference_record record;
    uint8_t journal[JOURNAL_BYTES];
};

static bool read_line(FILE *input, struct line *line)
{
    int byte = getc(input);
    line->length = 0;
    line->too_long = false;
    if (byte == EOF) {
        return false;
    }
    while (byte != EOF && byte != '\n') {
        if (line->length < LONGEST_LINE) {
            line->text[line->length] = (char)byte;
            line->length++;
        } else {
            line->too_long = true;
        }
        byte = getc(input);
    }
    return true;
}

static int hex_digit(char digit)
{
    if (digit >= '0' && digit <= '9') {
        return digit - '0';
    }
    if (digit >= 'A' && digit <= 'F') {
        return digit - 'A' + 10;
    }
    if (digit >= 'a' && digit <= 'f') {
        return digit - 'a' + 10;
    }
    return -1;
}

static bool parse_hex(const char *text, size_t length, uint32_t *value)
{
    *value = 0;
    for (size_t i = 0; i < length; i++) {
        int digit = hex_digit(text[i]);
        if (digit < 0) {
            return false;
        }
        *value = *value << 4 | (uint32_t)digit;
    }
    return true;
}

static bool parse_digits(const char *text, size_t length, int64_t *value)
{
    if (length == 0 || length > MOST_DECIMAL_DIGITS || (text[0] == '0' && length > 1)) {
        return false;
    }
    *value = 0;
    for (size_t i = 0; i < length; i++) {
        if (text[i] < '0' || text[i] > '9') {
            return false;
        }
        *value = *value * 10 + (text[i] - '0');
    }
    return true;
}

static bool parse_decimal(const char *text, size_t length, int64_t *value)
{
    bool negative = length > 0 && text[0] == '-';
    size_t sign = negative ? 1 : 0;
    if (!parse_digits(text + sign, length - sign, value) || (negative && *value == 0)) {
        return false;
    }
    *value = negative ? -*value : *value;
    return true;
}

static bool parse_bytes(const char *text, size_t length, struct reference_received *frame)
{
    size_t pairs = length / 2;
    if (length % 2 != 0 || pairs == 0 || pairs > MOST_GIVEN_BYTES) {
        return false;
    }
    for (size_t i = 0; i < pairs; i++) {
        uint32_t byte;
        if (!parse_hex(text + 2 * i, 2, &byte)) {
            return false;
        }
        if (i < REFERENCE_FRAME_BYTES) {
            frame->bytes[i] = (uint8_t)byte;
        }
    }
    frame->length = (uint32_t)pairs;
    return true;
}

static size_t length_to_blank(const char *text, size_t length)
{
    const char *blank = memchr(text, ' ', length);
    return blank == NULL ? length : (size_t)(blank - text);
}

static bool parse_frame(const char *text, size_t length, struct reference_event *event)
{
    struct reference_received *frame = &event->data.frame;
    size_t digits = length_to_blank(text, length);
    event->kind = REFERENCE_FRAME;
    if (digits < 1 || digits > MOST_IDENTIFIER_DIGITS
        || !parse_hex(text, digits, &frame->identifier)) {
        return false;
    }
    return digits == length || parse_bytes(text + digits + 1, length - digits - 1, frame);
}

static bool parse_tick(const char *text, size_t length, struct reference_event *event)
{
    int64_t value;
    if (!parse_decimal(text, length, &value) || value < 0 || value > UINT16_MAX) {
        return false;
    }
    event->kind = REFERENCE_TICK;
    event->data.tick = (uint16_t)value;
    return true;
}

static bool parse_reading(const char *text, size_t length, uint32_t axis,
                          struct reference_event *event)
{
    int64_t value;
    if (!parse_decimal(text, length, &value) || value < INT32_MIN || value > INT32_MAX) {
        return false;
    }
    event->kind = REFERENCE_READING;
    event->data.reading.axis = axis;
    event->data.reading.thousandths = (int32_t)value;
    return true;
}

static bool has_letter_and_blank(const struct line *line)
{
    return !line->too_long && line->length > 2 && line->text[1] == ' ';
}

static bool parse_node(const struct line *line, uint32_t *node)
{
    return has_letter_and_blank(line) && line->text[0] == 'P' && line->length == 4
        && parse_hex(line->text + 2, 2, node);
}

static bool parse_fields(char letter, const char *text, size_t length,
                         struct reference_event *event)
{
    switch (letter) {
    case 'F':
        return parse_frame(text, length, event);
    case 'T':
        return parse_tick(text, length, event);
    case 'X':
        return parse_reading(text, length, REFERENCE_X, event);
    case 'Y':
        return parse_reading(text, length, REFERENCE_Y, event);
    default:
        return false;
    }
}

static bool parse_event(const struct line *line, struct reference_event *event)
{
    memset(event, 0, sizeof *event);
    return has_letter_and_blank(line)
        && parse_fields(line->text[0], line->text + 2, line->length - 2, event);
}

static void power_on(struct device *device, uint32_t node, struct reference_answer *answer)
{
    struct reference_identity identity = { 0, 0, 0, 0 };
    memset(device->journal, 0xFF, sizeof device->journal);
    reference_power_on(&device->record, node, identity, device->journal, JOURNAL_BYTES, answer);
}

static void run_line(struct device *device, const struct line *line,
                     struct reference_answer *answer)
{
    struct reference_event event;
    uint32_t node;
    if (parse_node(line, &node)) {
        power_on(device, node, answer);
    } else if (parse_event(line, &event)) {
        reference_event(&device->record, device->journal, JOURNAL_BYTES, &event, answer);
    } else {
        memset(answer, 0, sizeof *answer);
        answer->refusal = REFERENCE_BAD_LINE;
    }
}

static void print_frame(FILE *output, const struct reference_sent *frame)
{
    fprintf(output, "%03X ", (unsigned)frame->identifier);
    for (unsigned i = 0; i < frame->length; i++) {
        fprintf(output, "%02X", (unsigned)frame->bytes[i]);
    }
    putc('\n', output);
}

static void print_answer(FILE *output, const struct reference_answer *answer)
{
    if (answer->refusal != REFERENCE_ACCEPTED) {
        fprintf(output, "R %u\n", (unsigned)answer->refusal);
        return;
    }
    for (unsigned i = 0; i < answer->count; i++) {
        print_frame(output, &answer->frames[i]);
    }
}

int main(void)
{
    static struct device device;
    struct reference_answer answer;
    struct line line;
    while (read_line(stdin, &line)) {
        run_line(&device, &line, &answer);
        print_answer(stdout, &answer);
    }
    return ferror(stdin) || fflush(stdout) != 0;
}
