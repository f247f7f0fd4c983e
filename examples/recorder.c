/* The recorder's side: recorder NODE JOURNAL < LOG. Power-on from a journal file, events from a log, frames to standard output.
 *
 * The log has the trace program's lines (F, T, X, Y); a line that begins with # is a remark. A block that a save, load or store fills is
 * in the file before the reply goes out, so what was acknowledged is never lost: where the file cannot be written, nothing is sent.
 *
 * NODE comes from the recorder's own memory or switch and is never changed there: a number that LSS has stored is in the journal and
 * holds instead of it. The record has the number in force. */
#include "basintilt.h"

#include <stdio.h>
#include <stdlib.h>

/* One byte more than the longest journal, so that a longer file is seen to be too long. */
static uint8_t journal[BASINTILT_MOST_BLOCKS * BASINTILT_BLOCK_BYTES + 1];
static size_t journal_length;
static struct basintilt_device device;

static void send(const struct basintilt_frame *frame)
{
    printf("%03X ", frame->identifier);
    for (int i = 0; i < frame->length; i++)
        printf("%02X", frame->bytes[i]);
    printf("\n");
}

static void send_all(const struct basintilt_answer *answer)
{
    for (int i = 0; i < answer->count; i++)
        send(&answer->frames[i]);
}

/* What comes in for the sensor: a target sets its controller's filter here, before boot-up goes out under a new number. */
static void listen(void)
{
    static uint8_t node;
    if (device.node != node)
        printf("listens at %03X, %03X, %03X, %03X, %03X\n", BASINTILT_NMT_AT, BASINTILT_SYNC_AT, BASINTILT_REQUEST_ONE_AT + device.node,
               BASINTILT_REQUEST_TWO_AT + device.node, BASINTILT_LSS_REQUEST_AT);
    node = device.node;
}

static void show_blocks(void)
{
    static const char *const what[] = {"good", "blank", "neither"};
    for (uint32_t place = 1; place <= device.saves.blocks; place++) {
        const uint8_t *block = journal + (place - 1) * BASINTILT_BLOCK_BYTES;
        printf("block %u: %s\n", place, what[basintilt_block(block, BASINTILT_BLOCK_BYTES, place)]);
    }
}

static void show_axis(char name, struct basintilt_reading axis)
{
    static const char *const state[] = {"none", "good", "faulty"};
    printf(", %c %s at %d", name, state[axis.state], (int)axis.m);
}

static void show_record(void)
{
    printf("record: node %u, set %u, stored %u, state %u, %u of %u blocks filled%s, %u errors", device.node, device.lss.node,
           device.saves.node, device.network, device.saves.filled, device.saves.blocks, device.saves.spoiled ? ", spoiled" : "",
           device.errors.length);
    show_axis('X', device.x);
    show_axis('Y', device.y);
    printf("\n");
}

static void stop(const char *why)
{
    fflush(stdout);
    fprintf(stderr, "recorder: %s\n", why);
    exit(1);
}

/* What stands behind F: an identifier and, if any, the bytes. */
static int read_frame(const char *text, struct basintilt_happening *happening)
{
    unsigned identifier, byte;
    int at = 0, used;
    if (sscanf(text, " %8x%n", &identifier, &at) != 1)
        return 0;
    happening->kind = BASINTILT_FRAME;
    happening->identifier = identifier;
    for (; happening->length < 9 && sscanf(text + at, " %2x%n", &byte, &used) == 1; at += used) {
        if (happening->length < 8)
            happening->bytes[happening->length] = (uint8_t)byte;
        happening->length++;
    }
    return text[at] == '\n';
}

/* A line of the log as a happening; 0 where it is none. */
static int read_line(const char *line, struct basintilt_happening *happening)
{
    int number = 0, at = 0;
    *happening = (struct basintilt_happening){0};
    if (line[0] == 'F')
        return read_frame(line + 1, happening);
    if (sscanf(line + 1, " %11d%n", &number, &at) != 1 || line[1 + at] != '\n')
        return 0;
    happening->ms = (uint16_t)number;
    happening->m = number;
    happening->kind = line[0] == 'T' ? BASINTILT_TICK : line[0] == 'X' ? BASINTILT_READING_X : BASINTILT_READING_Y;
    return line[0] == 'T' ? number == happening->ms : line[0] == 'X' || line[0] == 'Y';
}

/* The block last filled goes to its place in the file; no other byte of the file is touched. A target waits here until its memory is written. */
static int keep_last_block(FILE *file)
{
    long from = (device.saves.filled - 1L) * BASINTILT_BLOCK_BYTES;
    return fseek(file, from, SEEK_SET) == 0 && fwrite(journal + from, BASINTILT_BLOCK_BYTES, 1, file) == 1 && fflush(file) == 0;
}

static void take(struct basintilt_happening happening, FILE *file)
{
    uint16_t filled = device.saves.filled;
    struct basintilt_answer answer = basintilt_event(&device, journal, journal_length, happening);
    if (answer.refusal == BASINTILT_WRONG_FRAME)
        printf("refused: 2\n"); /* no frame of CAN; the sensor goes on */
    else if (answer.refusal != BASINTILT_ACCEPTED)
        stop("record or journal was changed by someone else");
    if (device.saves.filled != filled && !keep_last_block(file))
        stop("the journal cannot be written; the block is not acknowledged");
    listen();
    send_all(&answer);
}

static void start(unsigned node, FILE *file)
{
    journal_length = fread(journal, 1, sizeof journal, file);
    struct basintilt_stepped stepped = basintilt_power_on(node, (struct basintilt_identity){0}, journal, journal_length);
    if (stepped.answer.refusal == BASINTILT_WRONG_NODE)
        stop("the node number is not 1 to 47");
    if (stepped.answer.refusal == BASINTILT_WRONG_LENGTH)
        stop("the journal's length is not 512 times 1 to 128");
    device = stepped.device;
    show_blocks();
    listen();
    send_all(&stepped.answer);
}

int main(int count, char **words)
{
    char line[256];
    struct basintilt_happening happening;
    if (count != 3)
        stop("usage: recorder NODE JOURNAL < LOG");
    FILE *file = fopen(words[2], "r+b");
    if (file == NULL)
        stop("the journal cannot be opened for reading and writing");
    start((unsigned)strtoul(words[1], NULL, 10), file);
    while (fgets(line, sizeof line, stdin) != NULL) {
        if (line[0] == '#')
            continue;
        if (!read_line(line, &happening))
            stop("a line of the log is no event");
        take(happening, file);
    }
    show_blocks();
    show_record();
    return fclose(file) == 0 ? 0 : 1;
}
