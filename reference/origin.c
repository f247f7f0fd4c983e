/* The origin program: a journal and a setting in, its value and who brought it out. */
#include "sensor.h"

#include <errno.h>
#include <stdbool.h>
#include <stdio.h>
#include <stdlib.h>
#include <string.h>

/* One byte more than the longest journal is enough to see that a file is too long. */
enum {
    LONGEST_READ = REFERENCE_MOST_BLOCKS * REFERENCE_BLOCK_SIZE + 1,
    INDEX_DIGITS = 4,
    MOST_SUBINDEX_DIGITS = 3
};

struct journal {
    size_t length;
    uint8_t bytes[LONGEST_READ];
};

struct pair {
    uint16_t index;
    uint8_t subindex;
};

static int hex_digit(char digit)
{
    if (digit >= '0' && digit <= '9') {
        return digit - '0';
    }
    if (digit >= 'A' && digit <= 'F') {
        return digit - 'A' + 10;
    }
    if (digit >= 'a' && digit <= 'f') {
        return digit - 'a' + 10;
    }
    return -1;
}

static bool parse_index(const char *text, uint16_t *index)
{
    *index = 0;
    for (size_t i = 0; i < INDEX_DIGITS; i++) {
        int digit = hex_digit(text[i]);
        if (digit < 0) {
            return false;
        }
        *index = (uint16_t)(*index << 4 | digit);
    }
    return true;
}

static bool parse_subindex(const char *text, uint8_t *subindex)
{
    size_t length = strlen(text);
    int value = 0;
    if (length == 0 || length > MOST_SUBINDEX_DIGITS || (text[0] == '0' && length > 1)) {
        return false;
    }
    for (size_t i = 0; i < length; i++) {
        if (text[i] < '0' || text[i] > '9') {
            return false;
        }
        value = value * 10 + (text[i] - '0');
    }
    *subindex = (uint8_t)value;
    return value <= UINT8_MAX;
}

static bool parse_pair(const char *text, struct pair *pair)
{
    return parse_index(text, &pair->index) && text[INDEX_DIGITS] == ':'
        && parse_subindex(text + INDEX_DIGITS + 1, &pair->subindex);
}

static bool read_journal(const char *path, struct journal *journal)
{
    FILE *file = fopen(path, "rb");
    bool failed;
    int reason;
    if (file == NULL) {
        return false;
    }
    journal->length = fread(journal->bytes, 1, LONGEST_READ, file);
    failed = ferror(file) != 0;
    reason = errno;
    fclose(file);
    errno = reason;
    return !failed;
}

static const char *kind_word(uint8_t kind)
{
    switch (kind) {
    case REFERENCE_SAVE:
        return "save";
    case REFERENCE_LOAD:
        return "load";
    default:
        return "store";
    }
}

static void print_origin(FILE *output, const struct reference_origin *origin)
{
    if (origin->refusal != REFERENCE_ACCEPTED) {
        fprintf(output, "R %u\n", (unsigned)origin->refusal);
    } else if (origin->block == 0) {
        fprintf(output, "%ld factory\n", (long)origin->value);
    } else {
        fprintf(output, "%ld block %lu channel %u %s\n", (long)origin->value,
                (unsigned long)origin->block, (unsigned)origin->channel,
                kind_word(origin->kind));
    }
}

static int fail(const char *what, const char *why)
{
    fprintf(stderr, "origin: %s: %s\n", what, why);
    return EXIT_FAILURE;
}

int main(int argc, char **argv)
{
    static struct journal journal;
    struct reference_origin origin;
    struct pair pair;
    if (argc != 3) {
        return fail("not two words", "origin JOURNAL INDEX:SUB");
    }
    if (!parse_pair(argv[2], &pair)) {
        return fail("no pair", "four hex digits, a colon and 0 to 255, like 6013:0");
    }
    if (!read_journal(argv[1], &journal)) {
        return fail("cannot read the journal", strerror(errno));
    }
    reference_origin(journal.bytes, journal.length, pair.index, pair.subindex, &origin);
    print_origin(stdout, &origin);
    if (fflush(stdout) != 0) {
        return fail("cannot write the answer", strerror(errno));
    }
    return EXIT_SUCCESS;
}
