/* Holds the library and the reference sensor together: compare EVENTS SEED [STRIDE], or compare break.
 * With a stride the longest rows of built cases are thinned out: one case in so many is made. */
#include "built.h"
#include "counts.h"
#include "findings.h"
#include "history.h"
#include "wander.h"

#include <stdio.h>
#include <stdlib.h>
#include <string.h>

/* A store by LSS takes more: power-on, Stopped, four matches, the store. */
enum { MOST_CALLS_OF_A_FAULT = 4, MOST_CALLS_OF_A_STORE = 7 };

static void show_difference(uint64_t seed)
{
    unsigned calls = history.count;
    shrink_history();
    printf("difference, seed %llu, after %u calls; the shortest history that shows one:\n", (unsigned long long)seed, calls);
    show_history();
}

static bool compare(uint64_t events, uint64_t seed, uint32_t stride)
{
    struct chance chance = {seed};
    bool same = built_cases(stride);
    printf("built cases: %llu events\n", (unsigned long long)counts.calls[EVENT]);
    while (same && counts.calls[EVENT] < events) {
        same = wander(any64(&chance));
    }
    if (!same) {
        show_difference(seed);
        return false;
    }
    return show_counts();
}

/* Whether a random history shows what is made wrong. */
static bool is_seen(enum fault fault)
{
    bool same = true;
    pair.fault = fault;
    for (uint64_t seed = 0; same && seed < 1000; seed++) {
        same = wander(seed);
    }
    return !same;
}

/* Something is made wrong: the difference must be seen, and shown by a few calls. */
static bool sees_fault(enum fault fault)
{
    static const char *const names[FAULTS] = {
        [WRONG_FRAME_BYTE] = "the reference says another byte of a frame",
        [WRONG_BYTE_PAST_LENGTH] = "the reference says a byte past a frame's length",
        [WRONG_BYTE_PAST_COUNT] = "the reference says a byte past the count of frames",
        [WRONG_RECORD_BYTE] = "the reference says another byte of the record",
        [WRONG_JOURNAL_BYTE] = "the reference writes another byte of the journal",
        [WRONG_STORED_NUMBER] = "the reference stores another node number",
        [WRONG_FINDING_BYTE] = "the reference says another byte of a finding",
        [VALUE_BESIDE_REFUSAL] = "the reference says a value beside the refusal of an origin query",
        [REFUSED_BUT_CHANGED] = "both sensors change a record that they refuse",
    };
    printf("wrong on purpose: %s: ", names[fault]);
    if (!is_seen(fault)) {
        printf("FAILED: not seen\n");
        return false;
    }
    show_difference(0);
    return history.count <= (fault == WRONG_STORED_NUMBER ? MOST_CALLS_OF_A_STORE : MOST_CALLS_OF_A_FAULT);
}

static const char *record_field(unsigned byte)
{
    return field_at(byte)->name;
}

/* Each byte of the record or of a finding is made wrong by itself, and must be seen as its field's. */
static bool sees_every_byte(enum fault fault, const char *whole, unsigned bytes, const char *(*field)(unsigned byte))
{
    bool all = true;
    for (pair.wrong_byte = 0; pair.wrong_byte < bytes; pair.wrong_byte++) {
        const char *name = field(pair.wrong_byte);
        if (!is_seen(fault) || history.difference.what != name) {
            printf("FAILED: not seen: byte %u of the %s, in %s\n", pair.wrong_byte, whole, name);
            all = false;
        }
    }
    printf("wrong on purpose: each of the %u bytes of the %s by itself\n", bytes, whole);
    return all;
}

static bool sees_all_faults(void)
{
    bool all = true;
    for (unsigned fault = NO_FAULT + 1; fault < FAULTS; fault++) {
        all = sees_fault((enum fault)fault) && all;
    }
    all = sees_every_byte(WRONG_RECORD_BYTE, "record", sizeof pair.device, record_field) && all;
    all = sees_every_byte(WRONG_FINDING_BYTE, "finding", sizeof pair.finding, finding_field) && all;
    printf(all ? "each difference made on purpose was seen and shrunk\n" : "FAILED: one was not seen, or its history stayed long\n");
    return all;
}

int main(int count, char **words)
{
    bool passed = fields_are_all_bytes();
    if (!passed) {
        printf("FAILED: a byte of the record is in no field\n");
    } else if (count == 2 && strcmp(words[1], "break") == 0) {
        passed = sees_all_faults();
    } else if (count == 3 || count == 4) {
        uint32_t stride = count == 4 ? (uint32_t)strtoul(words[3], NULL, 10) : 1;
        passed = compare(strtoull(words[1], NULL, 10), strtoull(words[2], NULL, 10), stride);
        printf("%llu events compared: %s\n", (unsigned long long)counts.calls[EVENT], passed ? "no difference" : "FAILED");
    } else {
        printf("compare EVENTS SEED [STRIDE], or compare break\n");
        passed = false;
    }
    return passed ? 0 : 1;
}
