/* Both sensors side by side: a call is made to each, and all that they hold then is compared. */
#ifndef COMPARE_PAIR_H
#define COMPARE_PAIR_H

#include "call.h"
#include "fields.h"

#include <stdbool.h>

enum {
    MOST_JOURNAL = BASINTILT_BLOCK_BYTES * BASINTILT_MOST_BLOCKS,
    LONGEST_SAID = MOST_JOURNAL + 2 * BASINTILT_BLOCK_BYTES, /* lengths beyond the most are said too */
    GUARD = 64                                               /* bytes behind the journal that no one may touch */
};

/* Where the two differ first; what is NULL where they agree. */
struct difference {
    const char *what;
    int at; /* which byte, or -1 where it is no matter of bytes */
    int64_t library;
    int64_t reference;
};

/* What is made wrong on purpose, to show that it is seen. */
enum fault {
    NO_FAULT,
    WRONG_FRAME_BYTE,
    WRONG_BYTE_PAST_LENGTH, /* of a frame */
    WRONG_BYTE_PAST_COUNT,  /* of the frames */
    WRONG_RECORD_BYTE,
    WRONG_JOURNAL_BYTE,
    WRONG_STORED_NUMBER,    /* in the block that a store by LSS fills */
    WRONG_FINDING_BYTE,     /* where a block brought the value */
    VALUE_BESIDE_REFUSAL,   /* of an origin query */
    REFUSED_BUT_CHANGED,    /* the record, and in both sensors alike */
    FAULTS
};

struct pair {
    enum fault fault;
    unsigned wrong_byte; /* of the record or of the finding */
    bool too_wide; /* the reference has no such record, since a number is too wide for its field there */
    struct basintilt_device lent; /* the record as it was before the call */
    struct basintilt_device device;
    struct basintilt_answer answer;
    struct reference_record record;
    struct basintilt_device expected_device; /* what the reference says, in the library's bytes */
    struct basintilt_answer expected_answer;
    uint32_t block_answer;
    uint32_t reference_block_answer;
    struct basintilt_finding finding; /* of the last origin query */
    struct basintilt_finding expected_finding;
    uint32_t used; /* the longest journal so far; behind it nothing was ever written */
    uint8_t journal[LONGEST_SAID + GUARD];
    uint8_t reference_journal[LONGEST_SAID + GUARD];
};

/* Before the first call the record is all zero and the journal blank. */
void begin_pair(struct pair *pair);

struct difference perform(struct pair *pair, const struct call *call);

#endif
