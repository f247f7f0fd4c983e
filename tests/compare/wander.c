/* Random histories, each of its own length, journal and leaning. */
#include "wander.h"

#include "happenings.h"
#include "history.h"
#include "journals.h"
#include "origins.h"
#include "records.h"

#include <string.h>

enum { BLOCK = BASINTILT_BLOCK_BYTES };

/* Long journals are rare: every byte of them is compared after each call. */
static uint32_t any_blocks(struct chance *chance)
{
    return one_in(chance, 100) ? PICK(chance, 127, 128, between(chance, 17, 126)) : PICK(chance, 1, 1, 2, 2, 3, 4, between(chance, 5, 16));
}

static uint32_t any_length(struct chance *chance)
{
    return PICK(chance, 0, 1, 511, 512, 513, 1023, 1024, 1025, 2048, MOST_JOURNAL - 1, MOST_JOURNAL, MOST_JOURNAL + 1, MOST_JOURNAL + BLOCK,
                LONGEST_SAID, below(chance, LONGEST_SAID));
}

static bool make_power_on(struct chance *chance, uint32_t length)
{
    struct call call = {.kind = POWER_ON, .length = length};
    call.power_on.node = PICK(chance, 1, BASINTILT_MOST_NODE, between(chance, 1, BASINTILT_MOST_NODE));
    call.power_on.identity = any_identity(chance);
    if (one_in(chance, 30)) {
        call.power_on.node = PICK(chance, 0, BASINTILT_MOST_NODE + 1, 255, 256, 257, 0x10001, 0xFFFFFFFF, any32(chance));
    }
    if (one_in(chance, 30)) {
        call.length = any_length(chance);
    }
    return make_call(call);
}

static bool make_any_journal(struct chance *chance, uint32_t length)
{
    struct call call = {.kind = JOURNAL_MADE, .length = length};
    call.made.shape = one_in(chance, 2) ? PICK(chance, BLANK_JOURNAL, BLANK_JOURNAL, GOOD_JOURNAL, CARRYING_JOURNAL) : below(chance, JOURNAL_SHAPES);
    call.made.seed = any64(chance);
    return make_call(call);
}

static bool make_any_record(struct chance *chance)
{
    struct call call = {.kind = RECORD_MADE};
    call.made.shape = one_in(chance, 10) ? PICK(chance, LOW_BYTES_IN_RANGE, WHOLLY_RANDOM) : IN_RANGE;
    call.made.seed = any64(chance);
    return make_call(call);
}

static bool write_any_field(struct chance *chance)
{
    struct call call = {.kind = FIELD_WRITTEN};
    call.written.at = below(chance, FIELDS);
    call.written.number = number_for_field(chance, &pair.device, &fields[call.written.at]);
    return make_call(call);
}

static bool write_any_byte(struct chance *chance, uint32_t length)
{
    struct call call = {.kind = BYTE_WRITTEN};
    call.written.at = below(chance, length);
    call.written.number = one_in(chance, 2) ? PICK(chance, 0, 0xFF) : pair.journal[call.written.at] ^ 1u << below(chance, 8);
    return make_call(call);
}

static bool ask_any_block(struct chance *chance, uint32_t length)
{
    uint32_t place = between(chance, 1, length / BLOCK);
    struct call call = {.kind = BLOCK_QUERY, .length = BLOCK};
    call.query.at = BLOCK * (place - 1);
    call.query.place = place;
    if (one_in(chance, 4)) {
        call.query.place = PICK(chance, 0, place + 1, place - 1, 128, 129, place + 256, place + 0x10000, any32(chance));
    } else if (one_in(chance, 4)) {
        memcpy(&call.query.place, pair.journal + call.query.at, 4); /* the block's own number, be it a place or not */
    }
    if (one_in(chance, 8)) {
        call.length = PICK(chance, 0, 1, 511, 513, 1024, below(chance, 1024));
    }
    return make_call(call);
}

static bool ask_any_origin(struct chance *chance, uint32_t length)
{
    struct call call = any_origin_query(chance, length);
    if (one_in(chance, 10)) {
        call.length = any_length(chance);
    }
    return make_call(call);
}

static bool make_any_event(struct chance *chance, enum leaning leaning)
{
    struct call call = {.kind = EVENT};
    if (!one_in(chance, 60)) {
        return make_event(any_happening(chance, &pair.device, leaning));
    }
    call.length = any_length(chance);
    call.happening = any_happening(chance, &pair.device, leaning);
    return make_call(call);
}

/* A record that is refused is soon replaced: it has no more to show. */
static bool make_any_call(struct chance *chance, uint32_t length, enum leaning leaning)
{
    uint32_t turn = below(chance, 400);
    if (pair.answer.refusal == BASINTILT_OUT_OF_RANGE && one_in(chance, 2)) {
        return one_in(chance, 2) ? make_power_on(chance, length) : make_any_record(chance);
    }
    if (turn < 4) {
        return make_power_on(chance, length);
    }
    if (turn < 6) {
        return make_any_journal(chance, length);
    }
    if (turn < 8) {
        return make_any_record(chance);
    }
    if (turn < 14) {
        return write_any_field(chance);
    }
    if (turn < 17) {
        return write_any_byte(chance, length);
    }
    if (turn < 23) {
        return ask_any_block(chance, length);
    }
    return turn < 35 ? ask_any_origin(chance, length) : make_any_event(chance, leaning);
}

bool wander(uint64_t seed)
{
    struct chance chance = {seed};
    uint32_t length = BLOCK * any_blocks(&chance);
    uint32_t calls = length > 16 * BLOCK ? 50 : PICK(&chance, 30, 100, 300, 1000, 3000);
    enum leaning leaning = (enum leaning)below(&chance, LEANINGS);
    bool same;
    begin_history();
    same = make_any_journal(&chance, length) && (one_in(&chance, 5) ? make_any_record(&chance) : make_power_on(&chance, length));
    for (uint32_t i = 0; i < calls && same; i++) {
        same = make_any_call(&chance, length, leaning);
    }
    return same;
}
