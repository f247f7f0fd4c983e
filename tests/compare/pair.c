/* Both sensors side by side: a call is made to each, and all that they hold then is compared. */
#include "pair.h"

#include "findings.h"
#include "journals.h"
#include "lss.h"
#include "records.h"

#include <string.h>

_Static_assert((int)REFERENCE_FRAMES == BASINTILT_MOST_FRAMES, "frames of an answer");

void begin_pair(struct pair *pair)
{
    enum fault fault = pair->fault;
    unsigned wrong_byte = pair->wrong_byte;
    memset(pair, 0, offsetof(struct pair, journal));
    memset(pair->journal, 0xFF, sizeof pair->journal);
    memset(pair->reference_journal, 0xFF, sizeof pair->reference_journal);
    pair->fault = fault;
    pair->wrong_byte = wrong_byte;
}

/* Field by field into zeroed memory, so that each byte of the library's answer has one that it must be. */
static struct basintilt_answer answer_of(const struct reference_answer *said)
{
    struct basintilt_answer answer;
    memset(&answer, 0, sizeof answer);
    answer.refusal = said->refusal;
    answer.count = said->count;
    for (unsigned i = 0; i < BASINTILT_MOST_FRAMES; i++) {
        answer.frames[i].identifier = said->frames[i].identifier;
        answer.frames[i].length = said->frames[i].length;
        memcpy(answer.frames[i].bytes, said->frames[i].bytes, sizeof answer.frames[i].bytes);
    }
    return answer;
}

static void power_on(struct pair *pair, const struct call *call)
{
    struct basintilt_identity identity = call->power_on.identity;
    struct reference_identity same = {identity.vendor, identity.product, identity.revision, identity.serial};
    struct basintilt_stepped stepped = basintilt_power_on(call->power_on.node, identity, pair->journal, call->length);
    struct reference_answer said;
    reference_power_on(&pair->record, call->power_on.node, same, pair->reference_journal, call->length, &said);
    pair->device = stepped.device;
    pair->answer = stepped.answer;
    pair->expected_device = record_of(&pair->record);
    pair->expected_answer = answer_of(&said);
    pair->too_wide = false;
}

/* A kind that is none stays none for the reference. */
static struct reference_event same_event(const struct basintilt_happening *happening)
{
    struct reference_event event;
    memset(&event, 0, sizeof event);
    switch (happening->kind) {
    case BASINTILT_FRAME:
    case BASINTILT_REMOTE_FRAME:
        event.kind = REFERENCE_FRAME;
        event.data.frame.identifier = happening->identifier;
        event.data.frame.remote = happening->kind == BASINTILT_REMOTE_FRAME;
        event.data.frame.length = happening->length;
        memcpy(event.data.frame.bytes, happening->bytes, sizeof happening->bytes);
        break;
    case BASINTILT_TICK:
        event.kind = REFERENCE_TICK;
        event.data.tick = happening->ms;
        break;
    case BASINTILT_READING_X:
    case BASINTILT_READING_Y:
        event.kind = REFERENCE_READING;
        event.data.reading.axis = happening->kind == BASINTILT_READING_X ? REFERENCE_X : REFERENCE_Y;
        event.data.reading.thousandths = happening->m;
        break;
    default:
        event.kind = UINT32_MAX;
        break;
    }
    return event;
}

static void make_wrong(struct pair *pair)
{
    struct basintilt_frame *frame = &pair->expected_answer.frames[0];
    uint32_t end = BASINTILT_BLOCK_BYTES * (uint32_t)pair->record.saves.filled; /* of the block that was filled */
    bool reads = frame->length == 8 && frame->bytes[0] == 0x4B;
    bool reads_y = reads && frame->bytes[1] == 0x20 && frame->bytes[2] == 0x60;
    bool saves = frame->bytes[0] == 0x60 && frame->bytes[1] == 0x10 && frame->bytes[2] == 0x10;
    bool stores = frame->identifier == BASINTILT_LSS_REPLY_AT && frame->bytes[0] == STORES && frame->bytes[1] == 0;
    if (pair->fault == WRONG_FRAME_BYTE && reads_y) {
        frame->bytes[7] ^= 1;
    }
    if (pair->fault == WRONG_BYTE_PAST_LENGTH && frame->length == 1) {
        frame->bytes[7] ^= 1;
    }
    if (pair->fault == WRONG_BYTE_PAST_COUNT && reads_y) {
        pair->expected_answer.frames[1].bytes[7] ^= 1;
    }
    if (pair->fault == WRONG_RECORD_BYTE && reads) {
        ((uint8_t *)&pair->expected_device)[pair->wrong_byte] ^= 1;
    }
    if (pair->fault == WRONG_JOURNAL_BYTE && saves) {
        pair->reference_journal[end - 1] ^= 1;
    }
    if (pair->fault == WRONG_STORED_NUMBER && stores) {
        pair->reference_journal[end - BASINTILT_BLOCK_BYTES + 28] ^= 1;
    }
    if (pair->fault == REFUSED_BUT_CHANGED && pair->answer.refusal == BASINTILT_WRONG_FRAME) {
        pair->device.identity.serial ^= 1;
        pair->expected_device.identity.serial ^= 1;
    }
}

/* A number too wide for the reference is out of range: it is refused with 3, and stays. */
static void event(struct pair *pair, const struct call *call)
{
    struct reference_event same = same_event(&call->happening);
    struct reference_answer said = {.refusal = REFERENCE_BAD_RECORD};
    pair->answer = basintilt_event(&pair->device, pair->journal, call->length, call->happening);
    if (!pair->too_wide) {
        reference_event(&pair->record, pair->reference_journal, call->length, &same, &said);
        pair->expected_device = record_of(&pair->record);
    }
    pair->expected_answer = answer_of(&said);
    make_wrong(pair);
}

static void query(struct pair *pair, const struct call *call)
{
    pair->block_answer = basintilt_block(pair->journal + call->query.at, call->length, call->query.place);
    pair->reference_block_answer = reference_block(pair->reference_journal + call->query.at, call->length, call->query.place);
}

static void make_finding_wrong(struct pair *pair)
{
    struct basintilt_finding *finding = &pair->expected_finding;
    if (pair->fault == WRONG_FINDING_BYTE && finding->block != 0) {
        ((uint8_t *)finding)[pair->wrong_byte] ^= 1;
    }
    if (pair->fault == VALUE_BESIDE_REFUSAL && finding->refusal != BASINTILT_ACCEPTED) {
        finding->value ^= 1;
    }
}

/* Each asks its own journal, whatever stands there. */
static void origin(struct pair *pair, const struct call *call)
{
    struct reference_origin said;
    pair->finding = basintilt_origin(pair->journal, call->length, call->asked.index, call->asked.subindex);
    reference_origin(pair->reference_journal, call->length, call->asked.index, call->asked.subindex, &said);
    pair->expected_finding = finding_of(&said);
    make_finding_wrong(pair);
}

/* Both sensors get the record that the library has now. */
static void share_record(struct pair *pair)
{
    pair->expected_device = pair->device;
    pair->too_wide = !give_record(&pair->record, &pair->device);
}

static void do_call(struct pair *pair, const struct call *call)
{
    switch (call->kind) {
    case POWER_ON:
        power_on(pair, call);
        break;
    case EVENT:
        event(pair, call);
        break;
    case BLOCK_QUERY:
        query(pair, call);
        break;
    case ORIGIN_QUERY:
        origin(pair, call);
        break;
    case JOURNAL_MADE:
        make_journal(pair->journal, call->length, (enum journal_shape)call->made.shape, call->made.seed);
        memcpy(pair->reference_journal, pair->journal, call->length);
        break;
    case BYTE_WRITTEN:
        pair->journal[call->written.at] = pair->reference_journal[call->written.at] = (uint8_t)call->written.number;
        break;
    case RECORD_MADE:
        pair->device = make_record((enum record_shape)call->made.shape, call->made.seed);
        share_record(pair);
        break;
    default:
        write_field(&pair->device, &fields[call->written.at], call->written.number);
        share_record(pair);
        break;
    }
}

static unsigned first_difference(const void *bytes, const void *same)
{
    unsigned at = 0;
    while (((const uint8_t *)bytes)[at] == ((const uint8_t *)same)[at]) {
        at++;
    }
    return at;
}

static struct difference compare_journals(const struct pair *pair)
{
    unsigned at;
    if (memcmp(pair->journal, pair->reference_journal, pair->used + GUARD) == 0) {
        return (struct difference){0};
    }
    at = first_difference(pair->journal, pair->reference_journal);
    return (struct difference){"the journal's byte", (int)at, pair->journal[at], pair->reference_journal[at]};
}

#define PART(path) {#path ", byte", offsetof(struct basintilt_answer, path)}

static struct difference compare_answers(const struct basintilt_answer *answer, const struct basintilt_answer *same)
{
    static const struct {
        const char *name;
        unsigned at;
    } parts[] = {
        PART(refusal),
        PART(count),
        PART(frames[0].identifier),
        PART(frames[0].length),
        PART(frames[0].bytes),
        PART(frames[1].identifier),
        PART(frames[1].length),
        PART(frames[1].bytes),
    };
    unsigned at;
    unsigned part = sizeof parts / sizeof parts[0] - 1;
    if (memcmp(answer, same, sizeof *answer) == 0) {
        return (struct difference){0};
    }
    at = first_difference(answer, same);
    while (parts[part].at > at) {
        part--;
    }
    return (struct difference){parts[part].name, (int)(at - parts[part].at), ((const uint8_t *)answer)[at], ((const uint8_t *)same)[at]};
}

static struct difference compare_records(const struct basintilt_device *device, const struct basintilt_device *same)
{
    const struct field *field;
    if (memcmp(device, same, sizeof *device) == 0) {
        return (struct difference){0};
    }
    field = field_at(first_difference(device, same));
    return (struct difference){field->name, -1, field_value(device, field), field_value(same, field)};
}

/* What a refusal leaves of the record: at an event what was lent, at power-on zeros. */
static struct difference compare_refused(const struct pair *pair, const struct call *call)
{
    static const struct basintilt_device zeros;
    bool refuses = call->kind == EVENT || call->kind == POWER_ON;
    if (!refuses || pair->answer.refusal == BASINTILT_ACCEPTED) {
        return (struct difference){0};
    }
    return compare_records(&pair->device, call->kind == EVENT ? &pair->lent : &zeros);
}

static struct difference compare_queries(const struct pair *pair)
{
    if (pair->block_answer == pair->reference_block_answer) {
        return (struct difference){0};
    }
    return (struct difference){"answer to the block query", -1, pair->block_answer, pair->reference_block_answer};
}

static struct difference compare_findings(const struct basintilt_finding *finding, const struct basintilt_finding *same)
{
    unsigned at;
    if (memcmp(finding, same, sizeof *finding) == 0) {
        return (struct difference){0};
    }
    at = first_difference(finding, same);
    return (struct difference){finding_field(at), -1, finding_number(finding, at), finding_number(same, at)};
}

struct difference perform(struct pair *pair, const struct call *call)
{
    uint32_t end = call->kind == BYTE_WRITTEN ? call->written.at + 1 : call->length;
    pair->lent = pair->device;
    pair->used = end > pair->used ? end : pair->used;
    do_call(pair, call);
    const struct difference differences[] = {
        compare_answers(&pair->answer, &pair->expected_answer),
        compare_records(&pair->device, &pair->expected_device),
        compare_refused(pair, call),
        compare_queries(pair),
        compare_findings(&pair->finding, &pair->expected_finding),
        compare_journals(pair),
    };
    for (unsigned i = 0; i < sizeof differences / sizeof differences[0]; i++) {
        if (differences[i].what != NULL) {
            return differences[i];
        }
    }
    return (struct difference){0};
}
