/* Counts what was reached, so that the comparison cannot pass empty. */
#include "counts.h"

#include <string.h>

struct counts counts;

const uint32_t abort_codes[ABORTS] = {
    BASINTILT_ABORT_TOGGLE,   BASINTILT_ABORT_COMMAND, BASINTILT_ABORT_FULL,      BASINTILT_ABORT_READ_ONLY, BASINTILT_ABORT_OBJECT,
    BASINTILT_ABORT_SPOILED,  BASINTILT_ABORT_TOO_LONG, BASINTILT_ABORT_TOO_SHORT, BASINTILT_ABORT_SUBINDEX,  BASINTILT_ABORT_VALUE,
    BASINTILT_ABORT_SIGNATURE, BASINTILT_ABORT_AXIS,    BASINTILT_ABORT_ENTRY,
};

const uint8_t reply_firsts[REPLIES] = {0x60, 0x4F, 0x4B, 0x43, 0x41, 0x00, 0x19, 0x80};

uint32_t abort_code(const uint8_t *bytes)
{
    return bytes[4] | (uint32_t)bytes[5] << 8 | (uint32_t)bytes[6] << 16 | (uint32_t)bytes[7] << 24;
}

static void count_abort(const uint8_t *bytes, unsigned channel)
{
    for (unsigned i = 0; i < ABORTS; i++) {
        counts.aborts[channel * ABORTS + i] += abort_codes[i] == abort_code(bytes);
    }
}

static void count_reply(const uint8_t *bytes, unsigned channel)
{
    unsigned object = object_named(bytes + 1);
    for (unsigned i = 0; i < REPLIES; i++) {
        counts.replies[channel * REPLIES + i] += reply_firsts[i] == bytes[0];
    }
    if (bytes[0] == 0x80) {
        count_abort(bytes, channel);
    } else if (bytes[0] == 0x60 && object < OBJECTS) {
        counts.writes[object]++;
        counts.saves[channel] += objects[object].index == 0x1010;
        counts.loads[channel] += objects[object].index == 0x1011;
    } else if (bytes[0] >= 0x41 && object < OBJECTS) {
        counts.reads[object]++;
    }
}

static unsigned heartbeat_kind(const struct call *call, uint8_t state)
{
    switch (state) {
    case 0:
        return call->kind == POWER_ON ? BOOT_UP_AT_POWER_ON : BOOT_UP_AT_RESET;
    case BASINTILT_STOPPED:
        return HEARTBEAT_STOPPED;
    case BASINTILT_OPERATIONAL:
        return HEARTBEAT_OPERATIONAL;
    default:
        return HEARTBEAT_PRE_OPERATIONAL;
    }
}

static void count_frame(const struct call *call, const struct basintilt_frame *frame, unsigned node)
{
    switch (frame->identifier - node) {
    case BASINTILT_HEARTBEAT_AT:
        counts.sent[heartbeat_kind(call, frame->bytes[0])]++;
        break;
    case BASINTILT_PDO_AT:
        counts.sent[call->happening.kind == BASINTILT_TICK ? PDO_AT_TICK : PDO_AT_SYNC]++;
        break;
    case BASINTILT_EMERGENCY_AT:
        counts.sent[frame->bytes[1] == 0 ? EMCY_ENDS : EMCY_SPOILED + frame->bytes[0] % 3]++;
        break;
    case BASINTILT_REPLY_ONE_AT:
        count_reply(frame->bytes, 0);
        break;
    case BASINTILT_REPLY_TWO_AT:
        count_reply(frame->bytes, 1);
        break;
    default:
        break;
    }
}

static unsigned length_class(uint32_t length)
{
    uint32_t blocks = length / BASINTILT_BLOCK_BYTES;
    return blocks <= 2 ? blocks - 1 : blocks < 127 ? 2 : 3;
}

/* A refused record that is the last accepted one but for one field, and perhaps only for bytes that the reference has not. */
static void count_refused_field(const struct basintilt_device *device, const struct basintilt_device *accepted, unsigned at)
{
    const struct field *field = &fields[at];
    struct basintilt_device made = *accepted;
    int64_t turned = field_value(device, field) ^ field_value(accepted, field);
    write_field(&made, field, (uint32_t)field_value(device, field));
    if (memcmp(&made, device, sizeof made) == 0) {
        counts.fields_refused[at]++;
        counts.fields_refused_as_wide[at] += turned % (INT64_C(1) << 8 * field->size_in_reference) == 0;
    }
}

/* A power-on just behind the making of its journal; an event refused just behind the writing of a field. */
static void count_with_last(const struct pair *pair, const struct call *call)
{
    static struct call last;
    static struct basintilt_device accepted;
    unsigned refusal = pair->answer.refusal;
    if (call->kind == POWER_ON && refusal == BASINTILT_ACCEPTED && last.kind == JOURNAL_MADE && last.length == call->length) {
        counts.journals[last.made.shape * LENGTH_CLASSES + length_class(call->length)]++;
    }
    if (call->kind == EVENT && refusal == BASINTILT_OUT_OF_RANGE && last.kind == FIELD_WRITTEN) {
        count_refused_field(&pair->device, &accepted, last.written.at);
    }
    if ((call->kind == EVENT || call->kind == POWER_ON) && refusal == BASINTILT_ACCEPTED) {
        accepted = pair->device;
    }
    last = *call;
}

void count_call(const struct pair *pair, const struct call *call)
{
    const struct basintilt_answer *answer = &pair->answer;
    counts.calls[call->kind]++;
    count_with_last(pair, call);
    if (call->kind == BLOCK_QUERY) {
        counts.queries[pair->block_answer % 3]++;
        count_block(pair, call);
    }
    if (call->kind == ORIGIN_QUERY) {
        count_origin(pair, call);
    }
    if (call->kind != POWER_ON && call->kind != EVENT) {
        return;
    }
    if (call->kind == EVENT) {
        counts.events[call->happening.kind < EVENT_KINDS ? call->happening.kind : EVENT_KINDS - 1]++;
    }
    (call->kind == EVENT ? counts.event_refusals : counts.power_on_refusals)[answer->refusal % REFUSALS]++;
    counts.frames_at_once[answer->count % (BASINTILT_MOST_FRAMES + 1)]++;
    count_lss(pair, call);
    for (unsigned i = 0; i < answer->count && i < BASINTILT_MOST_FRAMES; i++) {
        count_frame(call, &answer->frames[i], pair->device.node);
        count_angles(pair, call, &answer->frames[i]);
    }
}
