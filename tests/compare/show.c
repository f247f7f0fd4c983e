/* Prints a history call by call, as a person would type it again. */
#include "history.h"
#include "journals.h"
#include "records.h"

#include <inttypes.h>
#include <stdio.h>

static void show_bytes(const uint8_t *bytes, unsigned length)
{
    for (unsigned i = 0; i < length && i < 8; i++) {
        printf("%02X", bytes[i]);
    }
}

static void show_happening(const struct basintilt_happening *happening)
{
    switch (happening->kind) {
    case BASINTILT_FRAME:
    case BASINTILT_REMOTE_FRAME:
        printf(happening->kind == BASINTILT_FRAME ? "frame" : "remote frame");
        printf(" %03" PRIX32 " length %u ", happening->identifier, happening->length);
        show_bytes(happening->bytes, happening->length);
        break;
    case BASINTILT_TICK:
        printf("tick %u", happening->ms);
        break;
    case BASINTILT_READING_X:
    case BASINTILT_READING_Y:
        printf("reading %s %" PRId32, happening->kind == BASINTILT_READING_X ? "X" : "Y", happening->m);
        break;
    default:
        printf("event of kind %u", happening->kind);
        break;
    }
}

/* The fields that are not 0. */
static void show_record(const struct basintilt_device *device)
{
    for (unsigned i = 0; i < FIELDS; i++) {
        long long number = field_value(device, &fields[i]);
        if (number != 0) {
            printf(" %s=%lld", fields[i].name, number);
        }
    }
}

static void show_made_record(const struct call *call)
{
    struct basintilt_device device = make_record((enum record_shape)call->made.shape, call->made.seed);
    printf("record made, %s:", record_names[call->made.shape]);
    show_record(&device);
}

/* Block by block: good, blank or neither. */
static void show_made_journal(const struct call *call)
{
    static uint8_t journal[LONGEST_SAID];
    make_journal(journal, call->length, (enum journal_shape)call->made.shape, call->made.seed);
    printf("journal made, %s, seed %016llX: ", shape_names[call->made.shape], (unsigned long long)call->made.seed);
    for (uint32_t at = 0; at < call->length; at += BASINTILT_BLOCK_BYTES) {
        printf("%c", "GBN"[reference_block(journal + at, BASINTILT_BLOCK_BYTES, at / BASINTILT_BLOCK_BYTES + 1)]);
    }
}

static void show_call(const struct call *call)
{
    switch (call->kind) {
    case POWER_ON:
        printf("power-on node %" PRIu32 " identity", call->power_on.node);
        printf(" %" PRIX32 " %" PRIX32, call->power_on.identity.vendor, call->power_on.identity.product);
        printf(" %" PRIX32 " %" PRIX32, call->power_on.identity.revision, call->power_on.identity.serial);
        break;
    case EVENT:
        show_happening(&call->happening);
        break;
    case BLOCK_QUERY:
        printf("block query at byte %" PRIu32 ", place %" PRIu32, call->query.at, call->query.place);
        break;
    case ORIGIN_QUERY:
        printf("origin query of %04X:%u", call->asked.index, call->asked.subindex);
        break;
    case JOURNAL_MADE:
        show_made_journal(call);
        break;
    case BYTE_WRITTEN:
        printf("byte %" PRIu32 " of the journal becomes %02" PRIX32 "h", call->written.at, call->written.number & 0xFF);
        break;
    case RECORD_MADE:
        show_made_record(call);
        break;
    default:
        printf("field %s becomes %08" PRIX32 "h", fields[call->written.at].name, call->written.number);
        break;
    }
    if (call->kind <= LAST_OF_LIBRARY) {
        printf(", over %" PRIu32 " bytes", call->length);
    }
}

void show_history(void)
{
    const struct difference *difference = &history.difference;
    for (unsigned i = 0; i < history.count; i++) {
        printf("  %u: ", i + 1);
        show_call(&history.calls[i]);
        printf("\n");
    }
    printf("then they differ in %s", difference->what);
    if (difference->at >= 0) {
        printf(" %d", difference->at);
    }
    printf(": library %lld, reference %lld\n", (long long)difference->library, (long long)difference->reference);
}
