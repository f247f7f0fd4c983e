/* Prints what was reached, a line for each class. */
#include "counts.h"
#include "tally.h"

#include <inttypes.h>
#include <stdio.h>
#include <string.h>

static void show_call(unsigned which)
{
    static const char *const names[CALL_KINDS] = {
        "power-on", "event", "block query", "origin query", "journal made", "byte written", "record made", "field written",
    };
    printf("%s", names[which]);
}

static void show_event(unsigned which)
{
    static const char *const names[EVENT_KINDS] = {"frame", "remote frame", "tick", "reading X", "reading Y", "no kind"};
    printf("%s", names[which]);
}

static void show_number(unsigned which)
{
    printf("[%u]", which);
}

static void show_sent(unsigned which)
{
    static const char *const names[SENT_KINDS] = {
        "boot-up at power-on", "boot-up at a reset", "heartbeat 4", "heartbeat 5", "heartbeat 127", "PDO at a tick",
        "PDO at SYNC",         "EMCY 0000h",         "EMCY FF00h",  "EMCY FF01h",  "EMCY FF02h",
    };
    printf("%s", names[which]);
}

static void show_reply(unsigned which)
{
    printf("%02Xh of channel %u", reply_firsts[which % REPLIES], which / REPLIES + 1);
}

static void show_abort(unsigned which)
{
    printf("%08" PRIX32 "h of channel %u", abort_codes[which % ABORTS], which / ABORTS + 1);
}

static void show_channel(unsigned which)
{
    printf("channel %u", which + 1);
}

static void show_object(unsigned which)
{
    printf("%04X:%u", objects[which].index, objects[which].subindex);
}

static void show_block(unsigned which)
{
    static const char *const names[3] = {"good", "blank", "neither"};
    printf("%s", names[which]);
}

static void show_journal(unsigned which)
{
    static const char *const lengths[LENGTH_CLASSES] = {"1 block", "2 blocks", "3 to 126 blocks", "127 or 128 blocks"};
    printf("%s of %s", shape_names[which / LENGTH_CLASSES], lengths[which % LENGTH_CLASSES]);
}

static void show_field(unsigned which)
{
    printf("%s", fields[which].name);
}

static bool at_power_on(unsigned refusal)
{
    return refusal == BASINTILT_ACCEPTED || refusal == BASINTILT_WRONG_LENGTH || refusal == BASINTILT_WRONG_NODE;
}

static bool at_event(unsigned refusal)
{
    return refusal != BASINTILT_WRONG_NODE;
}

static bool is_writable(unsigned object)
{
    return objects[object].writable;
}

static bool ends_with(const char *text, const char *end)
{
    size_t length = strlen(text);
    return length >= strlen(end) && strcmp(text + length - strlen(end), end) == 0;
}

/* Every angle, stored timer and identity is in range; a running timer is not where the elapsed count is beyond it. */
static bool has_range(unsigned field)
{
    static const char *const without[] = {
        "vendor", "product", "revision", "serial", "preset", "offset", "differential", "stored.pdo.timer",
    };
    for (unsigned i = 0; i < sizeof without / sizeof without[0]; i++) {
        if (ends_with(fields[field].name, without[i])) {
            return false;
        }
    }
    return true;
}

static bool has_wide_numbers(unsigned field)
{
    return is_wider(&fields[field]);
}

bool show_counts(void)
{
    const struct tally tallies[] = {
        TALLY("calls", calls, show_call, true, NULL),
        TALLY("events", events, show_event, true, NULL),
        TALLY("refusals of power-on", power_on_refusals, show_number, true, at_power_on),
        TALLY("refusals of events", event_refusals, show_number, true, at_event),
        TALLY("frames at once", frames_at_once, show_number, true, NULL),
        TALLY("frames sent", sent, show_sent, true, NULL),
        TALLY("replies", replies, show_reply, true, NULL),
        TALLY("aborts", aborts, show_abort, true, NULL),
        TALLY("saves acknowledged", saves, show_channel, true, NULL),
        TALLY("loads acknowledged", loads, show_channel, true, NULL),
        TALLY("blocks", queries, show_block, true, NULL),
        TALLY("objects read", reads, show_object, false, NULL),
        TALLY("objects written", writes, show_object, false, is_writable),
        TALLY("journals at power-on", journals, show_journal, false, NULL),
        TALLY("fields out of range", fields_refused, show_field, false, has_range),
        TALLY("fields out of range by their high bytes alone", fields_refused_as_wide, show_field, false, has_wide_numbers),
    };
    bool all = show_tallies(tallies, sizeof tallies / sizeof tallies[0]);
    all = show_lss_counts() && all;
    all = show_angle_counts() && all;
    all = show_turn_counts() && all;
    return show_origin_counts() && all;
}
