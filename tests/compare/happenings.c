/* Events: service and LSS requests, network commands, SYNC, ticks, readings and frames that no rule names. */
#include "happenings.h"

#include "lss.h"
#include "requests.h"

enum turn { REQUEST, LSS_REQUEST, NETWORK, SYNC, TICK, MEASURED, STRAY_FRAME, REMOTE, NO_KIND, TURNS };

static const uint8_t weights[LEANINGS][TURNS] = {
    [EVEN] = {46, 4, 8, 8, 14, 12, 5, 2, 1},
    [SERVICE] = {84, 1, 3, 1, 2, 5, 2, 1, 1},
    [TIME] = {19, 1, 6, 30, 36, 4, 2, 1, 1},
    [READING] = {24, 1, 6, 4, 6, 55, 2, 1, 1},
    [NAMING] = {14, 52, 20, 1, 3, 4, 3, 2, 1},
};

struct basintilt_happening network_command(uint32_t command, uint32_t node)
{
    struct basintilt_happening frame = {.kind = BASINTILT_FRAME, .identifier = BASINTILT_NMT_AT, .length = 2};
    frame.bytes[0] = (uint8_t)command;
    frame.bytes[1] = (uint8_t)node;
    return frame;
}

struct basintilt_happening sync_frame(void)
{
    return (struct basintilt_happening){.kind = BASINTILT_FRAME, .identifier = BASINTILT_SYNC_AT};
}

struct basintilt_happening tick_of(uint32_t ms)
{
    return (struct basintilt_happening){.kind = BASINTILT_TICK, .ms = (uint16_t)ms};
}

struct basintilt_happening reading_of(unsigned kind, int32_t m)
{
    return (struct basintilt_happening){.kind = (uint8_t)kind, .m = m};
}

/* A sensor is brought to Operational more often than not, since most rules are asleep elsewhere; to Stopped where LSS is to be heard. */
static struct basintilt_happening any_command(struct chance *chance, const struct basintilt_device *device, enum leaning leaning)
{
    uint8_t wanted = leaning == NAMING ? BASINTILT_STOPPED : BASINTILT_OPERATIONAL;
    uint32_t bring = leaning == NAMING ? 0x02 : 0x01;
    uint32_t command = PICK(chance, 0x01, bring, bring, 0x02, 0x80, 0x81, 0x82, any32(chance));
    uint32_t node = PICK(chance, 0, device->node, device->node, device->node, device->node + 1u, device->lss.node, any32(chance));
    if (device->network != wanted && one_in(chance, 2)) {
        return network_command(bring, device->node);
    }
    return network_command(command, node);
}

/* Around what is left of a period. */
static struct basintilt_happening any_tick(struct chance *chance, const struct basintilt_device *device)
{
    uint32_t to_heartbeat = (uint32_t)device->running.heartbeat - device->heartbeat;
    uint32_t to_pdo = (uint32_t)device->running.pdo.timer - device->pdo.elapsed;
    uint32_t left = one_in(chance, 2) ? to_heartbeat : to_pdo;
    return tick_of(PICK(chance, left, left, left - 1, left + 1, 0, 1, 65535, below(chance, 100), any32(chance)));
}

static struct basintilt_happening any_reading(struct chance *chance, const struct basintilt_device *device)
{
    uint32_t far = BASINTILT_FARTHEST;
    uint32_t step = device->running.resolution;
    uint32_t half = step * below(chance, 200) + step / 2;
    uint32_t edge = PICK(chance, far, 32767 * step, 32768 * step, step, 0, half, half);
    uint32_t near = PICK(chance, edge - 1, edge, edge + 1);
    uint32_t good = below(chance, 2 * far + 1) - far;
    uint32_t m = PICK(chance, near, 0u - near, near, 0u - near, good, good, 0x7FFFFFFF, 0x80000000, any32(chance));
    return reading_of(one_in(chance, 2) ? BASINTILT_READING_X : BASINTILT_READING_Y, (int32_t)m);
}

static uint32_t any_identifier(struct chance *chance, const struct basintilt_device *device)
{
    uint32_t base = PICK(chance, 0, 0x80, 0x100, 0x180, 0x580, 0x600, 0x680, 0x6B0, 0x700, 0x7E4, 0x7E5);
    uint32_t node = PICK(chance, 0, device->node, device->node, device->node + 1u, device->lss.node, device->saves.node, below(chance, 128));
    if (one_in(chance, 4)) {
        return PICK(chance, 0x7FF, 0x800, 0x7FE, 0xFFFFFFFF, 0x80000000, below(chance, 0x800), any32(chance));
    }
    return one_in(chance, 4) ? (base + node) ^ 1u << below(chance, 32) : base + node;
}

static uint8_t any_length(struct chance *chance)
{
    return (uint8_t)PICK(chance, 0, 2, 8, below(chance, 10), below(chance, 10), 9, any32(chance));
}

/* A frame that some rule names. */
static struct basintilt_happening any_named(struct chance *chance, const struct basintilt_device *device)
{
    switch (below(chance, 6)) {
    case 0:
        return sync_frame();
    case 1:
    case 2:
        return any_command(chance, device, EVEN);
    case 3:
        return any_lss_request(chance, device);
    default:
        return any_request(chance, device);
    }
}

/* The same with another identifier or length. */
static struct basintilt_happening stray_frame(struct chance *chance, const struct basintilt_device *device)
{
    struct basintilt_happening frame = any_named(chance, device);
    uint32_t turn = below(chance, 3);
    if (turn != 0) {
        frame.identifier = any_identifier(chance, device);
    }
    if (turn != 1) {
        frame.length = any_length(chance);
    }
    return frame;
}

static struct basintilt_happening remote_frame(struct chance *chance, const struct basintilt_device *device)
{
    struct basintilt_happening frame = one_in(chance, 3) ? stray_frame(chance, device) : any_named(chance, device);
    frame.kind = BASINTILT_REMOTE_FRAME;
    return frame;
}

static struct basintilt_happening by_turn(struct chance *chance, const struct basintilt_device *device, enum leaning leaning, enum turn turn)
{
    struct basintilt_happening happening;
    switch (turn) {
    case REQUEST:
        return any_request(chance, device);
    case LSS_REQUEST:
        return any_lss_request(chance, device);
    case NETWORK:
        return any_command(chance, device, leaning);
    case SYNC:
        return sync_frame();
    case TICK:
        return any_tick(chance, device);
    case MEASURED:
        return any_reading(chance, device);
    case STRAY_FRAME:
        return stray_frame(chance, device);
    case REMOTE:
        return remote_frame(chance, device);
    default:
        happening = stray_frame(chance, device);
        happening.kind = (uint8_t)between(chance, BASINTILT_READING_Y + 1, 255);
        return happening;
    }
}

/* What a kind does not use is ignored, so anything may stand there. */
static void fill_unused(struct chance *chance, struct basintilt_happening *happening)
{
    bool is_frame = happening->kind <= BASINTILT_REMOTE_FRAME;
    bool is_reading = happening->kind == BASINTILT_READING_X || happening->kind == BASINTILT_READING_Y;
    uint64_t bytes = any64(chance);
    if (!is_frame) {
        happening->identifier = any32(chance);
        happening->length = (uint8_t)any32(chance);
    }
    for (unsigned i = is_frame ? happening->length : 0; i < sizeof happening->bytes; i++) {
        happening->bytes[i] = (uint8_t)(bytes >> 8 * i);
    }
    if (happening->kind != BASINTILT_TICK) {
        happening->ms = (uint16_t)any32(chance);
    }
    if (!is_reading) {
        happening->m = (int32_t)any32(chance);
    }
}

struct basintilt_happening any_happening(struct chance *chance, const struct basintilt_device *device, enum leaning leaning)
{
    struct basintilt_happening happening;
    unsigned turn = 0;
    uint32_t rest = below(chance, 100);
    while (turn + 1 < TURNS && rest >= weights[leaning][turn]) {
        rest -= weights[leaning][turn];
        turn++;
    }
    happening = by_turn(chance, device, leaning, (enum turn)turn);
    if (one_in(chance, 4)) {
        fill_unused(chance, &happening);
    }
    return happening;
}
