/* Counts what was reached of rounding: where a reading stood between two steps when it was shown, read or taken as a zero, and how far from level. */
#include "counts.h"

struct rounded {
    unsigned place;
    int32_t cut;     /* s times m / r, cut toward zero */
    int32_t nearest; /* s times m / r, rounded */
};

static const struct basintilt_reading *reading_at(const struct basintilt_device *device, unsigned axis)
{
    return axis == 0 ? &device->x : &device->y;
}

static const struct basintilt_axis_settings *settings_at(const struct basintilt_device *device, unsigned axis)
{
    return axis == 0 ? &device->running.x : &device->running.y;
}

static struct rounded round_axis(const struct basintilt_device *device, unsigned axis)
{
    int32_t m = reading_at(device, axis)->m;
    int32_t r = device->running.resolution;
    int32_t over = m < 0 ? -(m % r) : m % r;
    int32_t sign = settings_at(device, axis)->operating % 2 == 1 ? -1 : 1;
    struct rounded rounded = {.cut = sign * (m / r)};
    bool up = 2 * over >= r;
    rounded.nearest = rounded.cut + (up ? (m < 0 ? -sign : sign) : 0);
    if (2 * over == r) {
        rounded.place = rounded.nearest % 2 == 0 ? HALF_TO_EVEN : HALF_TO_ODD;
    } else {
        rounded.place = over == 0 ? WHOLE_STEP : up ? ABOVE_HALF : BELOW_HALF;
    }
    return rounded;
}

/* A step of one thousandth has no edges, and no edge is at 180 degrees: the place is below TENS. */
static void count_edge(int32_t m, unsigned resolution)
{
    int32_t r = resolutions[resolution];
    int32_t size = m < 0 ? -m : m;
    int32_t over = (size + r / 2) % r;
    if (r > 1 && (over == 0 || over == r - 1)) {
        unsigned edge = over == 0 ? FIRST_OF_STEP : LAST_BEFORE;
        counts.step_edges[((resolution * SIGNS + (m < 0)) * EDGES + edge) * TENS + (unsigned)(size / TEN_DEGREES)]++;
    }
}

static unsigned resolution_of(const struct basintilt_device *device)
{
    unsigned resolution = 0;
    while (resolution + 1 < RESOLUTIONS && resolutions[resolution] != device->running.resolution) {
        resolution++;
    }
    return resolution;
}

static void count_use(const struct basintilt_device *device, unsigned axis, unsigned use)
{
    int32_t m = reading_at(device, axis)->m;
    unsigned resolution = resolution_of(device);
    unsigned kind = SIGNS * ((use * AXES + axis) * RESOLUTIONS + resolution) + (m < 0);
    counts.roundings[kind * PLACES + round_axis(device, axis).place]++;
    count_edge(m, resolution);
}

/* A half whose sum with the offsets has the other sign: the sum rounded away from zero would be another. */
static void count_sum(const struct basintilt_device *device, unsigned axis)
{
    const struct basintilt_axis_settings *settings = settings_at(device, axis);
    struct rounded rounded = round_axis(device, axis);
    int32_t added = settings->offset + settings->differential;
    bool is_half = rounded.place == HALF_TO_EVEN || rounded.place == HALF_TO_ODD;
    bool crosses = rounded.nearest > 0 ? rounded.nearest + added <= 0 : rounded.nearest + added >= 0;
    if (settings->operating >= 2 && is_half && crosses) {
        counts.sums_at_halves[SIGNS * axis + (rounded.nearest < 0)]++;
    }
}

static void count_shown(const struct basintilt_device *device, unsigned axis, unsigned use)
{
    if (reading_at(device, axis)->state == BASINTILT_GOOD_AXIS) {
        unsigned resolution = resolution_of(device);
        count_use(device, axis, use);
        count_sum(device, axis);
        count_turn(settings_at(device, axis), round_axis(device, axis).nearest, resolution, (use * AXES + axis) * RESOLUTIONS + resolution);
    }
}

bool fits(int32_t offset)
{
    return offset >= INT16_MIN && offset <= INT16_MAX;
}

/* A preset that came to its offset; where the cut q would decide otherwise it is counted apart. */
static void count_zero(const struct basintilt_device *lent, unsigned axis, const uint8_t *request)
{
    struct rounded rounded = round_axis(lent, axis);
    int32_t preset = (int16_t)(request[4] | request[5] << 8);
    int32_t wanted = preset - settings_at(lent, axis)->differential;
    count_use(lent, axis, IN_PRESET);
    count_turned_preset(preset, wanted - rounded.nearest, resolution_of(lent), axis);
    if (fits(wanted - rounded.nearest) != fits(wanted - rounded.cut)) {
        counts.zeros_by_rounding[2 * axis + fits(wanted - rounded.nearest)]++;
    }
}

static void count_angle_reply(const struct pair *pair, const struct call *call, const uint8_t *bytes)
{
    uint32_t index = bytes[1] | (uint32_t)bytes[2] << 8;
    unsigned axis = index >= 0x6020;
    bool judged = bytes[0] == 0x60 || (bytes[0] == 0x80 && abort_code(bytes) == BASINTILT_ABORT_VALUE);
    bool two_bytes = call->happening.bytes[0] == 0x2B || call->happening.bytes[0] == 0x22;
    if (bytes[3] != 0) {
        return;
    }
    if (bytes[0] == 0x4B && (index == 0x6010 || index == 0x6020)) {
        count_shown(&pair->device, axis, IN_READ);
    }
    if (judged && two_bytes && (index == 0x6012 || index == 0x6022)) {
        count_zero(&pair->lent, axis, call->happening.bytes);
    }
}

void count_angles(const struct pair *pair, const struct call *call, const struct basintilt_frame *frame)
{
    unsigned node = pair->device.node;
    if (frame->identifier == BASINTILT_PDO_AT + node) {
        count_shown(&pair->device, 0, IN_PDO);
        count_shown(&pair->device, 1, IN_PDO);
    }
    if (frame->identifier == BASINTILT_REPLY_ONE_AT + node || frame->identifier == BASINTILT_REPLY_TWO_AT + node) {
        count_angle_reply(pair, call, frame->bytes);
    }
}
