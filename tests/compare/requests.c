/* Requests of the service channels: mostly such as are served, and all others too. */
#include "requests.h"

#include "settings.h"

struct basintilt_happening request(uint32_t node, unsigned channel, uint8_t first, uint32_t index, uint32_t subindex, uint32_t value)
{
    struct basintilt_happening happening = {.kind = BASINTILT_FRAME, .length = 8};
    happening.identifier = (channel == 0 ? BASINTILT_REQUEST_ONE_AT : BASINTILT_REQUEST_TWO_AT) + node;
    happening.bytes[0] = first;
    happening.bytes[1] = (uint8_t)index;
    happening.bytes[2] = (uint8_t)(index >> 8);
    happening.bytes[3] = (uint8_t)subindex;
    for (unsigned i = 0; i < 4; i++) {
        happening.bytes[4 + i] = (uint8_t)(value >> 8 * i);
    }
    return happening;
}

/* Often a preset whose offset only just fits or only just does not. */
static uint32_t preset_value(struct chance *chance, const struct basintilt_device *device, bool is_x)
{
    const struct basintilt_axis_settings *axis = is_x ? &device->running.x : &device->running.y;
    int32_t m = is_x ? device->x.m : device->y.m;
    int32_t q = device->running.resolution == 0 ? 0 : m / device->running.resolution;
    int32_t end = (int32_t)PICK(chance, 0x7FFE, 0x7FFF, 0x8000, 0xFFFF7FFF, 0xFFFF8000, 0xFFFF8001);
    if (one_in(chance, 2)) {
        return (uint16_t)any_angle(chance);
    }
    return (uint32_t)((axis->operating & 1 ? -q : q) + axis->differential + end);
}

uint32_t fitting_value(struct chance *chance, const struct basintilt_device *device, const struct object *object)
{
    switch (object->index) {
    case 0x1003:
        return 0;
    case 0x1010:
        return BASINTILT_SAVE;
    case 0x1011:
        return BASINTILT_LOAD;
    case 0x1017:
        return any_heartbeat(chance);
    case 0x1800:
        if (object->subindex == 1) {
            return (one_in(chance, 3) ? 0xC0000180 : 0x40000180) + device->node;
        }
        return object->subindex == 2 ? any_transmission(chance) : any_timer(chance);
    case 0x6000:
        return any_resolution(chance);
    case 0x6011:
    case 0x6021:
        return below(chance, BASINTILT_MOST_OPERATING + 1);
    case 0x6012:
    case 0x6022:
        return preset_value(chance, device, object->index == 0x6012);
    default:
        return (uint16_t)any_angle(chance);
    }
}

/* One bit or one step off what fits, an end of some range, or anything. */
static uint32_t unfit_value(struct chance *chance, uint32_t fitting)
{
    return PICK(chance, fitting ^ 1u << below(chance, 32), fitting + 1, fitting - 1, 1, 4, 24, 241, 253, 0x8000, 0xFFFFFFFF,
                BASINTILT_SAVE, BASINTILT_LOAD, 0x73617665, any32(chance));
}

static uint8_t first_of_write(struct chance *chance, const struct object *object)
{
    uint32_t exact = object->bytes == 1 ? 0x2F : object->bytes == 2 ? 0x2B : 0x23;
    if (one_in(chance, 8)) {
        return (uint8_t)PICK(chance, 0x22, 0x23, 0x27, 0x2B, 0x2F);
    }
    return (uint8_t)(one_in(chance, 5) ? WRITES_OWN_LENGTH : exact);
}

static struct basintilt_happening any_write(struct chance *chance, const struct basintilt_device *device, unsigned channel,
                                            const struct object *object)
{
    uint32_t value = fitting_value(chance, device, object);
    uint8_t first = first_of_write(chance, object);
    if (one_in(chance, 6)) {
        value = unfit_value(chance, value);
    }
    if (one_in(chance, 4) && object->bytes > 0 && object->bytes < 4) {
        value = (value & ((1u << 8 * object->bytes) - 1)) | any32(chance) << 8 * object->bytes; /* the bytes behind the value are ignored */
    }
    return request(device->node, channel, first, object->index, object->subindex, value);
}

static const struct object *any_writable(struct chance *chance)
{
    unsigned row = below(chance, OBJECTS);
    while (!objects[row].writable) {
        row = below(chance, OBJECTS);
    }
    return &objects[row];
}

/* The string is asked for, or its next segment, mostly with the right toggle. */
static struct basintilt_happening transfer_request(struct chance *chance, const struct basintilt_device *device, unsigned channel)
{
    uint8_t transfer = device->transfers[channel].stage;
    uint32_t right = transfer == BASINTILT_AFTER_SEVEN ? NEXT_SEGMENT_TOGGLED : NEXT_SEGMENT;
    uint32_t first = PICK(chance, right, right, right, right, NEXT_SEGMENT, NEXT_SEGMENT_TOGGLED, ENDS);
    uint32_t unused = one_in(chance, 2) ? 0 : any32(chance);
    if (transfer == BASINTILT_ABSENT && !one_in(chance, 6)) {
        return request(device->node, channel, READS, 0x1008, 0, unused);
    }
    return request(device->node, channel, (uint8_t)first, unused >> 16, unused >> 8, unused);
}

/* An object or subindex that is none, mostly next to one that is. */
static struct basintilt_happening stray_request(struct chance *chance, const struct basintilt_device *device, unsigned channel)
{
    const struct object *object = &objects[below(chance, OBJECTS)];
    uint32_t index = object->index;
    uint32_t other = PICK(chance, index + 1, index - 1, index ^ 1u << below(chance, 16), any32(chance));
    uint32_t subindex = PICK(chance, object->subindex, object->subindex + 1u, 3, 4, 6, 255, below(chance, 256));
    uint8_t first = (uint8_t)PICK(chance, READS, READS, 0x22, 0x23, 0x2F, any32(chance));
    uint32_t value = any32(chance);
    return request(device->node, channel, first, one_in(chance, 2) ? index : other, subindex, value);
}

struct basintilt_happening any_request(struct chance *chance, const struct basintilt_device *device)
{
    unsigned channel = below(chance, 2);
    const struct object *object = &objects[below(chance, OBJECTS)];
    uint32_t value = one_in(chance, 3) ? 0 : any32(chance);
    uint32_t turn = below(chance, 100);
    if (device->transfers[channel].stage != BASINTILT_ABSENT && one_in(chance, 2)) {
        return transfer_request(chance, device, channel);
    }
    if (turn < 45) {
        return any_write(chance, device, channel, any_writable(chance));
    }
    if (turn < 70) {
        return request(device->node, channel, READS, object->index, object->subindex, value);
    }
    if (turn < 83) {
        return transfer_request(chance, device, channel);
    }
    if (turn < 90) {
        return any_write(chance, device, channel, object);
    }
    if (turn < 97) {
        return stray_request(chance, device, channel);
    }
    return request(device->node, channel, (uint8_t)any32(chance), object->index, object->subindex, value);
}
