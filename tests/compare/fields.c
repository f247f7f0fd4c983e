/* The fields of the device record, each with its place in either sensor's record. */
#include "fields.h"

#include <string.h>

#define LIBRARY(path) ((const struct basintilt_device *)0)->path
#define REFERENCE(path) ((const struct reference_record *)0)->path

/* A width that is not allowed makes the array's length negative. */
#define ALLOWED(holds) (0 * sizeof(char[(holds) ? 1 : -1]))

#define PLACED(a, b, is_signed, holds)                                             \
    {                                                                              \
        #a, offsetof(struct basintilt_device, a), offsetof(struct reference_record, b), \
            sizeof(LIBRARY(a)) + ALLOWED(holds), sizeof(REFERENCE(b)), is_signed   \
    }
#define NATURAL(a, b) PLACED(a, b, 0, sizeof(LIBRARY(a)) >= sizeof(REFERENCE(b)))
#define SIGNED(a, b) PLACED(a, b, 1, sizeof(LIBRARY(a)) == sizeof(REFERENCE(b)))

#define AXIS_SETTINGS(a, b) \
    NATURAL(a.operating, b.operating), SIGNED(a.preset, b.preset), SIGNED(a.offset, b.offset), SIGNED(a.differential, b.differential)

#define SETTINGS(a)                                                                             \
    NATURAL(a.heartbeat, a.heartbeat), NATURAL(a.pdo.on, a.pdo.on),                             \
        NATURAL(a.pdo.transmission, a.pdo.transmission), NATURAL(a.pdo.timer, a.pdo.timer),     \
        NATURAL(a.resolution, a.resolution), AXIS_SETTINGS(a.x, a.axes[0]), AXIS_SETTINGS(a.y, a.axes[1])

const struct field fields[] = {
    NATURAL(identity.vendor, identity.vendor),
    NATURAL(identity.product, identity.product),
    NATURAL(identity.revision, identity.revision),
    NATURAL(identity.serial, identity.serial),
    NATURAL(x.state, axes[0].state),
    SIGNED(x.m, axes[0].m),
    NATURAL(y.state, axes[1].state),
    SIGNED(y.m, axes[1].m),
    NATURAL(heartbeat, heartbeat_elapsed),
    NATURAL(pdo.elapsed, pdo.elapsed),
    NATURAL(pdo.syncs, pdo.sync_count),
    NATURAL(saves.blocks, saves.blocks),
    NATURAL(saves.filled, saves.filled),
    NATURAL(saves.spoiled, saves.spoiled),
    NATURAL(saves.node, saves.stored_number),
    SETTINGS(saves.stored),
    SETTINGS(running),
    NATURAL(errors.length, errors.length),
    NATURAL(errors.codes[0], errors.codes[0]),
    NATURAL(errors.codes[1], errors.codes[1]),
    NATURAL(errors.codes[2], errors.codes[2]),
    NATURAL(errors.codes[3], errors.codes[3]),
    NATURAL(errors.codes[4], errors.codes[4]),
    NATURAL(lss.mode, lss.mode),
    NATURAL(lss.matches, lss.matches),
    NATURAL(lss.node, lss.number_set),
    NATURAL(node, node),
    NATURAL(network, nmt_state),
    NATURAL(transfers[0].stage, transfers[0]),
    NATURAL(transfers[1].stage, transfers[1]),
};

_Static_assert(sizeof fields / sizeof fields[0] == FIELDS, "fields of the record");

bool fields_are_all_bytes(void)
{
    unsigned end = 0;
    for (unsigned i = 0; i < FIELDS; i++) {
        if (fields[i].in_library != end) {
            return false;
        }
        end += fields[i].size;
    }
    return end == sizeof(struct basintilt_device);
}

/* The numbers of x86-64 and of a Cortex-M stand low byte first, so a number's low bytes are its first ones. */
static uint32_t number_in(const struct basintilt_device *device, const struct field *field)
{
    uint32_t number = 0;
    memcpy(&number, (const uint8_t *)device + field->in_library, field->size);
    return number;
}

int64_t field_value(const struct basintilt_device *device, const struct field *field)
{
    uint32_t number = number_in(device, field);
    if (!field->is_signed) {
        return number;
    }
    return field->size == 2 ? (int16_t)number : (int32_t)number;
}

void write_field(struct basintilt_device *device, const struct field *field, uint32_t number)
{
    memcpy((uint8_t *)device + field->in_library, &number, field->size);
}

bool is_wider(const struct field *field)
{
    return field->size > field->size_in_reference;
}

bool give_record(struct reference_record *record, const struct basintilt_device *device)
{
    bool fits = true;
    memset(record, 0, sizeof *record);
    for (unsigned i = 0; i < FIELDS; i++) {
        uint32_t number = number_in(device, &fields[i]);
        memcpy((uint8_t *)record + fields[i].in_reference, &number, fields[i].size_in_reference);
        fits = fits && (uint64_t)number >> 8 * fields[i].size_in_reference == 0;
    }
    return fits;
}

struct basintilt_device record_of(const struct reference_record *record)
{
    struct basintilt_device device;
    memset(&device, 0, sizeof device);
    for (unsigned i = 0; i < FIELDS; i++) {
        memcpy((uint8_t *)&device + fields[i].in_library, (const uint8_t *)record + fields[i].in_reference, fields[i].size_in_reference);
    }
    return device;
}

const struct field *field_at(unsigned byte)
{
    unsigned i = 0;
    while (i + 1 < FIELDS && fields[i + 1].in_library <= byte) {
        i++;
    }
    return &fields[i];
}
