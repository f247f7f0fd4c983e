/* Settings and stored node numbers in range, their ends more often than their middle. */
#include "settings.h"

const int32_t resolutions[RESOLUTIONS] = {1, 10, 100, 1000};

uint16_t any_heartbeat(struct chance *chance)
{
    return (uint16_t)PICK(chance, 0, 0, 25, 26, 100, 65535, between(chance, 25, 200), between(chance, 25, 65535));
}

uint8_t any_transmission(struct chance *chance)
{
    return (uint8_t)PICK(chance, 254, 254, 255, 255, 1, 2, 3, 239, 240, between(chance, 1, 240));
}

uint16_t any_timer(struct chance *chance)
{
    return (uint16_t)PICK(chance, 0, 1, 2, 100, 65535, below(chance, 200), below(chance, 65536));
}

uint16_t any_resolution(struct chance *chance)
{
    return (uint16_t)resolutions[below(chance, RESOLUTIONS)];
}

int16_t any_angle(struct chance *chance)
{
    return (int16_t)PICK(chance, 0, 1, 0xFFFF, 0x7FFF, 0x8000, 0x8001, below(chance, 2000), 0u - below(chance, 2000), any32(chance));
}

static struct basintilt_axis_settings any_axis_settings(struct chance *chance)
{
    struct basintilt_axis_settings axis;
    axis.operating = (uint16_t)below(chance, BASINTILT_MOST_OPERATING + 1);
    axis.preset = any_angle(chance);
    axis.offset = any_angle(chance);
    axis.differential = any_angle(chance);
    return axis;
}

struct basintilt_settings any_settings(struct chance *chance)
{
    struct basintilt_settings settings;
    settings.heartbeat = any_heartbeat(chance);
    settings.pdo.on = !one_in(chance, 5);
    settings.pdo.transmission = any_transmission(chance);
    settings.pdo.timer = any_timer(chance);
    settings.resolution = any_resolution(chance);
    settings.x = any_axis_settings(chance);
    settings.y = any_axis_settings(chance);
    return settings;
}

uint8_t any_stored_node(struct chance *chance)
{
    return (uint8_t)PICK(chance, 0, 0, 1, BASINTILT_MOST_NODE, between(chance, 1, BASINTILT_MOST_NODE));
}
