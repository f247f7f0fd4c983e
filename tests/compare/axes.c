/* Both axes at once. */
#include "axes.h"

#include "happenings.h"
#include "requests.h"
#include "steps.h"

bool showing_sensor(void)
{
    return fresh_sensor() && serve(0, 0x2F, 0x1800, 2, 1);
}

bool write_both(uint32_t index, uint8_t first, int32_t of_x, int32_t of_y)
{
    return serve(0, first, index, 0, (uint16_t)of_x) && serve(1, first, index + 0x10, 0, (uint16_t)of_y);
}

bool read_both(uint32_t index)
{
    return serve(1, READS, index, 0, 0) && serve(0, READS, index + 0x10, 0, 0);
}

bool take_reading(int32_t m)
{
    return make_event(reading_of(BASINTILT_READING_X, m)) && make_event(reading_of(BASINTILT_READING_Y, -m));
}

bool show_reading(int32_t m)
{
    return take_reading(m) && make_event(sync_frame());
}
