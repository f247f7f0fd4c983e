/* Built cases of the angle: readings at and beside halves, in the PDO, in reads, in presets and in sums; and every step's first reading. */
#include "built_angles.h"

#include "axes.h"
#include "happenings.h"
#include "settings.h"
#include "steps.h"

enum { HALVES = 4 };

/* Presets on both sides of zero and at the ends of 16 bits, and the differentials beside them. */
static const int16_t presets[][2] = {{0, 0}, {3, 2}, {-3, -2}, {INT16_MAX, 0}, {INT16_MIN, 0}};

/* Both are shown, read and taken as zeros, and the offsets stay for the reading that follows. */
static bool use_reading(int32_t m, int32_t preset)
{
    return show_reading(m) && read_both(0x6010) && write_both(0x6012, 0x2B, preset, preset) && read_both(0x6013) && make_event(sync_frame());
}

/* Halves on both sides of zero, the next thousandths beside them, and the ends of the readings. */
static bool every_half(int32_t resolution, int32_t preset)
{
    bool same = true;
    for (int32_t half = -HALVES; half <= HALVES && same; half++) {
        int32_t m = half * resolution + resolution / 2;
        same = use_reading(m - 1, preset) && use_reading(m, preset) && use_reading(m + 1, preset);
    }
    for (int32_t beside = -1; beside <= 1 && same; beside++) {
        int32_t last_half = BASINTILT_FARTHEST - resolution / 2 + beside;
        same = use_reading(last_half, preset) && use_reading(-last_half, preset) && use_reading(BASINTILT_FARTHEST, preset)
               && use_reading(-BASINTILT_FARTHEST, preset);
    }
    return same;
}

/* The first reading of every step and the last before it; of short steps one in so many. */
static bool every_step(int32_t resolution, int32_t one_in)
{
    bool same = showing_sensor() && serve(0, 0x2B, 0x6000, 0, (uint32_t)resolution);
    int32_t next = resolution < 1000 ? one_in : 1;
    for (int32_t first = resolution / 2; first <= BASINTILT_FARTHEST && same; first += next * resolution) {
        same = show_reading(first) && show_reading(first - 1);
    }
    return same;
}

/* Every resolution, both bits of 6011 and 6021, and every pair of preset and differential; then every step. */
bool built_angle_cases(uint32_t stride)
{
    const uint32_t rows = sizeof presets / sizeof presets[0];
    bool same = showing_sensor();
    for (uint32_t i = 0; i < 4 * RESOLUTIONS * rows && same; i++) {
        const int16_t *row = presets[i / 4 / RESOLUTIONS];
        int32_t resolution = resolutions[i / 4 % RESOLUTIONS];
        int32_t operating = (int32_t)(i % 4);
        same = serve(0, 0x2B, 0x6000, 0, (uint32_t)resolution) && write_both(0x6011, 0x2F, operating, operating)
               && write_both(0x6014, 0x2B, row[1], row[1]) && every_half(resolution, row[0]);
    }
    for (uint32_t i = 1; i < RESOLUTIONS && same; i++) {
        same = every_step(resolutions[i], (int32_t)stride);
    }
    return same;
}
