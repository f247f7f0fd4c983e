/* Built cases of turning: sums at both ends of the range and whole turns away, offsets at the ends of 16 bits, and presets past half a turn. */
#include "built_turns.h"

#include "axes.h"
#include "settings.h"
#include "steps.h"

enum { OPERATINGS = BASINTILT_MOST_OPERATING + 1 };

static int32_t brought_into(int32_t low, int32_t high, int32_t number)
{
    return number < low ? low : number > high ? high : number;
}

/* Y gets the opposite reading and the other sign: both axes have one sum. */
static bool turn_sensor(int32_t resolution, int32_t operating)
{
    return showing_sensor() && serve(0, 0x2B, 0x6000, 0, (uint32_t)resolution)
           && write_both(0x6011, 0x2F, operating, operating ^ 1);
}

/* A preset at level and without a differential is the offset. */
static bool set_offsets(int32_t offset, int32_t differential)
{
    return take_reading(0) && write_both(0x6014, 0x2B, 0, 0) && write_both(0x6012, 0x2B, offset, offset)
           && write_both(0x6014, 0x2B, differential, differential);
}

static bool show_axes(int32_t m)
{
    return show_reading(m) && read_both(0x6010);
}

/* A sum from as much of a reading as there is, then of the offset, then of the differential. */
static bool show_sum(int32_t resolution, int32_t operating, int32_t sum)
{
    int32_t half = BASINTILT_FARTHEST / resolution;
    int32_t q = brought_into(-half, half, sum);
    int32_t offset = brought_into(INT16_MIN, INT16_MAX, sum - q);
    return set_offsets(offset, sum - q - offset) && show_axes(resolution * (operating % 2 == 1 ? -q : q));
}

/* The end of the range and the two numbers beside it, moved by every number of turns that a sum can reach. */
static bool every_turn(int32_t resolution, int32_t operating)
{
    int32_t half = BASINTILT_FARTHEST / resolution;
    int32_t most = half + 2 * INT16_MAX;
    bool same = turn_sensor(resolution, operating);
    for (int32_t turn = -most / half / 2 - 1; turn <= most / half / 2 && same; turn++) {
        for (int32_t beside = -1; beside <= 1 && same; beside++) {
            int32_t sum = half + 2 * half * turn + beside;
            same = sum < -most || sum > most || show_sum(resolution, operating, sum);
        }
    }
    return same;
}

/* Offset and differential at the ends of 16 bits, or 0, and readings at both ends, at the last halves and at level. */
static bool every_offset(int32_t resolution, int32_t operating)
{
    static const int32_t offsets[] = {INT16_MIN, INT16_MIN + 1, 0, INT16_MAX};
    static const int32_t readings[] = {-BASINTILT_FARTHEST, -1, 0, 1, BASINTILT_FARTHEST};
    bool same = turn_sensor(resolution, operating);
    for (unsigned i = 0; i < 4 * 4 && same; i++) {
        same = set_offsets(offsets[i / 4], offsets[i % 4]);
        for (unsigned k = 0; k < 5 && same; k++) {
            int32_t inward = readings[k] < 0 ? 1 : -1;
            same = show_axes(readings[k]) && show_axes(readings[k] + inward * (resolution / 2))
                   && show_axes(readings[k] + inward * (resolution / 2 + 1));
        }
    }
    return same;
}

/* Presets at and past half a turn on a level axis and on one that lies on its back: offset and preset are not turned. */
static bool every_preset(int32_t resolution, int32_t operating)
{
    int32_t half = brought_into(0, INT16_MAX - 1, BASINTILT_FARTHEST / resolution);
    const int32_t presets[] = {-half - 1, -half, half, half + 1, INT16_MIN, INT16_MAX, 0};
    bool same = turn_sensor(resolution, operating) && set_offsets(0, 1);
    for (unsigned i = 0; i < 3 * 7 && same; i++) {
        int32_t m = BASINTILT_FARTHEST * ((int32_t)(i / 7) - 1);
        same = show_axes(m) && write_both(0x6012, 0x2B, presets[i % 7], presets[i % 7]) && show_axes(m) && show_axes(-m);
    }
    return same;
}

bool built_turn_cases(void)
{
    bool same = true;
    for (int32_t i = 0; i < OPERATINGS * RESOLUTIONS && same; i++) {
        int32_t resolution = resolutions[i / OPERATINGS];
        int32_t operating = i % OPERATINGS;
        same = every_turn(resolution, operating) && every_offset(resolution, operating) && every_preset(resolution, operating);
    }
    return same;
}
