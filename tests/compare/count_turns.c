/* Counts what was reached of turning: how far a sum was moved, where in the range it stood, and what must not move. */
#include "counts.h"

/* How far a reading at one end with both offsets there is moved. */
const int32_t most_turns[RESOLUTIONS] = {1, 2, 19, 183};

/* The turns to be taken away; below 0 they are added. */
static int32_t turns_of(int32_t sum, int32_t half)
{
    int32_t above = sum + half - 1;
    return (above < 0 ? above - 2 * half + 1 : above) / (2 * half);
}

static void count_moved(int32_t sum, unsigned resolution, unsigned shown)
{
    int32_t half = BASINTILT_FARTHEST / resolutions[resolution];
    int32_t turns = turns_of(sum, half);
    int32_t landed = sum - turns * 2 * half;
    int32_t size = turns < 0 ? -turns : turns;
    unsigned moved = size == 0 ? NOT_MOVED : size == most_turns[resolution] ? MOST_TURNS : size == 1 ? ONE_TURN : SOME_TURNS;
    unsigned landing = landed == half ? ON_HIGHEST : landed == half - 1 ? ON_NEXT_TO_HIGHEST : landed == 1 - half ? ON_LOWEST : BETWEEN_THEM;
    counts.turns[((shown * SIGNS + (turns < 0)) * MOVED_KINDS + moved) * LANDINGS + landing]++;
}

/* The range's upper end is in it, its lower end is not. */
static void count_end(int32_t sum, int32_t half, unsigned shown)
{
    const int32_t ends[TURN_ENDS] = {-half, -half + 1, half, half + 1};
    for (unsigned end = 0; end < TURN_ENDS; end++) {
        counts.turn_ends[shown * TURN_ENDS + end] += sum == ends[end];
    }
}

static void count_offsets(const struct basintilt_axis_settings *settings, unsigned shown)
{
    bool at_ends = (settings->offset == INT16_MIN || settings->offset == INT16_MAX)
                   && (settings->differential == INT16_MIN || settings->differential == INT16_MAX);
    counts.offset_ends[shown * 4 + 2 * (settings->offset < 0) + (settings->differential < 0)] += at_ends;
}

void count_turn(const struct basintilt_axis_settings *settings, int32_t q, unsigned resolution, unsigned shown)
{
    int32_t half = BASINTILT_FARTHEST / resolutions[resolution];
    int32_t sum = q + settings->offset + settings->differential;
    unsigned reversed = settings->operating % 2;
    if (settings->operating < 2) {
        counts.unturned[SIGNS * shown + reversed] += q == -half; /* there alone a turn would show */
        return;
    }
    count_moved(sum, resolution, shown);
    count_end(sum, half, SIGNS * shown + reversed);
    count_offsets(settings, shown);
    counts.turned_and_clamped[SIGNS * shown + (sum < 0)] += turns_of(sum, half) != 0 && resolution == 0;
}

/* A preset or an offset past half a turn that was accepted, and an offset that was refused and would fit turned. */
void count_turned_preset(int32_t preset, int32_t offset, unsigned resolution, unsigned axis)
{
    int32_t half = BASINTILT_FARTHEST / resolutions[resolution];
    int32_t turned = offset - turns_of(offset, half) * 2 * half;
    unsigned at = (axis * RESOLUTIONS + resolution) * PRESET_KINDS;
    counts.turned_presets[at + PRESET_PAST_TURN] += fits(offset) && turns_of(preset, half) != 0;
    counts.turned_presets[at + OFFSET_PAST_TURN] += fits(offset) && turned != offset;
    counts.turned_presets[at + OFFSET_TOO_LONG] += !fits(offset) && fits(turned);
}
