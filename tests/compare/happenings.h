/* Events: service and LSS requests, network commands, SYNC, ticks, readings and frames that no rule names. */
#ifndef COMPARE_HAPPENINGS_H
#define COMPARE_HAPPENINGS_H

#include "basintilt.h"
#include "chance.h"

/* What a history has most of. */
enum leaning { EVEN, SERVICE, TIME, READING, NAMING, LEANINGS };

struct basintilt_happening any_happening(struct chance *chance, const struct basintilt_device *device, enum leaning leaning);

struct basintilt_happening network_command(uint32_t command, uint32_t node);
struct basintilt_happening sync_frame(void);
struct basintilt_happening tick_of(uint32_t ms);
struct basintilt_happening reading_of(unsigned kind, int32_t m);

#endif
