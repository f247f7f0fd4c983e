/* Settings and stored node numbers in range, their ends more often than their middle. */
#ifndef COMPARE_SETTINGS_H
#define COMPARE_SETTINGS_H

#include "basintilt.h"
#include "chance.h"

enum { RESOLUTIONS = 4 };
extern const int32_t resolutions[RESOLUTIONS];

uint16_t any_heartbeat(struct chance *chance);
uint8_t any_transmission(struct chance *chance);
uint16_t any_timer(struct chance *chance);
uint16_t any_resolution(struct chance *chance);
int16_t any_angle(struct chance *chance);
struct basintilt_settings any_settings(struct chance *chance);

/* 0 where none is stored or set. */
uint8_t any_stored_node(struct chance *chance);

#endif
