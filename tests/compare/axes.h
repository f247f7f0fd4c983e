/* Both axes at once; each is false where the two sensors differ. */
#ifndef COMPARE_AXES_H
#define COMPARE_AXES_H

#include <stdbool.h>
#include <stdint.h>

/* A fresh sensor that shows both axes at each SYNC. */
bool showing_sensor(void);

/* A number to X's object and one to Y's, and a read of both. */
bool write_both(uint32_t index, uint8_t first, int32_t of_x, int32_t of_y);
bool read_both(uint32_t index);

/* The axes get opposite readings, and are shown or not. */
bool take_reading(int32_t m);
bool show_reading(int32_t m);

#endif
