/* Runs one case on one sensor: `cases` lists their names, `SENSOR NUMBER` runs one. */
#include <stdio.h>
#include <stdlib.h>
#include <string.h>

#include "cases.h"

static uint8_t journal[BENCH_JOURNAL];

__attribute__((noinline)) void bench_begin(void) { __asm__ volatile(""); }

__attribute__((noinline)) void bench_end(void) { __asm__ volatile(""); }

/* Saves make the filled blocks; then power-on finds them. */
static void fill(const struct bench_sensor *sensor, unsigned blocks) {
    const struct bench_step save = { BENCH_FRAME, 0x600 + BENCH_NODE, 8, { 0x23, 0x10, 0x10, 1, 0x73, 0x61, 0x76, 0x65 }, 0 };
    memset(journal, 0xFF, sizeof journal);
    sensor->power_on(journal);
    for (unsigned i = 0; i < blocks; i++) sensor->step(journal, &save);
    sensor->power_on(journal);
}

int main(int count, char **words) {
    if (count != 3) {
        for (unsigned i = 0; i < bench_case_count; i++) puts(bench_cases[i].name);
        return 0;
    }
    const struct bench_sensor *sensor = strcmp(words[1], bench_library.name) == 0 ? &bench_library : &bench_reference;
    const struct bench_case *one = &bench_cases[atoi(words[2])];
    fill(sensor, one->filled);
    for (unsigned i = 0; i < one->steps; i++) sensor->step(journal, &one->before[i]);
    sensor->counted(journal, &one->counted);
    return 0;
}
