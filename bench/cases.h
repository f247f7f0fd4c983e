/* The cases that both sensors are counted on: a state, and one call on it. */
#ifndef BENCH_CASES_H
#define BENCH_CASES_H

#include <stddef.h>
#include <stdint.h>

enum { BENCH_BLOCKS = 128, BENCH_JOURNAL = 512 * BENCH_BLOCKS, BENCH_NODE = 1 };

enum bench_kind { BENCH_FRAME, BENCH_TICK, BENCH_READING_X, BENCH_POWER_ON, BENCH_BLOCK, BENCH_ORIGIN };

/* A step: a frame (identifier, length, bytes), a tick (number) or a reading of X (number); power-on and the queries go by the journal, and the
 * origin query by an index (identifier) and a subindex (length) besides. */
struct bench_step {
    enum bench_kind kind;
    uint32_t identifier;
    uint8_t length;
    uint8_t bytes[8];
    int32_t number;
};

/* What comes before the call that is counted, from power-on over a journal with so many filled blocks. */
struct bench_case {
    const char *name;
    unsigned filled;
    unsigned steps;
    struct bench_step before[4];
    struct bench_step counted;
};

extern const struct bench_case bench_cases[];
extern const unsigned bench_case_count;

/* One sensor: power-on over the journal, one step, and the step that is counted between two marks. */
struct bench_sensor {
    const char *name;
    void (*power_on)(uint8_t *journal);
    void (*step)(uint8_t *journal, const struct bench_step *step);
    void (*counted)(uint8_t *journal, const struct bench_step *step);
};

extern const struct bench_sensor bench_library;
extern const struct bench_sensor bench_reference;

/* The marks: an instruction is counted if it runs between them. */
void bench_begin(void);
void bench_end(void);

#endif
