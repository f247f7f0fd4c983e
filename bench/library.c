/* The library, called for the count. */
#include "basintilt.h"
#include "cases.h"

static struct basintilt_device device;
static struct basintilt_stepped started;
static struct basintilt_answer answer;
static uint32_t judged;
static struct basintilt_finding finding;

static const struct basintilt_identity nobody = { 0, 0, 0, 0 };

static struct basintilt_happening happening_of(const struct bench_step *step) {
    struct basintilt_happening happening = { BASINTILT_FRAME, step->length, 0, step->identifier, 0, { 0 } };
    for (unsigned i = 0; i < 8; i++) happening.bytes[i] = step->bytes[i];
    if (step->kind == BENCH_TICK) {
        happening.kind = BASINTILT_TICK;
        happening.ms = (uint16_t)step->number;
    }
    if (step->kind == BENCH_READING_X) {
        happening.kind = BASINTILT_READING_X;
        happening.m = step->number;
    }
    return happening;
}

static void power_on(uint8_t *journal) {
    started = basintilt_power_on(BENCH_NODE, nobody, journal, BENCH_JOURNAL);
    device = started.device;
}

static void step(uint8_t *journal, const struct bench_step *step) {
    answer = basintilt_event(&device, journal, BENCH_JOURNAL, happening_of(step));
}

static void counted(uint8_t *journal, const struct bench_step *step) {
    struct basintilt_happening happening = happening_of(step);
    if (step->kind == BENCH_POWER_ON) {
        bench_begin();
        started = basintilt_power_on(BENCH_NODE, nobody, journal, BENCH_JOURNAL);
        bench_end();
    } else if (step->kind == BENCH_BLOCK) {
        bench_begin();
        judged = basintilt_block(journal, 512, 1);
        bench_end();
    } else if (step->kind == BENCH_ORIGIN) {
        bench_begin();
        finding = basintilt_origin(journal, BENCH_JOURNAL, (uint16_t)step->identifier, step->length);
        bench_end();
    } else {
        bench_begin();
        answer = basintilt_event(&device, journal, BENCH_JOURNAL, happening);
        bench_end();
    }
}

const struct bench_sensor bench_library = { "library", power_on, step, counted };
