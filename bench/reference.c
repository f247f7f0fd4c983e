/* The sensor written by hand, called for the count. */
#include "../reference/sensor.h"
#include "cases.h"

static struct reference_record record;
static struct reference_answer answer;
static uint8_t judged;
static struct reference_origin origin;

static const struct reference_identity nobody = { 0, 0, 0, 0 };

static struct reference_event event_of(const struct bench_step *step) {
    struct reference_event event = { .kind = REFERENCE_FRAME };
    if (step->kind == BENCH_TICK) {
        event.kind = REFERENCE_TICK;
        event.data.tick = (uint16_t)step->number;
    } else if (step->kind == BENCH_READING_X) {
        event.kind = REFERENCE_READING;
        event.data.reading.axis = REFERENCE_X;
        event.data.reading.thousandths = step->number;
    } else {
        event.data.frame.identifier = step->identifier;
        event.data.frame.remote = 0;
        event.data.frame.length = step->length;
        for (unsigned i = 0; i < 8; i++) event.data.frame.bytes[i] = step->bytes[i];
    }
    return event;
}

static void power_on(uint8_t *journal) {
    reference_power_on(&record, BENCH_NODE, nobody, journal, BENCH_JOURNAL, &answer);
}

static void step(uint8_t *journal, const struct bench_step *step) {
    struct reference_event event = event_of(step);
    reference_event(&record, journal, BENCH_JOURNAL, &event, &answer);
}

static void counted(uint8_t *journal, const struct bench_step *step) {
    struct reference_event event = event_of(step);
    if (step->kind == BENCH_POWER_ON) {
        bench_begin();
        reference_power_on(&record, BENCH_NODE, nobody, journal, BENCH_JOURNAL, &answer);
        bench_end();
    } else if (step->kind == BENCH_BLOCK) {
        bench_begin();
        judged = reference_block(journal, 512, 1);
        bench_end();
    } else if (step->kind == BENCH_ORIGIN) {
        bench_begin();
        reference_origin(journal, BENCH_JOURNAL, (uint16_t)step->identifier, step->length, &origin);
        bench_end();
    } else {
        bench_begin();
        reference_event(&record, journal, BENCH_JOURNAL, &event, &answer);
        bench_end();
    }
}

const struct bench_sensor bench_reference = { "reference", power_on, step, counted };
