// Systems that are not well formed: every call comes back with 14, and with the system as it came.
#include "check.h"
#include "records.h"
#include "themes.h"

#include <string.h>

static void expect_refused(gjalvorn_answered seen, const gjalvorn_system *handed_in)
{
    gjalvorn_answer wanted = refused_answer(handed_in, GJALVORN_NOT_WELL_FORMED);
    expect_answer(&seen.answer, &wanted);
    expect_system(&seen.system, handed_in);
}

static void expect_events_refused(gjalvorn_system system)
{
    expect_refused(gjalvorn_release(system, 0), &system);
    expect_refused(gjalvorn_finish(system, 0), &system);
    expect_refused(gjalvorn_wait(system, 0), &system);
    expect_refused(gjalvorn_wake(system, 0), &system);
    expect_refused(gjalvorn_serve(system, 0), &system);
    expect_refused(gjalvorn_traffic(system, 0, 0), &system);
    expect_refused(gjalvorn_tick(system), &system);
    expect_refused(gjalvorn_apply(system, (gjalvorn_event){.kind = GJALVORN_TICK}), &system);
}

static void expect_refused_in_place(gjalvorn_system system)
{
    gjalvorn_answered seen = {.system = system};
    seen.answer = gjalvorn_apply_to(&seen.system, (gjalvorn_event){.kind = GJALVORN_TICK});
    expect_refused(seen, &system);
}

static void expect_unfound(const char *what, gjalvorn_found found)
{
    expect(what, found.refusal, GJALVORN_NOT_WELL_FORMED);
    expect("value of a refused question", found.value, 0);
}

static void expect_questions_refused(gjalvorn_system system)
{
    expect_unfound("occupant", gjalvorn_occupant(system, 0));
    expect_unfound("stopped", gjalvorn_stopped(system, 0));
    expect_unfound("release number", gjalvorn_release_number(system, 0));
    expect_unfound("served", gjalvorn_served(system, 0));
    expect_unfound("skipped", gjalvorn_skipped(system, 0));
    expect_unfound("job number", gjalvorn_job_number(system, 0));
    expect_unfound("lowest owing", gjalvorn_lowest_owing(system));
    expect_unfound("owing count", gjalvorn_owing_count(system));
    expect_reason_found(gjalvorn_why(system, 0), (gjalvorn_reason_found){.refusal = GJALVORN_NOT_WELL_FORMED});
}

static void expect_batch_refused(gjalvorn_system system)
{
    records events = {.length = 0};
    put_tick(&events);
    uint8_t out[GJALVORN_ANSWER_SIZE] = {0}, untouched[GJALVORN_ANSWER_SIZE] = {0};
    gjalvorn_batched batched = gjalvorn_batch(system, events.bytes, events.length, out, sizeof out);
    expect("batched.read", batched.read, 0);
    expect("batched.written", batched.written, 0);
    expect("batched.number", batched.number, GJALVORN_NOT_WELL_FORMED);
    expect_u8s("out", out, untouched, sizeof out);
    expect_system(&batched.system, &system);
}

void any_bit_pattern(void)
{
    const uint8_t patterns[] = {0x00, 0x01, 0x55, 0xff};
    for (size_t i = 0; i < sizeof patterns; i++) {
        gjalvorn_system system;
        memset(&system, patterns[i], sizeof system);
        expect("well formed", gjalvorn_well_formed(system), false);
        expect_events_refused(system);
        expect_refused_in_place(system);
        expect_questions_refused(system);
        expect_batch_refused(system);
    }
}
