// The library tells of each thread why it is running or is not: systems made by field names are handed to it.
#include "check.h"
#include "systems.h"
#include "themes.h"

static void expect_reason(gjalvorn_reason_found seen, uint8_t reason, uint8_t which)
{
    expect_reason_found(seen, (gjalvorn_reason_found){.reason = reason, .which = which});
}

// No thread of the known system is running. On a core that does not owe, its last thread is the first that is ready.
static void expect_known(const gjalvorn_system *known, uint8_t thread)
{
    uint8_t core = full_core(thread);
    uint8_t last = (uint8_t)(core * THREADS_PER_CORE + THREADS_PER_CORE - 1);
    gjalvorn_reason_found seen = gjalvorn_why(*known, thread);
    if (known->state[thread] == GJALVORN_FINISHED)
        expect_reason(seen, GJALVORN_WHY_FINISHED, GJALVORN_NONE);
    else if (known->state[thread] == GJALVORN_WAITING)
        expect_reason(seen, GJALVORN_WHY_WAITING, GJALVORN_NONE);
    else if ((known->lock.owing & only(core)) != 0)
        expect_reason(seen, GJALVORN_WHY_CORE_OWES, GJALVORN_NONE);
    else if (thread != last)
        expect_reason(seen, GJALVORN_WHY_THREAD_AHEAD, last);
    else
        expect_reason(seen, GJALVORN_WHY_GANG_HOLDS, known->lock.holder);
}

static void expect_running_locked(uint8_t thread)
{
    gjalvorn_system system = full_held_by(thread);
    system.state[thread] = GJALVORN_READY;
    expect_reason(gjalvorn_why(system, thread), GJALVORN_WHY_RUNNING_LOCKED, GJALVORN_NONE);
}

// A thread of another gang, on the next core, has the lock.
static void expect_running_displaced(uint8_t thread)
{
    gjalvorn_system system = full_held_by((uint8_t)((thread + THREADS_PER_CORE) % GJALVORN_MAX_THREADS));
    system.state[thread] = GJALVORN_READY;
    system.lock.occupant[full_core(thread)] = thread;
    system.lock.owing = only(full_core(thread));
    expect_reason(gjalvorn_why(system, thread), GJALVORN_WHY_RUNNING_DISPLACED, GJALVORN_NONE);
}

// No events lead to a ready thread on a core that does not owe, with nothing ahead of it.
static void expect_none(uint8_t thread)
{
    gjalvorn_system system = full_named();
    system.state[thread] = GJALVORN_READY;
    expect_reason(gjalvorn_why(system, thread), GJALVORN_WHY_NONE, GJALVORN_NONE);
}

void reasons(void)
{
    gjalvorn_system known = known_named();
    for (uint8_t thread = 0; thread < GJALVORN_MAX_THREADS; thread++) {
        expect_known(&known, thread);
        expect_running_locked(thread);
        expect_running_displaced(thread);
        expect_none(thread);
    }
    expect_reason_found(gjalvorn_why(known, GJALVORN_MAX_THREADS), (gjalvorn_reason_found){.refusal = GJALVORN_OUT_OF_RANGE});
}
