// What an event on lent parts takes by value beside them: small structs, which C hands over in registers or on the stack.
#include "check.h"
#include "systems.h"
#include "themes.h"

#include <string.h>

// An event on the parts of a system, beside these values. The lock's come by a pointer, so that their padding is what is there.
static gjalvorn_outcome lend(gjalvorn_system *system, gjalvorn_sizes sizes, const gjalvorn_held *held, gjalvorn_event event)
{
    gjalvorn_table *table = &system->table;
    gjalvorn_ledger *ledger = &system->ledger;
    return gjalvorn_apply_lent(sizes, table->priority, table->budget, table->gang, table->core, system->state, ledger->number,
                               ledger->served, ledger->skipped, ledger->job, *held, system->lock.occupant, system->kept, event);
}

static void fill_held(gjalvorn_held *held, const gjalvorn_lock *lock, uint8_t padding)
{
    memset(held, padding, sizeof *held);
    held->holder = lock->holder;
    held->locked = lock->locked;
    held->blocked = lock->blocked;
    held->owing = lock->owing;
}

static uint8_t refusal_of(uint16_t kind, uint8_t number)
{
    gjalvorn_system system = uneven_named();
    gjalvorn_sizes sizes = {.cores = UNEVEN_CORES, .gangs = UNEVEN_GANGS, .threads = UNEVEN_THREADS};
    gjalvorn_event event = {.kind = kind, .number = number};
    gjalvorn_held held;
    fill_held(&held, &system.lock, 0);
    return lend(&system, sizes, &held, event).answer.refusal;
}

// The last core, gang and thread are there, and the next of each is not.
void sizes_taken(void)
{
    expect("last core", refusal_of(GJALVORN_SERVE, UNEVEN_CORES - 1), GJALVORN_ACCEPTED);
    expect("core past sizes.cores", refusal_of(GJALVORN_SERVE, UNEVEN_CORES), GJALVORN_OUT_OF_RANGE);
    expect("last gang", refusal_of(GJALVORN_RELEASE, UNEVEN_GANGS - 1), GJALVORN_ACCEPTED);
    expect("gang past sizes.gangs", refusal_of(GJALVORN_RELEASE, UNEVEN_GANGS), GJALVORN_OUT_OF_RANGE);
    expect("last thread", refusal_of(GJALVORN_WAKE, UNEVEN_THREADS - 1), GJALVORN_NOT_WAITING);
    expect("thread past sizes.threads", refusal_of(GJALVORN_WAKE, UNEVEN_THREADS), GJALVORN_OUT_OF_RANGE);
}

// TICK leaves the lock, so that the values come back as they were handed over, whatever the padding holds.
static void expect_held(uint8_t padding)
{
    gjalvorn_system known = known_named();
    gjalvorn_lock lock = known.lock;
    gjalvorn_event tick = {.kind = GJALVORN_TICK};
    gjalvorn_held held;
    fill_held(&held, &lock, padding);
    gjalvorn_outcome outcome = lend(&known, known.table.sizes, &held, tick);
    expect("refusal", outcome.answer.refusal, GJALVORN_ACCEPTED);
    expect("held.holder", outcome.holder, lock.holder);
    expect("held.locked", outcome.answer.locked, lock.locked);
    expect("held.blocked", outcome.blocked, lock.blocked);
    expect("held.owing", outcome.answer.owing, lock.owing);
}

void held_taken(void)
{
    expect_held(0x00);
    expect_held(0xff);
}
