// The library looks where the header says: systems made by field names are handed to its calls.
#include "check.h"
#include "systems.h"
#include "themes.h"

#include <string.h>

static void expect_found(const char *what, gjalvorn_found found, uint32_t wanted)
{
    expect("found.refusal", found.refusal, GJALVORN_ACCEPTED);
    expect(what, found.value, wanted);
}

// The last core, gang and thread are there, and the next of each is not.
void table_sizes_looked_at(void)
{
    gjalvorn_system system = uneven_named();
    expect("last core", gjalvorn_occupant(system, UNEVEN_CORES - 1).refusal, GJALVORN_ACCEPTED);
    expect("core past table.sizes.cores", gjalvorn_occupant(system, UNEVEN_CORES).refusal, GJALVORN_OUT_OF_RANGE);
    expect("last gang", gjalvorn_served(system, UNEVEN_GANGS - 1).refusal, GJALVORN_ACCEPTED);
    expect("gang past table.sizes.gangs", gjalvorn_served(system, UNEVEN_GANGS).refusal, GJALVORN_OUT_OF_RANGE);
    expect("last thread", gjalvorn_wake(system, UNEVEN_THREADS - 1).answer.refusal, GJALVORN_NOT_WAITING);
    expect("thread past table.sizes.threads", gjalvorn_wake(system, UNEVEN_THREADS).answer.refusal, GJALVORN_OUT_OF_RANGE);
}

// Where one thread alone is ready, it becomes its core's occupant and its gang the holder; on every other core nothing does.
void threads_looked_at(void)
{
    for (uint8_t thread = 0; thread < GJALVORN_MAX_THREADS; thread++) {
        gjalvorn_system system = full_named();
        system.state[thread] = GJALVORN_READY;
        for (uint8_t core = 0; core < GJALVORN_MAX_CORES; core++) {
            gjalvorn_answered served = gjalvorn_serve(system, core);
            bool own = core == full_core(thread);
            expect("occupant by state and table.core", served.answer.value, own ? thread : GJALVORN_NONE);
            expect("holder by table.gang", served.system.lock.holder, own ? full_gang(thread) : GJALVORN_NONE);
        }
    }
}

// Where every thread is ready, the one whose gang is given the top priority becomes occupant.
void priorities_looked_at(void)
{
    for (uint8_t thread = 0; thread < GJALVORN_MAX_THREADS; thread++) {
        gjalvorn_system system = full_named();
        memset(system.state, GJALVORN_READY, sizeof system.state);
        system.table.priority[full_gang(thread)] = GJALVORN_TOP_PRIORITY;
        gjalvorn_answer answer = gjalvorn_serve(system, full_core(thread)).answer;
        expect("occupant by table.priority", answer.value, thread);
    }
}

// Numbers of four bytes.
void ledger_looked_at(void)
{
    enum { SERVED = 0x01020304, SKIPPED = 0x10203040, JOB = 0x05060708 };
    gjalvorn_system system = full_named();
    for (uint8_t gang = 0; gang < GJALVORN_MAX_GANGS; gang++) {
        system.ledger.served[gang] = SERVED + gang;
        system.ledger.skipped[gang] = SKIPPED + gang;
        system.ledger.number[gang] = SERVED + SKIPPED + 2u * gang;
        system.ledger.job[gang] = JOB + gang;
    }
    for (uint8_t gang = 0; gang < GJALVORN_MAX_GANGS; gang++) {
        expect_found("ledger.served", gjalvorn_served(system, gang), SERVED + gang);
        expect_found("ledger.skipped", gjalvorn_skipped(system, gang), SKIPPED + gang);
        expect_found("ledger.number", gjalvorn_release_number(system, gang), SERVED + SKIPPED + 2u * gang);
        expect_found("ledger.job", gjalvorn_job_number(system, gang), JOB + gang);
    }
}

// An answer tells the owing and locked cores. The blocked ones owe when the last locked core is served and has no ready thread.
void core_sets_looked_at(void)
{
    for (uint8_t core = 0; core < GJALVORN_MAX_CORES; core++) {
        uint8_t other = (uint8_t)((core + 1) % GJALVORN_MAX_CORES);
        gjalvorn_system system = full_held_by((uint8_t)(other * THREADS_PER_CORE));
        system.lock.owing = only(core);
        gjalvorn_answer answer = gjalvorn_tick(system).answer;
        expect("lock.owing in an answer", answer.owing, only(core));
        expect("lock.locked in an answer", answer.locked, only(other));
        expect_found("lowest of lock.owing", gjalvorn_lowest_owing(system), core);
        system.lock.owing = ~only(core);
        expect_found("count of lock.owing", gjalvorn_owing_count(system), GJALVORN_MAX_CORES - 1);
        system.lock.owing = 0;
        system.lock.blocked = only(core);
        expect("lock.blocked owe when freed", gjalvorn_serve(system, other).answer.owing, only(core));
    }
}

void occupants_looked_at(void)
{
    gjalvorn_system system = known_named();
    for (uint8_t core = 0; core < GJALVORN_MAX_CORES; core++)
        expect_found("lock.occupant", gjalvorn_occupant(system, core), system.lock.occupant[core]);
}

// A count below the holder's budget does not stop a core, and one that is equal does.
static void expect_stop_at_budget(uint8_t thread, uint8_t core)
{
    gjalvorn_system system = full_held_by(thread);
    uint32_t budget = full_budget(full_gang(thread));
    system.kept[core] = budget - 1;
    expect_found("kept below the budget of lock.holder", gjalvorn_stopped(system, core), 0);
    system.kept[core] = budget;
    expect_found("kept at the budget of lock.holder", gjalvorn_stopped(system, core), 1);
}

// Each gang holds the lock in turn, by the thread of its number, and each other core may be stopped.
void stops_looked_at(void)
{
    for (uint8_t thread = 0; thread < GJALVORN_MAX_GANGS; thread++)
        for (uint8_t core = 0; core < GJALVORN_MAX_CORES; core++)
            if (core != full_core(thread))
                expect_stop_at_budget(thread, core);
}

// Marks the bytes of a field of the system.
#define MARK(marks, field) \
    memset((marks) + offsetof(gjalvorn_system, field), 1, sizeof(((gjalvorn_system *)NULL)->field))

static void mark_fields(uint8_t *marks)
{
    MARK(marks, table.sizes.cores);
    MARK(marks, table.sizes.gangs);
    MARK(marks, table.sizes.threads);
    MARK(marks, table.priority);
    MARK(marks, table.budget);
    MARK(marks, table.gang);
    MARK(marks, table.core);
    MARK(marks, state);
    MARK(marks, ledger.number);
    MARK(marks, ledger.served);
    MARK(marks, ledger.skipped);
    MARK(marks, ledger.job);
    MARK(marks, lock.holder);
    MARK(marks, lock.locked);
    MARK(marks, lock.blocked);
    MARK(marks, lock.owing);
    MARK(marks, lock.occupant);
    MARK(marks, kept);
}

// In the empty system every place is unused, so that a changed byte of any field is not well formed, and one of the padding is.
void bytes_looked_at(void)
{
    uint8_t marks[sizeof(gjalvorn_system)] = {0};
    mark_fields(marks);
    gjalvorn_system empty = gjalvorn_read_table(marks, 0).system;
    expect("the empty system", gjalvorn_well_formed(empty), true);
    for (size_t place = 0; place < sizeof marks; place++) {
        gjalvorn_system changed = empty;
        ((uint8_t *)&changed)[place] ^= 1;
        expect("a byte is one of a field", !gjalvorn_well_formed(changed), marks[place]);
    }
}
