#include "check.h"
#include "systems.h"

// Each core's traffic: three bytes from some core on, and never more than is kept.
enum { LOWEST_TRAFFIC = 7, TRAFFIC_STEP = 30001 };

// Each gang has so many whole jobs before its last release, and skips releases in the first job and again after the last release: so
// its number, served, skipped and job all differ.
enum { FIRST_SKIPS = 2, LEAST_LAST_SKIPS = 3 };

// The gang of highest priority, which holds the lock in the end.
enum { TOP_GANG = GJALVORN_MAX_GANGS - 1 };

// Cores 2, 3 and 12 are blocked in the end.
static const uint32_t BLOCKED = 0x100c;

static uint32_t whole_jobs(uint8_t gang)
{
    return gang + 1u;
}

static uint32_t last_skips(uint8_t gang)
{
    return LEAST_LAST_SKIPS + 2u * gang;
}

static bool blocked(uint8_t core)
{
    return (BLOCKED & only(core)) != 0;
}

// A core's last thread is of the highest priority there.
static uint8_t first_on(uint8_t core)
{
    return (uint8_t)(core * THREADS_PER_CORE + THREADS_PER_CORE - 1);
}

// ---- by events

static gjalvorn_system release(gjalvorn_system system, uint8_t gang, uint32_t times)
{
    for (uint32_t i = 0; i < times; i++)
        system = accepted("RELEASE", gjalvorn_release(system, gang));
    return system;
}

static gjalvorn_system serve(gjalvorn_system system, uint8_t gang)
{
    for (uint8_t thread = gang; thread < GJALVORN_MAX_THREADS; thread += GJALVORN_MAX_GANGS)
        system = accepted("SERVE", gjalvorn_serve(system, full_core(thread)));
    return system;
}

// Serves a released gang's cores, finishes its threads and serves the cores again: no gang holds the lock then.
static gjalvorn_system run_job(gjalvorn_system system, uint8_t gang)
{
    system = serve(system, gang);
    for (uint8_t thread = gang; thread < GJALVORN_MAX_THREADS; thread += GJALVORN_MAX_GANGS)
        system = accepted("FINISH", gjalvorn_finish(system, thread));
    return serve(system, gang);
}

static gjalvorn_system run_whole_jobs(gjalvorn_system system, uint8_t gang)
{
    system = release(system, gang, 1 + FIRST_SKIPS);
    for (uint32_t job = 1; job < whole_jobs(gang); job++)
        system = release(run_job(system, gang), gang, 1);
    return run_job(system, gang);
}

// Each gang takes the lock from the gang before it, whose cores keep their occupants and owe.
static gjalvorn_system displace(gjalvorn_system system)
{
    for (uint8_t gang = 0; gang < GJALVORN_MAX_GANGS; gang++)
        system = release(system, gang, 1 + last_skips(gang));
    for (uint8_t gang = THREADS_PER_CORE - 1; gang < GJALVORN_MAX_GANGS; gang += THREADS_PER_CORE)
        system = serve(system, gang);
    return system;
}

// Blocked cores are served under a higher holder. Elsewhere the occupant waits, or on an odd core finishes.
static gjalvorn_system leave(gjalvorn_system system)
{
    for (uint8_t core = 0; core < GJALVORN_MAX_CORES; core++) {
        if (blocked(core))
            system = accepted("SERVE", gjalvorn_serve(system, core));
        else if (core % 2 == 0)
            system = accepted("WAIT", gjalvorn_wait(system, first_on(core)));
        else
            system = accepted("FINISH", gjalvorn_finish(system, first_on(core)));
    }
    return system;
}

static uint32_t traffic(uint8_t core)
{
    return LOWEST_TRAFFIC + (uint32_t)core * TRAFFIC_STEP;
}

gjalvorn_system known_driven(void)
{
    records table = full_records();
    gjalvorn_system system = gjalvorn_read_table(table.bytes, table.length).system;
    for (uint8_t core = 0; core < GJALVORN_MAX_CORES; core++)
        system = accepted("TRAFFIC", gjalvorn_traffic(system, core, traffic(core)));
    for (uint8_t gang = 0; gang < GJALVORN_MAX_GANGS; gang++)
        system = run_whole_jobs(system, gang);
    return leave(displace(system));
}

// ---- by names

static void name_ledger(gjalvorn_ledger *ledger)
{
    for (uint8_t gang = 0; gang < GJALVORN_MAX_GANGS; gang++) {
        ledger->served[gang] = whole_jobs(gang) + 1;
        ledger->job[gang] = ledger->served[gang] + FIRST_SKIPS;
        ledger->skipped[gang] = FIRST_SKIPS + last_skips(gang);
        ledger->number[gang] = ledger->served[gang] + ledger->skipped[gang];
    }
}

static uint8_t known_state(uint8_t thread)
{
    uint8_t core = full_core(thread);
    if (thread != first_on(core) || blocked(core))
        return GJALVORN_READY;
    return core % 2 == 0 ? GJALVORN_WAITING : GJALVORN_FINISHED;
}

static void name_lock(gjalvorn_lock *lock)
{
    lock->holder = TOP_GANG;
    lock->blocked = BLOCKED;
    lock->owing = ~BLOCKED;
    for (uint8_t thread = TOP_GANG; thread < GJALVORN_MAX_THREADS; thread += GJALVORN_MAX_GANGS)
        lock->locked |= only(full_core(thread));
    for (uint8_t core = 0; core < GJALVORN_MAX_CORES; core++)
        lock->occupant[core] = blocked(core) ? GJALVORN_NONE : first_on(core);
}

gjalvorn_system known_named(void)
{
    gjalvorn_system system = full_named();
    name_ledger(&system.ledger);
    name_lock(&system.lock);
    for (uint8_t thread = 0; thread < GJALVORN_MAX_THREADS; thread++)
        system.state[thread] = known_state(thread);
    for (uint8_t core = 0; core < GJALVORN_MAX_CORES; core++)
        system.kept[core] = traffic(core);
    return system;
}
