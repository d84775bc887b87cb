#include "systems.h"

#include <string.h>

// Budgets take up three bytes, so that a place that is off by a byte shows.
enum { LOWEST_PRIORITY = 1, PRIORITY_STEP = 3, LOWEST_BUDGET = 70000, BUDGET_STEP = 29999 };

uint32_t only(uint8_t core)
{
    return (uint32_t)1 << core;
}

uint8_t full_priority(uint8_t gang)
{
    return (uint8_t)(LOWEST_PRIORITY + gang * PRIORITY_STEP);
}

uint32_t full_budget(uint8_t gang)
{
    return LOWEST_BUDGET + (uint32_t)gang * BUDGET_STEP;
}

uint8_t full_gang(uint8_t thread)
{
    return thread % GJALVORN_MAX_GANGS;
}

uint8_t full_core(uint8_t thread)
{
    return thread / THREADS_PER_CORE;
}

records full_records(void)
{
    records table = {.length = 0};
    put_cores(&table, GJALVORN_MAX_CORES);
    for (uint8_t gang = 0; gang < GJALVORN_MAX_GANGS; gang++)
        put_gang(&table, full_priority(gang), full_budget(gang));
    for (uint8_t thread = 0; thread < GJALVORN_MAX_THREADS; thread++)
        put_thread(&table, full_gang(thread), full_core(thread));
    return table;
}

static void name_table(gjalvorn_table *table)
{
    table->sizes.cores = GJALVORN_MAX_CORES;
    table->sizes.gangs = GJALVORN_MAX_GANGS;
    table->sizes.threads = GJALVORN_MAX_THREADS;
    for (uint8_t gang = 0; gang < GJALVORN_MAX_GANGS; gang++) {
        table->priority[gang] = full_priority(gang);
        table->budget[gang] = full_budget(gang);
    }
    for (uint8_t thread = 0; thread < GJALVORN_MAX_THREADS; thread++) {
        table->gang[thread] = full_gang(thread);
        table->core[thread] = full_core(thread);
    }
}

gjalvorn_system full_named(void)
{
    gjalvorn_system system;
    memset(&system, 0, sizeof system);
    name_table(&system.table);
    system.lock.holder = GJALVORN_NONE;
    for (uint8_t core = 0; core < GJALVORN_MAX_CORES; core++)
        system.lock.occupant[core] = GJALVORN_NONE;
    return system;
}

gjalvorn_system full_held_by(uint8_t thread)
{
    gjalvorn_system system = full_named();
    system.lock.holder = full_gang(thread);
    system.lock.locked = only(full_core(thread));
    system.lock.occupant[full_core(thread)] = thread;
    return system;
}

gjalvorn_system uneven_named(void)
{
    gjalvorn_system system = full_named();
    system.table.sizes.cores = UNEVEN_CORES;
    system.table.sizes.gangs = UNEVEN_GANGS;
    system.table.sizes.threads = UNEVEN_THREADS;
    system.table.priority[UNEVEN_GANGS] = 0;
    system.table.budget[UNEVEN_GANGS] = 0;
    for (uint8_t thread = 0; thread < GJALVORN_MAX_THREADS; thread++) {
        system.table.gang[thread] = thread < UNEVEN_THREADS ? thread % UNEVEN_GANGS : 0;
        system.table.core[thread] = thread < UNEVEN_THREADS ? thread % UNEVEN_CORES : 0;
    }
    return system;
}
