// What the library writes stands where the header says: systems that its calls make are read by field names.
#include "check.h"
#include "systems.h"
#include "themes.h"

// A table whose numbers of cores, gangs and threads differ.
enum { SOME_CORES = 5, SOME_GANGS = 2, SOME_THREADS = 3 };

void table_sizes_written(void)
{
    records table = {.length = 0};
    put_cores(&table, SOME_CORES);
    for (uint8_t gang = 0; gang < SOME_GANGS; gang++)
        put_gang(&table, full_priority(gang), full_budget(gang));
    for (uint8_t thread = 0; thread < SOME_THREADS; thread++)
        put_thread(&table, thread % SOME_GANGS, thread);
    gjalvorn_system seen = gjalvorn_read_table(table.bytes, table.length).system;
    expect("table.sizes.cores", seen.table.sizes.cores, SOME_CORES);
    expect("table.sizes.gangs", seen.table.sizes.gangs, SOME_GANGS);
    expect("table.sizes.threads", seen.table.sizes.threads, SOME_THREADS);
}

void fresh_system_written(void)
{
    records table = full_records();
    gjalvorn_system seen = gjalvorn_read_table(table.bytes, table.length).system;
    gjalvorn_system wanted = full_named();
    expect_system(&seen, &wanted);
}

void states_written(void)
{
    gjalvorn_system seen = known_driven();
    gjalvorn_system wanted = known_named();
    expect_u8s("state", seen.state, wanted.state, GJALVORN_MAX_THREADS);
    for (uint8_t thread = 0; thread < GJALVORN_MAX_THREADS; thread++) {
        if (wanted.state[thread] == GJALVORN_WAITING) {
            seen = accepted("WAKE", gjalvorn_wake(seen, thread));
            wanted.state[thread] = GJALVORN_READY;
        }
    }
    expect_u8s("state after WAKE", seen.state, wanted.state, GJALVORN_MAX_THREADS);
}

// No event changes the table.
void table_kept(void)
{
    gjalvorn_system seen = known_driven();
    gjalvorn_system wanted = known_named();
    expect_table(&seen.table, &wanted.table);
}

void ledger_written(void)
{
    gjalvorn_system seen = known_driven();
    gjalvorn_system wanted = known_named();
    expect_ledger(&seen.ledger, &wanted.ledger);
}

void lock_written(void)
{
    gjalvorn_system seen = known_driven();
    gjalvorn_system wanted = known_named();
    expect_lock(&seen.lock, &wanted.lock);
}

void kept_written(void)
{
    gjalvorn_system seen = known_driven();
    gjalvorn_system wanted = known_named();
    expect_u32s("kept", seen.kept, wanted.kept, GJALVORN_MAX_CORES);
    gjalvorn_system ticked = accepted("TICK", gjalvorn_tick(seen));
    gjalvorn_system fresh = full_named();
    expect_u32s("kept after TICK", ticked.kept, fresh.kept, GJALVORN_MAX_CORES);
}
