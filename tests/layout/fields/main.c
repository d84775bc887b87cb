// Shows by calls alone that the proved library has every field where the header has it. The last line is the tally.
#include "check.h"
#include "themes.h"

#include <stdio.h>

typedef struct theme {
    const char *name;
    void (*check)(void);
} theme;

static const theme THEMES[] = {
    {"written: table.sizes.cores, gangs, threads", table_sizes_written},
    {"written: every field of a fresh system", fresh_system_written},
    {"written: the table, as it was, after events", table_kept},
    {"written: state", states_written},
    {"written: ledger.number, served, skipped, job", ledger_written},
    {"written: lock.holder, locked, blocked, owing, occupant", lock_written},
    {"written: kept", kept_written},
    {"looked at: table.sizes.cores, gangs, threads", table_sizes_looked_at},
    {"looked at: table.gang, table.core, state", threads_looked_at},
    {"looked at: table.priority", priorities_looked_at},
    {"looked at: ledger.number, served, skipped, job", ledger_looked_at},
    {"looked at: lock.locked, blocked, owing", core_sets_looked_at},
    {"looked at: lock.occupant", occupants_looked_at},
    {"looked at: table.budget, lock.holder, kept", stops_looked_at},
    {"looked at: every byte of a field, and none of the padding", bytes_looked_at},
    {"given: gjalvorn_read", reading_results},
    {"given: gjalvorn_answer", answers},
    {"given: gjalvorn_reason_found", reasons},
    {"taken: gjalvorn_event", events_by_kind},
    {"lent: the parts of a system, and given: gjalvorn_outcome", events_in_place},
    {"taken: gjalvorn_sizes", sizes_taken},
    {"taken: gjalvorn_held, and none of its padding", held_taken},
    {"given: gjalvorn_batched, and the lent output", batch_results},
    {"given: gjalvorn_batched, with no room", batch_room},
    {"given: 14, for any bit pattern", any_bit_pattern},
};

int main(void)
{
    size_t passed = 0, failed = 0;
    // A theme that brings the program down leaves the lines before it.
    setvbuf(stdout, NULL, _IOLBF, BUFSIZ);
    for (size_t i = 0; i < sizeof THEMES / sizeof *THEMES; i++) {
        size_t before = mismatches();
        THEMES[i].check();
        bool same = mismatches() == before;
        printf("%s: %s\n", THEMES[i].name, same ? "as in the header" : "NOT as in the header");
        if (same)
            passed++;
        else
            failed++;
    }
    printf("%zu passed, %zu failed\n", passed, failed);
    return failed != 0;
}
