#include "check.h"

#include <inttypes.h>
#include <stdio.h>

static size_t mismatched;

size_t mismatches(void)
{
    return mismatched;
}

void expect(const char *what, uint64_t seen, uint64_t wanted)
{
    if (seen == wanted)
        return;
    mismatched++;
    printf("  %s: %" PRIu64 ", not %" PRIu64 "\n", what, seen, wanted);
}

static void expect_place(const char *what, size_t place, uint32_t seen, uint32_t wanted)
{
    if (seen == wanted)
        return;
    mismatched++;
    printf("  %s[%zu]: %" PRIu32 ", not %" PRIu32 "\n", what, place, seen, wanted);
}

void expect_u8s(const char *what, const uint8_t *seen, const uint8_t *wanted, size_t count)
{
    for (size_t place = 0; place < count; place++)
        expect_place(what, place, seen[place], wanted[place]);
}

void expect_u32s(const char *what, const uint32_t *seen, const uint32_t *wanted, size_t count)
{
    for (size_t place = 0; place < count; place++)
        expect_place(what, place, seen[place], wanted[place]);
}

void expect_table(const gjalvorn_table *seen, const gjalvorn_table *wanted)
{
    expect("table.sizes.cores", seen->sizes.cores, wanted->sizes.cores);
    expect("table.sizes.gangs", seen->sizes.gangs, wanted->sizes.gangs);
    expect("table.sizes.threads", seen->sizes.threads, wanted->sizes.threads);
    expect_u8s("table.priority", seen->priority, wanted->priority, GJALVORN_MAX_GANGS);
    expect_u32s("table.budget", seen->budget, wanted->budget, GJALVORN_MAX_GANGS);
    expect_u8s("table.gang", seen->gang, wanted->gang, GJALVORN_MAX_THREADS);
    expect_u8s("table.core", seen->core, wanted->core, GJALVORN_MAX_THREADS);
}

void expect_ledger(const gjalvorn_ledger *seen, const gjalvorn_ledger *wanted)
{
    expect_u32s("ledger.number", seen->number, wanted->number, GJALVORN_MAX_GANGS);
    expect_u32s("ledger.served", seen->served, wanted->served, GJALVORN_MAX_GANGS);
    expect_u32s("ledger.skipped", seen->skipped, wanted->skipped, GJALVORN_MAX_GANGS);
    expect_u32s("ledger.job", seen->job, wanted->job, GJALVORN_MAX_GANGS);
}

void expect_lock(const gjalvorn_lock *seen, const gjalvorn_lock *wanted)
{
    expect("lock.holder", seen->holder, wanted->holder);
    expect("lock.locked", seen->locked, wanted->locked);
    expect("lock.blocked", seen->blocked, wanted->blocked);
    expect("lock.owing", seen->owing, wanted->owing);
    expect_u8s("lock.occupant", seen->occupant, wanted->occupant, GJALVORN_MAX_CORES);
}

void expect_system(const gjalvorn_system *seen, const gjalvorn_system *wanted)
{
    expect_table(&seen->table, &wanted->table);
    expect_u8s("state", seen->state, wanted->state, GJALVORN_MAX_THREADS);
    expect_ledger(&seen->ledger, &wanted->ledger);
    expect_lock(&seen->lock, &wanted->lock);
    expect_u32s("kept", seen->kept, wanted->kept, GJALVORN_MAX_CORES);
}

void expect_answer(const gjalvorn_answer *seen, const gjalvorn_answer *wanted)
{
    expect("answer.refusal", seen->refusal, wanted->refusal);
    expect("answer.value", seen->value, wanted->value);
    expect("answer.number", seen->number, wanted->number);
    expect("answer.owing", seen->owing, wanted->owing);
    expect("answer.locked", seen->locked, wanted->locked);
}

void expect_reason_found(gjalvorn_reason_found seen, gjalvorn_reason_found wanted)
{
    expect("reason_found.refusal", seen.refusal, wanted.refusal);
    expect("reason_found.reason", seen.reason, wanted.reason);
    expect("reason_found.which", seen.which, wanted.which);
}

gjalvorn_answer refused_answer(const gjalvorn_system *system, uint8_t refusal)
{
    gjalvorn_answer answer = {.refusal = refusal, .owing = system->lock.owing, .locked = system->lock.locked};
    return answer;
}

gjalvorn_system accepted(const char *event, gjalvorn_answered answered)
{
    expect(event, answered.answer.refusal, GJALVORN_ACCEPTED);
    return answered.system;
}
