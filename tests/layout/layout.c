// Prints the size of every struct of the header and the place of every field in it, under the proved library's names for them.
#include "gjalvorn.h"

#include <stdio.h>

#define SIZE(name, type) printf("%s %zu\n", name, sizeof(type))
#define FIELD(name, type, field) printf("%s.%s %zu\n", name, #field, offsetof(type, field))

static void parts(void)
{
    SIZE("Sizes", gjalvorn_sizes);
    FIELD("Sizes", gjalvorn_sizes, cores);
    FIELD("Sizes", gjalvorn_sizes, gangs);
    FIELD("Sizes", gjalvorn_sizes, threads);
    SIZE("Table", gjalvorn_table);
    FIELD("Table", gjalvorn_table, sizes);
    FIELD("Table", gjalvorn_table, priority);
    FIELD("Table", gjalvorn_table, budget);
    FIELD("Table", gjalvorn_table, gang);
    FIELD("Table", gjalvorn_table, core);
    SIZE("Ledger", gjalvorn_ledger);
    FIELD("Ledger", gjalvorn_ledger, number);
    FIELD("Ledger", gjalvorn_ledger, served);
    FIELD("Ledger", gjalvorn_ledger, skipped);
    FIELD("Ledger", gjalvorn_ledger, job);
    SIZE("Lock", gjalvorn_lock);
    FIELD("Lock", gjalvorn_lock, holder);
    FIELD("Lock", gjalvorn_lock, locked);
    FIELD("Lock", gjalvorn_lock, blocked);
    FIELD("Lock", gjalvorn_lock, owing);
    FIELD("Lock", gjalvorn_lock, occupant);
    SIZE("Held", gjalvorn_held);
    FIELD("Held", gjalvorn_held, holder);
    FIELD("Held", gjalvorn_held, locked);
    FIELD("Held", gjalvorn_held, blocked);
    FIELD("Held", gjalvorn_held, owing);
}

static void system_and_events(void)
{
    SIZE("System", gjalvorn_system);
    FIELD("System", gjalvorn_system, table);
    FIELD("System", gjalvorn_system, state);
    FIELD("System", gjalvorn_system, ledger);
    FIELD("System", gjalvorn_system, lock);
    FIELD("System", gjalvorn_system, kept);
    SIZE("AnswerRecord", gjalvorn_answer);
    FIELD("AnswerRecord", gjalvorn_answer, refusal);
    FIELD("AnswerRecord", gjalvorn_answer, value);
    FIELD("AnswerRecord", gjalvorn_answer, number);
    FIELD("AnswerRecord", gjalvorn_answer, owing);
    FIELD("AnswerRecord", gjalvorn_answer, locked);
    SIZE("Answered", gjalvorn_answered);
    FIELD("Answered", gjalvorn_answered, system);
    FIELD("Answered", gjalvorn_answered, answer);
    SIZE("Outcome", gjalvorn_outcome);
    FIELD("Outcome", gjalvorn_outcome, holder);
    FIELD("Outcome", gjalvorn_outcome, blocked);
    FIELD("Outcome", gjalvorn_outcome, answer);
    SIZE("EventValue", gjalvorn_event);
    FIELD("EventValue", gjalvorn_event, kind);
    FIELD("EventValue", gjalvorn_event, number);
    FIELD("EventValue", gjalvorn_event, transactions);
}

static void findings(void)
{
    SIZE("Found", gjalvorn_found);
    FIELD("Found", gjalvorn_found, refusal);
    FIELD("Found", gjalvorn_found, value);
    SIZE("ReasonFound", gjalvorn_reason_found);
    FIELD("ReasonFound", gjalvorn_reason_found, refusal);
    FIELD("ReasonFound", gjalvorn_reason_found, reason);
    FIELD("ReasonFound", gjalvorn_reason_found, which);
    SIZE("SystemRead", gjalvorn_read);
    FIELD("SystemRead", gjalvorn_read, system);
    FIELD("SystemRead", gjalvorn_read, number);
    FIELD("SystemRead", gjalvorn_read, place);
    SIZE("Batched", gjalvorn_batched);
    FIELD("Batched", gjalvorn_batched, system);
    FIELD("Batched", gjalvorn_batched, read);
    FIELD("Batched", gjalvorn_batched, written);
    FIELD("Batched", gjalvorn_batched, number);
}

int main(void)
{
    parts();
    system_and_events();
    findings();
    return 0;
}
