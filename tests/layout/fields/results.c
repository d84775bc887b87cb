// What the calls take and give beside a system.
#include "check.h"
#include "systems.h"
#include "themes.h"

#include <string.h>

// The gang of highest priority, its last thread and core, and the thread and core before those.
enum { GANG = GJALVORN_MAX_GANGS - 1, THREAD = GJALVORN_MAX_THREADS - 1, CORE = GJALVORN_MAX_CORES - 1 };
enum { OTHER_THREAD = THREAD - GJALVORN_MAX_GANGS, OTHER_CORE = OTHER_THREAD / THREADS_PER_CORE };

// A core that is blocked in the known system, and so has no occupant.
enum { IDLE_CORE = 2 };

// A kind after the last of the events'.
enum { NO_EVENT = GJALVORN_TICK + 1 };

// Transactions of three different bytes.
enum { TRANSACTIONS = 0x010203 };

void reading_results(void)
{
    records table = full_records();
    gjalvorn_read taken = gjalvorn_read_table(table.bytes, table.length);
    expect("number of an accepted table", taken.number, GJALVORN_ACCEPTED);
    expect("place of an accepted table", taken.place, table.length);
    size_t place = table.length;
    put_cores(&table, GJALVORN_MAX_CORES);
    gjalvorn_read refused = gjalvorn_read_table(table.bytes, table.length);
    expect("number of a second CORES", refused.number, GJALVORN_NOT_CORES_FIRST);
    expect("place of a second CORES", refused.place, place);
    gjalvorn_read none = gjalvorn_read_table(table.bytes, 0);
    expect("number of a table of no bytes", none.number, GJALVORN_UNFINISHED);
    expect("place of a table of no bytes", none.place, 0);
    expect_system(&refused.system, &none.system);
}

// One answer with a value and a number, and a refused one: every field but one differs from 0 in the first, and that one in the second.
void answers(void)
{
    gjalvorn_system known = known_named();
    gjalvorn_answer stopped = {
        .value = 1,
        .number = GJALVORN_MAX_TRAFFIC,
        .owing = known.lock.owing,
        .locked = known.lock.locked,
    };
    gjalvorn_answered counted = gjalvorn_traffic(known, IDLE_CORE, GJALVORN_MAX_TRAFFIC);
    expect_answer(&counted.answer, &stopped);
    gjalvorn_answer not_waiting = refused_answer(&known, GJALVORN_NOT_WAITING);
    gjalvorn_answered refused = gjalvorn_wake(known, 0);
    expect_answer(&refused.answer, &not_waiting);
    expect_system(&refused.system, &known);
}

// A gang's thread runs on one core and another one waits: every event does something here.
static gjalvorn_system busy(void)
{
    gjalvorn_system system = full_named();
    system = accepted("TRAFFIC", gjalvorn_traffic(system, 0, TRANSACTIONS));
    system = accepted("RELEASE", gjalvorn_release(system, GANG));
    system = accepted("SERVE", gjalvorn_serve(system, CORE));
    system = accepted("SERVE", gjalvorn_serve(system, OTHER_CORE));
    return accepted("WAIT", gjalvorn_wait(system, OTHER_THREAD));
}

// An event by its kind does what the call of its name does.
static void expect_same(uint16_t kind, uint8_t number, gjalvorn_answered wanted)
{
    gjalvorn_event event = {.kind = kind, .number = number, .transactions = TRANSACTIONS};
    gjalvorn_answered seen = gjalvorn_apply(busy(), event);
    expect_answer(&seen.answer, &wanted.answer);
    expect_system(&seen.system, &wanted.system);
}

void events_by_kind(void)
{
    gjalvorn_system system = busy();
    gjalvorn_answered unknown = {.system = system, .answer = refused_answer(&system, GJALVORN_WRONG_KIND)};
    expect_same(GJALVORN_RELEASE, 1, gjalvorn_release(system, 1));
    expect_same(GJALVORN_FINISH, THREAD, gjalvorn_finish(system, THREAD));
    expect_same(GJALVORN_WAIT, THREAD, gjalvorn_wait(system, THREAD));
    expect_same(GJALVORN_WAKE, OTHER_THREAD, gjalvorn_wake(system, OTHER_THREAD));
    expect_same(GJALVORN_SERVE, OTHER_CORE, gjalvorn_serve(system, OTHER_CORE));
    expect_same(GJALVORN_TRAFFIC, 1, gjalvorn_traffic(system, 1, TRANSACTIONS));
    expect_same(GJALVORN_TICK, 0, gjalvorn_tick(system));
    expect_same(NO_EVENT, 0, unknown);
}

// An event in place does what the same event does by value. Gives whether it is accepted.
static bool accepted_in_place(gjalvorn_system system, gjalvorn_event event)
{
    gjalvorn_answered wanted = gjalvorn_apply(system, event);
    gjalvorn_answer answer = gjalvorn_apply_to(&system, event);
    expect_answer(&answer, &wanted.answer);
    expect_system(&system, &wanted.system);
    return answer.refusal == GJALVORN_ACCEPTED;
}

// Every event and two kinds that are no event's, about every number. Gives how many are accepted.
static size_t count_in_place(gjalvorn_system system)
{
    size_t count = 0;
    for (uint16_t kind = GJALVORN_RELEASE - 1; kind <= NO_EVENT; kind++) {
        for (uint16_t number = 0; number <= UINT8_MAX; number++) {
            gjalvorn_event event = {.kind = kind, .number = (uint8_t)number, .transactions = TRANSACTIONS};
            count += accepted_in_place(system, event);
        }
    }
    return count;
}

// On the known system and on one that is busy, each gang's RELEASE, each core's SERVE and each TICK is accepted beside others, and each
// number past the table is refused. A lock that is free with cores locked is not well formed.
void events_in_place(void)
{
    enum { LEAST = GJALVORN_MAX_GANGS + GJALVORN_MAX_CORES + UINT8_MAX + 1 };
    gjalvorn_system known = known_named();
    expect("accepted on the known system", count_in_place(known) > LEAST, true);
    expect("accepted on a busy system", count_in_place(busy()) > LEAST, true);
    known.lock.holder = GJALVORN_NONE;
    expect("accepted where it is not well formed", count_in_place(known), 0);
}

// Three events and one byte more, answered in a lent output with room to spare: what is past the answers is untouched.
void batch_results(void)
{
    enum { UNTOUCHED = 0xa5, ROOM = 4 * GJALVORN_ANSWER_SIZE };
    records events = {.length = 0}, wanted = {.length = 0};
    uint8_t out[ROOM];
    memset(out, UNTOUCHED, sizeof out);
    memset(wanted.bytes, UNTOUCHED, sizeof wanted.bytes);
    gjalvorn_system system = known_named();
    gjalvorn_answered released = gjalvorn_release(system, GANG);
    gjalvorn_answered served = gjalvorn_serve(released.system, CORE);
    gjalvorn_answered ticked = gjalvorn_tick(served.system);
    put_answer(&wanted, released.answer);
    put_answer(&wanted, served.answer);
    put_answer(&wanted, ticked.answer);
    put_event(&events, GJALVORN_RELEASE, GANG);
    put_event(&events, GJALVORN_SERVE, CORE);
    put_tick(&events);
    size_t whole = events.length;
    put_u8(&events, 0);
    gjalvorn_batched batched = gjalvorn_batch(system, events.bytes, events.length, out, sizeof out);
    expect("batched.read", batched.read, whole);
    expect("batched.written", batched.written, wanted.length);
    expect("batched.number", batched.number, GJALVORN_CUT_SHORT);
    expect_u8s("out", out, wanted.bytes, sizeof out);
    expect_system(&batched.system, &ticked.system);
}

// No room for the second answer, though all but one of its bytes would fit.
void batch_room(void)
{
    enum { ROOM = 2 * GJALVORN_ANSWER_SIZE - 1 };
    records events = {.length = 0};
    uint8_t out[ROOM];
    gjalvorn_system system = known_named();
    put_event(&events, GJALVORN_RELEASE, GANG);
    size_t first = events.length;
    put_event(&events, GJALVORN_SERVE, CORE);
    gjalvorn_batched batched = gjalvorn_batch(system, events.bytes, events.length, out, sizeof out);
    gjalvorn_answered released = gjalvorn_release(system, GANG);
    expect("batched.read", batched.read, first);
    expect("batched.written", batched.written, GJALVORN_ANSWER_SIZE);
    expect("batched.number", batched.number, GJALVORN_NO_ROOM);
    expect_system(&batched.system, &released.system);
}
