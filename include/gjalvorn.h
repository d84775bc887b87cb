// Gjalvorn for C99 and C++: the verified core of a real-time gang scheduler, in libffi.a for x86-64. Its rules: docs/RULES.md.
//
// A system is a plain value. The calls take it by value; an event gives the next system beside its answer, and the caller keeps
// whichever it wants. Only gjalvorn_apply_lent, and gjalvorn_apply_to over it, change a system where it is. The calls keep no state
// and no pointer and allocate nothing, and every call comes back for every input.
//
// What a caller owes: a pointer is not null, also where no bytes follow, and is valid for the length that follows it; `out` does not
// overlap `events`; each part that is lent has as many places as its parameter says, and overlaps no other. Nothing else is owed: any
// bit pattern of a system may be handed in, and one that is not well formed is refused with 14.
#ifndef GJALVORN_H
#define GJALVORN_H

#include <stdbool.h>
#include <stddef.h>
#include <stdint.h>

#ifdef __cplusplus
extern "C" {
#endif

// ---- Numbers. Cores, gangs and threads are numbered from 0.

#define GJALVORN_MAX_CORES 32
#define GJALVORN_MAX_GANGS 32
#define GJALVORN_MAX_THREADS 128

// Priority 1 to 99, larger is higher, no two gangs equal.
#define GJALVORN_TOP_PRIORITY 99

// Budget 0 to 1,000,000 transactions an interval; a GANG record of length 3 has no budget and means 1,000,000.
#define GJALVORN_MAX_BUDGET 1000000

// The most transactions that one TRAFFIC may carry, and that a core's count is kept at.
#define GJALVORN_MAX_TRAFFIC 1000000

// Release numbers are 1 to this one.
#define GJALVORN_LAST_NUMBER 4294967295u

// No thread as an occupant, no gang as the holder, no core as the lowest owing one, neither thread nor gang with a reason.
#define GJALVORN_NONE 255

// The bytes of an ANSWER record: length u16 (16), kind u16 (64), then refusal u8, value u8, number u32, owing cores u32 and locked
// cores u32, little-endian and with no gaps.
#define GJALVORN_ANSWER_SIZE 18

// The kinds of record. A record is a length (u16), a kind (u16), then a payload, little-endian; the length counts kind and payload.
enum gjalvorn_kind {
    // Of a table: CORES first and once, then GANG and THREAD mixed.
    GJALVORN_CORES = 1,  // length 3: count u8
    GJALVORN_GANG = 2,   // length 7: priority u8, budget u32; or length 3: priority u8
    GJALVORN_THREAD = 3, // length 4: gang u8, core u8
    // Events.
    GJALVORN_RELEASE = 16, // length 3: gang u8
    GJALVORN_FINISH = 17,  // length 3: thread u8
    GJALVORN_WAIT = 18,    // length 3: thread u8
    GJALVORN_WAKE = 19,    // length 3: thread u8
    GJALVORN_SERVE = 20,   // length 3: core u8
    GJALVORN_TRAFFIC = 21, // length 7: core u8, transactions u32
    GJALVORN_TICK = 22,    // length 2: none
    // What a batch writes.
    GJALVORN_ANSWER = 64 // length 16
};

// A thread's states. A thread is running when it is its core's occupant and is ready.
enum gjalvorn_state {
    GJALVORN_FINISHED = 0, // at first
    GJALVORN_READY = 1,
    GJALVORN_WAITING = 2
};

// Why a thread is running or is not: gjalvorn_why gives the first of these that holds. The last one is never given where events led to the
// system.
enum gjalvorn_reason {
    GJALVORN_WHY_FINISHED = 1,
    GJALVORN_WHY_WAITING = 2,
    GJALVORN_WHY_RUNNING_LOCKED = 3,    // it is running on a locked core
    GJALVORN_WHY_RUNNING_DISPLACED = 4, // it is running, and its core is not locked
    GJALVORN_WHY_CORE_OWES = 5,         // its core owes a reschedule
    GJALVORN_WHY_THREAD_AHEAD = 6,      // another thread is its core's first ready thread
    GJALVORN_WHY_GANG_HOLDS = 7,        // a gang of higher priority holds the lock
    GJALVORN_WHY_NONE = 8               // none of these
};

// The refusal numbers, each given exactly when docs/RULES.md says; 0 says that nothing is refused. The order is 14; 1 for fewer than four
// bytes; 2; 3; 1 for a record that is not whole; 13; then 4, 5, 6, 7, 9 to 12; 8 at the table's end.
enum gjalvorn_refusal {
    GJALVORN_ACCEPTED = 0,
    GJALVORN_CUT_SHORT = 1,       // 1 to 3 bytes are left at a record's start, or fewer than its length says
    GJALVORN_WRONG_KIND = 2,      // kind not of this stream
    GJALVORN_WRONG_LENGTH = 3,    // length not that of the kind
    GJALVORN_NOT_CORES_FIRST = 4, // first table record not CORES, or a second CORES
    GJALVORN_TOO_MANY = 5,        // a 33rd gang or 129th thread
    GJALVORN_OUT_OF_RANGE = 6,    // a count, priority, budget, number or transaction count out of range or not in the table
    GJALVORN_PRIORITY_TAKEN = 7,  // priority already taken
    GJALVORN_UNFINISHED = 8,      // table ends without CORES, without a gang, or with a gang that has no thread
    GJALVORN_NOT_RUNNING = 9,     // FINISH or WAIT of a thread not running
    GJALVORN_NOT_WAITING = 10,    // WAKE of a thread not waiting
    GJALVORN_CORE_OCCUPIED = 11,  // TRAFFIC from a core with an occupant
    GJALVORN_NUMBERS_SPENT = 12,  // RELEASE when the number is 4,294,967,295
    GJALVORN_NO_ROOM = 13,        // the next answer has no room
    GJALVORN_NOT_WELL_FORMED = 14 // the system handed in is not well formed
};

// ---- The system and its parts. Unused places are 0, except that an occupant and the holder are 255 for none.

// How many cores, gangs and threads there are.
typedef struct gjalvorn_sizes {
    uint8_t cores;   // 1 to 32, or 0 in the empty system
    uint8_t gangs;   // 1 to 32, or 0 in the empty system
    uint8_t threads; // up to 128, each gang has one at least
} gjalvorn_sizes;

// The table of cores, gangs and pinned threads.
typedef struct gjalvorn_table {
    gjalvorn_sizes sizes;
    uint8_t priority[GJALVORN_MAX_GANGS]; // each gang's priority
    uint32_t budget[GJALVORN_MAX_GANGS];  // each gang's budget
    uint8_t gang[GJALVORN_MAX_THREADS];   // each thread's gang
    uint8_t core[GJALVORN_MAX_THREADS];   // the core that each thread is pinned to
} gjalvorn_table;

// Each gang's releases. Every release takes the next number, served or skipped, and a job carries the number of its own release.
typedef struct gjalvorn_ledger {
    uint32_t number[GJALVORN_MAX_GANGS];  // the number of the gang's last release, 0 before the first
    uint32_t served[GJALVORN_MAX_GANGS];  // how many of its releases were served
    uint32_t skipped[GJALVORN_MAX_GANGS]; // how many were skipped; served plus skipped is the number
    uint32_t job[GJALVORN_MAX_GANGS];     // the number of its current job, 0 before the first
} gjalvorn_ledger;

// The gang lock and the cores. In a core set, bit c is core c.
typedef struct gjalvorn_lock {
    uint8_t holder;   // the gang that holds the lock, or 255 where it is free; held exactly when some core is locked
    uint32_t locked;  // the locked cores: the occupant of each is the holder's
    uint32_t blocked; // the blocked cores: SERVE found a first ready thread of lower priority than the holder; none while the lock is free
    uint32_t owing;   // the cores that owe a reschedule, which SERVE does
    uint8_t occupant[GJALVORN_MAX_CORES]; // each core's occupant, a thread pinned there, or 255
} gjalvorn_lock;

// The whole system. Get one from gjalvorn_read_table, and the next one from each event.
typedef struct gjalvorn_system {
    gjalvorn_table table;
    uint8_t state[GJALVORN_MAX_THREADS]; // each thread's state: finished, ready or waiting
    gjalvorn_ledger ledger;
    gjalvorn_lock lock;
    uint32_t kept[GJALVORN_MAX_CORES]; // each core's transactions since the last TICK, kept at 1,000,000 at most
} gjalvorn_system;

// ---- What the calls take and give.

// The fields of an ANSWER. A refused event has value and number 0, and the owing and locked cores as they are.
typedef struct gjalvorn_answer {
    uint8_t refusal; // 0 where the event was accepted
    uint8_t value;   // SERVE: the occupant or 255; RELEASE: 1 served, 0 skipped; TRAFFIC: 1 stopped, 0 not; else 0
    uint32_t number; // RELEASE: its number; TRAFFIC: the kept count; else 0
    uint32_t owing;  // the owing cores after the event
    uint32_t locked; // the locked cores after the event
} gjalvorn_answer;

// The system after an event, as it came where the event is refused, and the event's answer.
typedef struct gjalvorn_answered {
    gjalvorn_system system;
    gjalvorn_answer answer;
} gjalvorn_answered;

// A lock but for the occupants, each field as in gjalvorn_lock: what an event on lent parts takes by value.
typedef struct gjalvorn_held {
    uint8_t holder;
    uint32_t locked;
    uint32_t blocked;
    uint32_t owing;
} gjalvorn_held;

// What an event on lent parts comes to beside them. The owing and the locked cores after the event are the answer's.
typedef struct gjalvorn_outcome {
    uint8_t holder;   // the holder after the event
    uint32_t blocked; // the blocked cores after the event
    gjalvorn_answer answer;
} gjalvorn_outcome;

// An event as a value.
typedef struct gjalvorn_event {
    uint16_t kind;         // 16 RELEASE to 22 TICK
    uint8_t number;        // RELEASE: the gang; FINISH, WAIT, WAKE: the thread; SERVE, TRAFFIC: the core; TICK: anything
    uint32_t transactions; // TRAFFIC: at most 1,000,000; else anything
} gjalvorn_event;

// What a question finds.
typedef struct gjalvorn_found {
    uint8_t refusal; // 0 where the question has a value
    uint32_t value;  // 0 where the question is refused
} gjalvorn_found;

// What the question why finds.
typedef struct gjalvorn_reason_found {
    uint8_t refusal; // 0 where a reason is given
    uint8_t reason;  // 1 to 8; 0 where the question is refused
    uint8_t which;   // the thread ahead for 6, the gang that holds the lock for 7, else 255; 0 where the question is refused
} gjalvorn_reason_found;

// What reading a table comes to.
typedef struct gjalvorn_read {
    gjalvorn_system system; // a fresh one, or the empty system where the table is refused
    uint8_t number;         // the refusal number, 1 to 8, or 0
    size_t place;           // the place of the refused record; for 8, and where the table is accepted, the table's length
} gjalvorn_read;

// What a batch comes to.
typedef struct gjalvorn_batched {
    gjalvorn_system system; // after the events that were read
    size_t read;            // bytes read
    size_t written;         // bytes written: 18 for each event that was read
    uint8_t number;         // what stopped it: 1, 2, 3, 13 or 14, or 0 at the end
} gjalvorn_batched;

// ---- The table and the batch.

// Reads a table, kinds 1 to 3, that takes up all of the bytes.
gjalvorn_read gjalvorn_read_table(const uint8_t *bytes, size_t length);

// Reads event records and writes one ANSWER each into the lent output, refused ones (6, 9 to 12) included. It stops at 1, 2, 3, 13 or the
// end, before the record that stops it. Output past the written bytes is untouched. With 14 nothing is read or written.
gjalvorn_batched gjalvorn_batch(gjalvorn_system system, const uint8_t *events, size_t length, uint8_t *out, size_t room);

// Whether the system is well formed, as docs/RULES.md lists it. Every system that a call gives for a well-formed one is.
bool gjalvorn_well_formed(gjalvorn_system system);

// ---- The events. Each is refused with 14 for a system that is not well formed, then with 6 for a number that is not in the table.

// RELEASE: the gang's number goes up by one. If all its threads are finished the release is served: all become ready, their cores owe,
// and the gang's current job takes that number. Otherwise it is skipped and nothing else changes. 12 when the numbers are spent.
gjalvorn_answered gjalvorn_release(gjalvorn_system system, uint8_t gang);

// FINISH: a running thread becomes finished; its core owes. 9 when it is not running.
gjalvorn_answered gjalvorn_finish(gjalvorn_system system, uint8_t thread);

// WAIT: a running thread becomes waiting; its core owes. 9 when it is not running.
gjalvorn_answered gjalvorn_wait(gjalvorn_system system, uint8_t thread);

// WAKE: a waiting thread becomes ready; its core owes. 10 when it is not waiting.
gjalvorn_answered gjalvorn_wake(gjalvorn_system system, uint8_t thread);

// SERVE a core, owing or not. (a) It no longer owes and is no longer blocked. (b) If it was locked it is unlocked; if no core is locked
// now, the lock is free, every blocked core owes and none is blocked. It has no occupant. (c) Its first ready thread is taken. None: done.
// Lock free or held by that thread's gang: the gang holds it, the core is locked, the thread is occupant. Higher priority than the holder:
// every locked core owes and is unlocked (its occupant stays until it is served), then as for a free lock. Lower: the core is blocked.
gjalvorn_answered gjalvorn_serve(gjalvorn_system system, uint8_t core);

// TRAFFIC: the core's count for the interval grows. 6 for more than 1,000,000 transactions; 11 when the core has an occupant.
gjalvorn_answered gjalvorn_traffic(gjalvorn_system system, uint8_t core, uint32_t transactions);

// TICK: all counts become 0.
gjalvorn_answered gjalvorn_tick(gjalvorn_system system);

// Any event, by its kind. A kind that is no event's is refused with 2, after 14.
gjalvorn_answered gjalvorn_apply(gjalvorn_system system, gjalvorn_event event);

// ---- An event in place, for firmware that applies events one by one: no system is copied.

// Any event, as gjalvorn_apply does it, on the parts of a system, which are lent for the call and changed where they are. The caller
// then stores the holder, the blocked, the owing and the locked cores that it is given. A refused event changes nothing.
gjalvorn_outcome gjalvorn_apply_lent(
    gjalvorn_sizes sizes,
    const uint8_t priority[GJALVORN_MAX_GANGS], const uint32_t budget[GJALVORN_MAX_GANGS],
    const uint8_t gang[GJALVORN_MAX_THREADS], const uint8_t core[GJALVORN_MAX_THREADS],
    uint8_t state[GJALVORN_MAX_THREADS],
    uint32_t number[GJALVORN_MAX_GANGS], uint32_t served[GJALVORN_MAX_GANGS],
    uint32_t skipped[GJALVORN_MAX_GANGS], uint32_t job[GJALVORN_MAX_GANGS],
    gjalvorn_held held, uint8_t occupant[GJALVORN_MAX_CORES],
    uint32_t kept[GJALVORN_MAX_CORES],
    gjalvorn_event event);

// Any event on a system, which is changed where it is: lends the parts, stores what comes back and gives the answer. A refused event
// changes nothing. It is defined here and is no call of the library's.
static inline gjalvorn_answer gjalvorn_apply_to(gjalvorn_system *system, gjalvorn_event event)
{
    gjalvorn_table *table = &system->table;
    gjalvorn_ledger *ledger = &system->ledger;
    gjalvorn_lock *lock = &system->lock;
    gjalvorn_held held = {lock->holder, lock->locked, lock->blocked, lock->owing};
    gjalvorn_outcome outcome = gjalvorn_apply_lent(
        table->sizes, table->priority, table->budget, table->gang, table->core,
        system->state,
        ledger->number, ledger->served, ledger->skipped, ledger->job,
        held, lock->occupant,
        system->kept,
        event);
    lock->holder = outcome.holder;
    lock->locked = outcome.answer.locked;
    lock->blocked = outcome.blocked;
    lock->owing = outcome.answer.owing;
    return outcome.answer;
}

// ---- The questions. Each is refused with 14 for a system that is not well formed, then with 6 for a number that is not in the table.

// A core's occupant, or 255.
gjalvorn_found gjalvorn_occupant(gjalvorn_system system, uint8_t core);

// Whether a core is stopped, 1 or 0: it has no occupant, the lock is held, and its count is at least the holder's budget.
gjalvorn_found gjalvorn_stopped(gjalvorn_system system, uint8_t core);

// A gang's release number: that of its last release, 0 before the first.
gjalvorn_found gjalvorn_release_number(gjalvorn_system system, uint8_t gang);

// How many of a gang's releases were served.
gjalvorn_found gjalvorn_served(gjalvorn_system system, uint8_t gang);

// How many of a gang's releases were skipped.
gjalvorn_found gjalvorn_skipped(gjalvorn_system system, uint8_t gang);

// The number of a gang's current job, 0 before the first.
gjalvorn_found gjalvorn_job_number(gjalvorn_system system, uint8_t gang);

// The lowest owing core, or 255.
gjalvorn_found gjalvorn_lowest_owing(gjalvorn_system system);

// How many cores owe.
gjalvorn_found gjalvorn_owing_count(gjalvorn_system system);

// Why a thread is running or is not: the first reason of enum gjalvorn_reason that holds, and the thread or the gang that it names.
gjalvorn_reason_found gjalvorn_why(gjalvorn_system system, uint8_t thread);

#ifdef __cplusplus
}
#endif

#endif
