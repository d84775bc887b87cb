// Comparisons by name: a mismatch is told and counted.
#ifndef CHECK_H
#define CHECK_H

#include "gjalvorn.h"

void expect(const char *what, uint64_t seen, uint64_t wanted);

// Place by place, `count` of them.
void expect_u8s(const char *what, const uint8_t *seen, const uint8_t *wanted, size_t count);
void expect_u32s(const char *what, const uint32_t *seen, const uint32_t *wanted, size_t count);

// Field by field. A comparison of memory would take in the padding, which holds anything.
void expect_table(const gjalvorn_table *seen, const gjalvorn_table *wanted);
void expect_ledger(const gjalvorn_ledger *seen, const gjalvorn_ledger *wanted);
void expect_lock(const gjalvorn_lock *seen, const gjalvorn_lock *wanted);
void expect_system(const gjalvorn_system *seen, const gjalvorn_system *wanted);
void expect_answer(const gjalvorn_answer *seen, const gjalvorn_answer *wanted);
void expect_reason_found(gjalvorn_reason_found seen, gjalvorn_reason_found wanted);

// The answer of an event that this system refuses.
gjalvorn_answer refused_answer(const gjalvorn_system *system, uint8_t refusal);

// The system after an event that is to be accepted.
gjalvorn_system accepted(const char *event, gjalvorn_answered answered);

// How many mismatches there were so far.
size_t mismatches(void);

#endif
