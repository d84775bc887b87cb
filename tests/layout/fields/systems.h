// Systems over the largest table there is, made by the library's calls and made by the header's field names: the two must be equal.
#ifndef SYSTEMS_H
#define SYSTEMS_H

#include "gjalvorn.h"
#include "records.h"

enum { THREADS_PER_CORE = GJALVORN_MAX_THREADS / GJALVORN_MAX_CORES };

// The largest table: priorities go up with the gang's number; threads t, t + 32, .. are of one gang, and four in a row share a core.
uint8_t full_priority(uint8_t gang);
uint32_t full_budget(uint8_t gang);
uint8_t full_gang(uint8_t thread);
uint8_t full_core(uint8_t thread);
records full_records(void);

// The system that the largest table is read into, by names.
gjalvorn_system full_named(void);

// The same one with a lock that the thread's gang holds by the thread's core alone, by names.
gjalvorn_system full_held_by(uint8_t thread);

// A fresh system whose numbers of cores, gangs and threads differ, by names.
enum { UNEVEN_CORES = 30, UNEVEN_GANGS = 31, UNEVEN_THREADS = 100 };
gjalvorn_system uneven_named(void);

// A system with no unused place and values that tell the places apart: by events, and by names.
gjalvorn_system known_driven(void);
gjalvorn_system known_named(void);

// The core set that has one core.
uint32_t only(uint8_t core);

#endif
