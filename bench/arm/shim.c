// The calls of the proved library that are timed, with pointers in the place of structs. It is compiled as x86-64 C, so that structs go in
// and out as the library has them, and then for the machine's own processor; pointers and sizes go in alike on both.
// Each call copies the system as often as the Rust bindings' call does on x86-64: bench_apply never, the others twice on the way in and
// once back into the caller's.
#include "gjalvorn.h"

typedef struct bench_ends {
    size_t read;
    size_t written;
    uint8_t number;
} bench_ends;

void bench_apply(gjalvorn_system *system, const gjalvorn_event *event, gjalvorn_answer *answer) {
    *answer = gjalvorn_apply_to(system, *event);
}

void bench_applied(gjalvorn_system *system, const gjalvorn_event *event, gjalvorn_answer *answer) {
    gjalvorn_answered done = gjalvorn_apply(*system, *event);
    *system = done.system;
    *answer = done.answer;
}

void bench_batch(gjalvorn_system *system, const uint8_t *events, size_t length, uint8_t *out, size_t room, bench_ends *ends) {
    gjalvorn_batched done = gjalvorn_batch(*system, events, length, out, room);
    *system = done.system;
    *ends = (bench_ends){done.read, done.written, done.number};
}
