// Lists a recording, a table and then events, in document 01's lines; or asks about the system that its events lead to.
//
//   worked FILE              a line for each event
//   worked FILE questions    what the questions find after the last event
//
// On x86-64, once `rt lib` has been run in crates/ffi: gcc -std=c99 -Iinclude examples/c/worked.c crates/ffi/out/libffi.a -o worked
#include "gjalvorn.h"

#include <inttypes.h>
#include <stdbool.h>
#include <stdio.h>
#include <stdlib.h>
#include <string.h>

// The longest recording that document 01's listing takes, and the shortest record: a TICK, or any other record's header.
enum { INPUT_MAX = 32768, HEADER_SIZE = 4 };

// Where the parts of a record stand, and those of an ANSWER's payload.
enum { LENGTH_AT = 0, KIND_AT = 2, REFUSAL_AT = 4, VALUE_AT = 5, NUMBER_AT = 6, OWING_AT = 10, LOCKED_AT = 14 };

// A recording: the bytes before `events` are its table. One byte more than is taken has room, so that a longer one is noticed.
typedef struct recording {
    uint8_t bytes[INPUT_MAX + 1];
    size_t length;
    size_t events;
} recording;

static uint16_t u16_at(const uint8_t *bytes)
{
    return (uint16_t)(bytes[0] | bytes[1] << 8);
}

static uint32_t u32_at(const uint8_t *bytes)
{
    return u16_at(bytes) | (uint32_t)u16_at(bytes + 2) << 16;
}

// The place of the first record with an event's kind; the end where there is none.
static size_t events_start(const uint8_t *bytes, size_t length)
{
    size_t at = 0;
    while (length - at >= HEADER_SIZE) {
        if (u16_at(bytes + at + KIND_AT) >= GJALVORN_RELEASE)
            return at;
        // The length does not count its own two bytes.
        size_t size = (size_t)u16_at(bytes + at + LENGTH_AT) + KIND_AT;
        if (size > length - at)
            break;
        at += size;
    }
    return length;
}

static bool load(const char *path, recording *rec)
{
    FILE *file = fopen(path, "rb");
    if (file == NULL) {
        perror(path);
        return false;
    }
    rec->length = fread(rec->bytes, 1, sizeof rec->bytes, file);
    bool sound = !ferror(file);
    fclose(file);
    if (!sound) {
        fprintf(stderr, "%s: cannot be read\n", path);
        return false;
    }
    rec->events = events_start(rec->bytes, rec->length);
    return true;
}

static gjalvorn_answer answer_in(const uint8_t *record)
{
    gjalvorn_answer answer = {
        .refusal = record[REFUSAL_AT],
        .value = record[VALUE_AT],
        .number = u32_at(record + NUMBER_AT),
        .owing = u32_at(record + OWING_AT),
        .locked = u32_at(record + LOCKED_AT),
    };
    return answer;
}

static void print_line(unsigned position, uint16_t kind, gjalvorn_answer answer, uint8_t holder)
{
    printf("%u %u %u %u %" PRIu32 " %08" PRIx32 " %08" PRIx32, position, kind, answer.refusal, answer.value, answer.number,
           answer.owing, answer.locked);
    if (holder == GJALVORN_NONE)
        puts(" -");
    else
        printf(" %u\n", holder);
}

// An ANSWER does not tell the holder, so each event needs the system that it leaves. Room for one answer stops the batch after one event.
static bool list(gjalvorn_system system, const recording *rec)
{
    uint8_t out[GJALVORN_ANSWER_SIZE];
    unsigned position = 1;
    size_t at = rec->events;
    while (at < rec->length) {
        gjalvorn_batched batched = gjalvorn_batch(system, rec->bytes + at, rec->length - at, out, sizeof out);
        if (batched.written == 0) {
            printf("stopped %u at %zu\n", batched.number, at);
            return false;
        }
        print_line(position, u16_at(rec->bytes + at + KIND_AT), answer_in(out), batched.system.lock.holder);
        system = batched.system;
        at += batched.read;
        position++;
    }
    return true;
}

static void ask_gang(gjalvorn_system system, uint8_t gang)
{
    printf("gang %u: release number %" PRIu32 ", served %" PRIu32 ", skipped %" PRIu32 ", job %" PRIu32 "\n", gang,
           gjalvorn_release_number(system, gang).value, gjalvorn_served(system, gang).value,
           gjalvorn_skipped(system, gang).value, gjalvorn_job_number(system, gang).value);
}

static void ask_core(gjalvorn_system system, uint8_t core)
{
    printf("core %u: occupant %" PRIu32 ", stopped %" PRIu32 "\n", core, gjalvorn_occupant(system, core).value,
           gjalvorn_stopped(system, core).value);
}

static void ask_thread(gjalvorn_system system, uint8_t thread)
{
    gjalvorn_reason_found why = gjalvorn_why(system, thread);
    printf("thread %u: reason %u, which %u\n", thread, why.reason, why.which);
}

// All the events in one batch, with room for every answer, and then the questions.
static bool ask(gjalvorn_system system, const recording *rec)
{
    static uint8_t out[INPUT_MAX / HEADER_SIZE * GJALVORN_ANSWER_SIZE];
    gjalvorn_batched batched = gjalvorn_batch(system, rec->bytes + rec->events, rec->length - rec->events, out, sizeof out);
    if (batched.number != GJALVORN_ACCEPTED) {
        printf("stopped %u at %zu\n", batched.number, rec->events + batched.read);
        return false;
    }
    for (uint8_t gang = 0; gang < system.table.sizes.gangs; gang++)
        ask_gang(batched.system, gang);
    for (uint8_t core = 0; core < system.table.sizes.cores; core++)
        ask_core(batched.system, core);
    for (uint8_t thread = 0; thread < system.table.sizes.threads; thread++)
        ask_thread(batched.system, thread);
    printf("owing: %" PRIu32 " cores, the lowest %" PRIu32 "\n", gjalvorn_owing_count(batched.system).value,
           gjalvorn_lowest_owing(batched.system).value);
    return true;
}

int main(int argc, char **argv)
{
    static recording rec;
    bool questions = argc == 3 && strcmp(argv[2], "questions") == 0;
    if (argc != 2 && !questions) {
        fprintf(stderr, "usage: worked FILE [questions]\n");
        return EXIT_FAILURE;
    }
    if (!load(argv[1], &rec))
        return EXIT_FAILURE;
    if (rec.length > INPUT_MAX) {
        puts("input too long");
        return EXIT_FAILURE;
    }
    gjalvorn_read table = gjalvorn_read_table(rec.bytes, rec.events);
    if (table.number != GJALVORN_ACCEPTED) {
        printf("table refused %u at %zu\n", table.number, table.place);
        return EXIT_FAILURE;
    }
    bool done = questions ? ask(table.system, &rec) : list(table.system, &rec);
    return done ? EXIT_SUCCESS : EXIT_FAILURE;
}
