#include "records.h"

// Document 01's list of lengths.
enum { CORES_LENGTH = 3, GANG_LENGTH = 7, THREAD_LENGTH = 4, EVENT_LENGTH = 3, TICK_LENGTH = 2, ANSWER_LENGTH = 16 };

enum { BYTE_BITS = 8, HALF_BITS = 16 };

void put_u8(records *to, uint8_t byte)
{
    to->bytes[to->length] = byte;
    to->length++;
}

static void put_u16(records *to, uint16_t number)
{
    put_u8(to, (uint8_t)number);
    put_u8(to, (uint8_t)(number >> BYTE_BITS));
}

static void put_u32(records *to, uint32_t number)
{
    put_u16(to, (uint16_t)number);
    put_u16(to, (uint16_t)(number >> HALF_BITS));
}

static void put_header(records *to, uint16_t length, uint16_t kind)
{
    put_u16(to, length);
    put_u16(to, kind);
}

void put_cores(records *to, uint8_t count)
{
    put_header(to, CORES_LENGTH, GJALVORN_CORES);
    put_u8(to, count);
}

void put_gang(records *to, uint8_t priority, uint32_t budget)
{
    put_header(to, GANG_LENGTH, GJALVORN_GANG);
    put_u8(to, priority);
    put_u32(to, budget);
}

void put_thread(records *to, uint8_t gang, uint8_t core)
{
    put_header(to, THREAD_LENGTH, GJALVORN_THREAD);
    put_u8(to, gang);
    put_u8(to, core);
}

void put_event(records *to, uint16_t kind, uint8_t number)
{
    put_header(to, EVENT_LENGTH, kind);
    put_u8(to, number);
}

void put_tick(records *to)
{
    put_header(to, TICK_LENGTH, GJALVORN_TICK);
}

void put_answer(records *to, gjalvorn_answer answer)
{
    put_header(to, ANSWER_LENGTH, GJALVORN_ANSWER);
    put_u8(to, answer.refusal);
    put_u8(to, answer.value);
    put_u32(to, answer.number);
    put_u32(to, answer.owing);
    put_u32(to, answer.locked);
}
