// The bytes of records, one after the other.
#ifndef RECORDS_H
#define RECORDS_H

#include "gjalvorn.h"

// Room for the largest table.
enum { RECORDS_ROOM = 2048 };

typedef struct records {
    uint8_t bytes[RECORDS_ROOM];
    size_t length;
} records;

void put_cores(records *to, uint8_t count);
void put_gang(records *to, uint8_t priority, uint32_t budget);
void put_thread(records *to, uint8_t gang, uint8_t core);

// RELEASE, FINISH, WAIT, WAKE or SERVE, with its gang, thread or core.
void put_event(records *to, uint16_t kind, uint8_t number);
void put_tick(records *to);

void put_answer(records *to, gjalvorn_answer answer);

// One byte, of a record or past the last one.
void put_u8(records *to, uint8_t byte);

#endif
