/* Exports of apex_ports.h that only note what they are given, for a test of the shim alone: each call is noted with the
 * service's name, and is answered as the test set it. The lock and the clock are noted too (linked with --wrap for
 * pthread_mutex_lock, pthread_mutex_unlock and clock_gettime). */
#ifndef C_NOTED_H
#define C_NOTED_H

#include "../c/apex.h"

enum { TEXT_LIMIT = 64, NOTES = 4 };

/* One call of an export: its parameters in order, each number in `numbers`. */
struct noted {
    const char *service;
    struct apex_handle *handle;
    uint32_t partition;
    uint64_t at;
    const void *address;
    size_t length;
    uint8_t text[TEXT_LIMIT]; /* the first bytes at the address, where they go into the call */
    uint64_t numbers[4];
};

extern struct noted noted[NOTES];
extern unsigned noted_count;

/* What the exports answer: the first call, and those after it. */
extern uint32_t answer_now, answer_after;

/* What is given if the answer is 0: each number another, so that no two can be exchanged. */
enum {
    GIVEN_ID = 0x01020304,
    GIVEN_LENGTH = 6,
    GIVEN_VALIDITY = 42,
    GIVEN_DEPTH = 102,
    GIVEN_WAITING = 101,
    GIVEN_SIZE = 103,
    GIVEN_DIRECTION = 41
};
#define GIVEN_REFRESH ((uint64_t)7 << 33)
extern const uint8_t given_message[GIVEN_LENGTH];

/* How often the lock was taken, whether it is held, how often the clock was read, and the moment that it shows next. */
extern unsigned locks, reads_of_clock;
extern int held;
uint64_t next_moment(void);

#endif
