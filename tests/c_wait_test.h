/* What the tests of waiting on queuing ports have in common: A has its windows from 0 and B from 50 of each 100
 * nanoseconds, for 20. */
#ifndef C_WAIT_TEST_H
#define C_WAIT_TEST_H

#include "c_process_test.h"

enum { Q_OUT = 1, R_IN = 2, Q_IN = 1, R_OUT = 2, S_OUT = 3, S_IN = 4 };

static QUEUING_DISCIPLINE_TYPE discipline;

static inline void create_port(char *name, MESSAGE_SIZE_TYPE size, MESSAGE_RANGE_TYPE depth,
                               PORT_DIRECTION_TYPE direction) {
    NAME_TYPE padded;
    QUEUING_PORT_ID_TYPE id;
    RETURN_CODE_TYPE code;
    bench_name(padded, name);
    CREATE_QUEUING_PORT(padded, size, depth, direction, discipline, &id, &code);
    answers(code, NO_ERROR, "CREATE_QUEUING_PORT");
}

static inline void create_ports_of_a(void) {
    create_port("Q_OUT", 64, 4, SOURCE);
    create_port("R_IN", 4, 1, DESTINATION);
}

static inline void create_ports_of_b(void) {
    create_port("Q_IN", 64, 4, DESTINATION);
    create_port("R_OUT", 4, 1, SOURCE);
    create_port("S_OUT", 4, 1, SOURCE);
    create_port("S_IN", 4, 1, DESTINATION);
}

static inline void sends(QUEUING_PORT_ID_TYPE id, APEX_BYTE byte, SYSTEM_TIME_TYPE time_out, RETURN_CODE_TYPE wanted) {
    RETURN_CODE_TYPE code;
    SEND_QUEUING_MESSAGE(id, &byte, 1, time_out, &code);
    answers(code, wanted, "SEND_QUEUING_MESSAGE");
}

/* Receives a message, which has to be this byte where it comes. */
static inline void receives(QUEUING_PORT_ID_TYPE id, SYSTEM_TIME_TYPE time_out, RETURN_CODE_TYPE wanted,
                            APEX_BYTE byte) {
    APEX_BYTE message[64] = {0};
    MESSAGE_SIZE_TYPE length = -1;
    RETURN_CODE_TYPE code;
    RECEIVE_QUEUING_MESSAGE(id, time_out, message, &length, &code);
    answers(code, wanted, "RECEIVE_QUEUING_MESSAGE");
    if (code != INVALID_MODE && code != INVALID_PARAM) {
        expect(length == (code == NO_ERROR ? 1 : 0), "the length");
    }
    expect(message[0] == (code == NO_ERROR ? byte : 0), "the message");
}

static inline void waits_for(SYSTEM_TIME_TYPE delay) {
    RETURN_CODE_TYPE code;
    TIMED_WAIT(delay, &code);
    answers(code, NO_ERROR, "TIMED_WAIT");
}

static inline void open_both(void (*a)(void), void (*b)(void)) {
    const struct bench_partition first = {a, PERIOD, 0, WINDOW}, second = {b, PERIOD, 50, WINDOW};
    expect(bench_open(text, text_length) == 0, "opening");
    expect(bench_add_partition(0, &first) && bench_add_partition(1, &second), "adding");
}

static inline void run_both(int frames) {
    for (int i = 0; i < frames; i++) {
        expect(bench_run_frame(PERIOD), "a frame");
    }
}

static inline void close_both(void) {
    bench_end_processes();
    expect(bench_close() == 0, "closing");
}

static inline void play(void (*a)(void), void (*b)(void), int frames, const char *wanted) {
    open_both(a, b);
    run_both(frames);
    close_both();
    has_left(wanted);
}

static inline uint64_t calls_of(uint32_t partition) {
    uint64_t count = 0;
    apex_call_count(bench_take_handle(), partition, &count);
    bench_give_handle_back();
    return count;
}

static inline void idle_forever(void) {
    create_ports_of_a();
    set_mode(NORMAL);
}

#endif
