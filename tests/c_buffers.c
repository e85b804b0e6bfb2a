/* c_buffers CONFIG: buffers and blackboards, by the rules of docs/C.md. The partition has its windows from 10 to 30 of
 * each 100 nanoseconds. Prints how many answers were seen. */
#include "../c/bench_objects.h"
#include "c_process_test.h"

enum { FIRST = 1, NONE = 2 };

static QUEUING_DISCIPLINE_TYPE discipline;

static void sends(APEX_BYTE byte, SYSTEM_TIME_TYPE time_out, RETURN_CODE_TYPE wanted) {
    IS(wanted, SEND_BUFFER, FIRST, &byte, 1, time_out);
}

/* Receives a message, which must be this byte if it comes. */
static void receives(SYSTEM_TIME_TYPE time_out, RETURN_CODE_TYPE wanted, APEX_BYTE byte) {
    APEX_BYTE message[4] = {0};
    MESSAGE_SIZE_TYPE length = MINE;
    const bool is_asked = wanted == NO_ERROR || wanted == NOT_AVAILABLE || wanted == TIMED_OUT;
    IS(wanted, RECEIVE_BUFFER, FIRST, time_out, message, &length);
    expect(length == (wanted == NO_ERROR ? 1 : is_asked ? 0 : MINE), "the length");
    expect(message[0] == (wanted == NO_ERROR ? byte : 0), "the message");
}

static void buffer_is(MESSAGE_RANGE_TYPE messages, WAITING_RANGE_TYPE processes) {
    BUFFER_STATUS_TYPE status;
    IS(NO_ERROR, GET_BUFFER_STATUS, FIRST, &status);
    expect(status.NB_MESSAGE == messages && status.WAITING_PROCESSES == processes, "what waits at the buffer");
}

static void create_buffer(MESSAGE_RANGE_TYPE depth) {
    BUFFER_NAME_TYPE name = "BUFFER";
    BUFFER_ID_TYPE id = MINE;
    IS(NO_ERROR, CREATE_BUFFER, name, 4, depth, discipline, &id);
    expect(id == FIRST, "the first identifier");
}

/* The return codes. */

static void wrong_buffers(void) {
    BUFFER_NAME_TYPE name = "WRONG", none = "";
    BUFFER_ID_TYPE id = MINE;
    IS(INVALID_PARAM, CREATE_BUFFER, NULL, 4, 2, FIFO, &id);
    IS(INVALID_PARAM, CREATE_BUFFER, name, 4, 2, FIFO, NULL);
    IS(INVALID_PARAM, CREATE_BUFFER, none, 4, 2, FIFO, &id);
    IS(INVALID_PARAM, CREATE_BUFFER, name, 0, 2, FIFO, &id);
    IS(INVALID_PARAM, CREATE_BUFFER, name, SYSTEM_LIMIT_MESSAGE_SIZE + 1, 2, FIFO, &id);
    IS(INVALID_PARAM, CREATE_BUFFER, name, 4, 0, FIFO, &id);
    IS(INVALID_PARAM, CREATE_BUFFER, name, 4, SYSTEM_LIMIT_NUMBER_OF_MESSAGES + 1, FIFO, &id);
    IS(INVALID_PARAM, CREATE_BUFFER, name, 4, 2, (QUEUING_DISCIPLINE_TYPE)2, &id);
    IS(INVALID_CONFIG, GET_BUFFER_ID, name, &id);
    expect(id == MINE, "the place for the identifier");
}

static void refused_calls(void) {
    APEX_BYTE message[8] = {1, 2, 3, 4, 5};
    MESSAGE_SIZE_TYPE length = MINE;
    BUFFER_STATUS_TYPE status;
    for (BUFFER_ID_TYPE id = 0; id <= NONE; id += NONE) {
        IS(INVALID_PARAM, SEND_BUFFER, id, message, 1, 0);
        IS(INVALID_PARAM, RECEIVE_BUFFER, id, 0, message, &length);
        IS(INVALID_PARAM, GET_BUFFER_STATUS, id, &status);
    }
    IS(INVALID_PARAM, SEND_BUFFER, FIRST, NULL, 1, 0);
    IS(INVALID_PARAM, SEND_BUFFER, FIRST, message, 0, 0);
    IS(INVALID_PARAM, SEND_BUFFER, FIRST, message, -1, 0);
    IS(INVALID_PARAM, SEND_BUFFER, FIRST, message, 5, 0);
    IS(INVALID_PARAM, RECEIVE_BUFFER, FIRST, 0, NULL, &length);
    IS(INVALID_PARAM, RECEIVE_BUFFER, FIRST, 0, message, NULL);
    IS(INVALID_PARAM, GET_BUFFER_STATUS, FIRST, NULL);
    expect(length == MINE, "the place for the length");
    sends(1, -2, INVALID_PARAM);
    sends(1, INT64_MAX, INVALID_PARAM);
    receives(-2, INVALID_PARAM, 0);
    receives(INT64_MAX, INVALID_PARAM, 0);
}

/* What a main process may do, which may not wait. */
static void codes_main(void) {
    BUFFER_NAME_TYPE name = "BUFFER";
    BUFFER_ID_TYPE id = MINE;
    BUFFER_STATUS_TYPE status;
    wrong_buffers();
    create_buffer(2);
    IS(NO_ACTION, CREATE_BUFFER, name, 0, 0, FIFO, &id);
    IS(NO_ERROR, GET_BUFFER_ID, name, &id);
    expect(id == FIRST, "the identifier");
    refused_calls();
    receives(1, INVALID_MODE, 0);
    receives(INFINITE_TIME_VALUE, INVALID_MODE, 0);
    receives(0, NOT_AVAILABLE, 0);
    sends(1, 1, INVALID_MODE);
    for (APEX_BYTE i = 1; i <= 5; i++) { /* round and round */
        sends(i, 0, NO_ERROR);
        sends((APEX_BYTE)(i + 10), 0, NO_ERROR);
        sends(9, 0, NOT_AVAILABLE);
        receives(0, NO_ERROR, i);
        receives(0, NO_ERROR, (APEX_BYTE)(i + 10));
    }
    sends(1, 0, NO_ERROR);
    IS(NO_ERROR, GET_BUFFER_STATUS, FIRST, &status);
    expect(status.NB_MESSAGE == 1 && status.MAX_NB_MESSAGE == 2 && status.MAX_MESSAGE_SIZE == 4 &&
               status.WAITING_PROCESSES == 0, "the status");
    for (int i = 2; i <= MAX_NUMBER_OF_BUFFERS; i++) {
        name[0] = (char)('A' + i);
        IS(NO_ERROR, CREATE_BUFFER, name, SYSTEM_LIMIT_MESSAGE_SIZE, SYSTEM_LIMIT_NUMBER_OF_MESSAGES, PRIORITY, &id);
        expect(id == i, "the next identifier");
    }
    IS(INVALID_CONFIG, CREATE_BUFFER, name, 4, 2, FIFO, &id);
}

static void no_process(void) {
    BUFFER_NAME_TYPE name = "BUFFER";
    BUFFER_ID_TYPE id = MINE;
    APEX_BYTE byte = 1;
    IS(INVALID_CONFIG, CREATE_BUFFER, name, 4, 2, FIFO, &id);
    IS(INVALID_CONFIG, SEND_BUFFER, FIRST, &byte, 1, 0);
    CREATE_BUFFER(name, 4, 2, FIFO, &id, NULL);
    expect(id == MINE, "the place for the identifier");
}

/* In NORMAL nothing is created. While preemption is locked no process may wait, and one that is served runs after the
 * unlock. */

static void locks(void) {
    BUFFER_NAME_TYPE name = "LATE";
    BUFFER_ID_TYPE id;
    LOCK_LEVEL_TYPE level;
    IS(INVALID_MODE, CREATE_BUFFER, name, 4, 2, FIFO, &id);
    IS(NO_ERROR, LOCK_PREEMPTION, &level);
    sends(1, 1, INVALID_MODE);
    buffer_is(0, 1);
    sends(1, 0, NO_ERROR);
    buffer_is(0, 0);
    receives(1, INVALID_MODE, 0);
    leave('l');
    IS(NO_ERROR, UNLOCK_PREEMPTION, &level);
    leave('l');
    STOP_SELF();
}

static void receives_high(void) {
    receives(INFINITE_TIME_VALUE, NO_ERROR, 1);
    leave('h');
    STOP_SELF();
}

static void locking_main(void) {
    create_buffer(2);
    start_at(9, "HIGH", receives_high);
    start_at(5, "LOCKS", locks);
    set_mode(NORMAL);
}

/* Three receivers wait, 1 first and then 2 and 3; each that is served runs at once. */

static void receives_one(void) {
    PROCESS_ID_TYPE me;
    IS(NO_ERROR, GET_MY_ID, &me);
    IS(NO_ERROR, TIMED_WAIT, me - 1);
    const APEX_BYTE by_priority[] = {0, 3, 1, 2};
    receives(INFINITE_TIME_VALUE, NO_ERROR, discipline == FIFO ? (APEX_BYTE)me : by_priority[me]);
    leave((char)('0' + me));
    STOP_SELF();
}

static void sends_three(void) {
    IS(NO_ERROR, TIMED_WAIT, 5);
    buffer_is(0, 3);
    for (APEX_BYTE i = 1; i <= 3; i++) {
        sends(i, 0, NO_ERROR);
    }
    buffer_is(0, 0);
    leave('s');
    STOP_SELF();
}

static void receivers_main(void) {
    create_buffer(2);
    start_at(5, "LOW", receives_one);
    start_at(9, "HIGH", receives_one);
    start_at(7, "MIDDLE", receives_one);
    start_at(1, "SENDS", sends_three);
    set_mode(NORMAL);
}

/* Two senders wait for room, 1 with two messages. With each message that is received one of a sender is there. */

static void sends_two(void) {
    sends(1, INFINITE_TIME_VALUE, NO_ERROR);
    leave('1');
    sends(2, INFINITE_TIME_VALUE, NO_ERROR);
    leave('1');
    STOP_SELF();
}

static void sends_one(void) {
    IS(NO_ERROR, TIMED_WAIT, 1);
    sends(3, INFINITE_TIME_VALUE, NO_ERROR);
    leave('2');
    STOP_SELF();
}

static void receives_three(void) {
    IS(NO_ERROR, TIMED_WAIT, 2);
    buffer_is(1, 2);
    receives(0, NO_ERROR, 1);
    buffer_is(1, 1);
    receives(0, NO_ERROR, discipline == FIFO ? 2 : 3);
    buffer_is(1, 0);
    receives(0, NO_ERROR, discipline == FIFO ? 3 : 2);
    receives(0, NOT_AVAILABLE, 0);
    leave('r');
    STOP_SELF();
}

static void senders_main(void) {
    create_buffer(1);
    start_at(5, "TWO", sends_two);
    start_at(9, "ONE", sends_one);
    start_at(1, "RECEIVES", receives_three);
    set_mode(NORMAL);
}

/* Time-outs: a message at the very end counts if its sender runs before. */

static bool is_sender_first;

static void receives_within(void) {
    receives(5, is_sender_first ? NO_ERROR : TIMED_OUT, 4);
    leave('r');
    receives(INFINITE_TIME_VALUE, NO_ERROR, is_sender_first ? 5 : 4);
    leave('r');
    STOP_SELF();
}

static void sends_at_end(void) {
    IS(NO_ERROR, TIMED_WAIT, 5);
    sends(4, 0, NO_ERROR);
    leave('s');
    IS(NO_ERROR, TIMED_WAIT, 1);
    if (is_sender_first) {
        sends(5, 0, NO_ERROR);
    }
    leave('s');
    STOP_SELF();
}

static void ends_main(void) {
    create_buffer(2);
    if (is_sender_first) {
        start_at(5, "SENDS", sends_at_end);
    }
    start_at(5, "RECEIVES", receives_within);
    if (!is_sender_first) {
        start_at(5, "SENDS", sends_at_end);
    }
    set_mode(NORMAL);
}

/* A time-out that passes outside of the windows has passed for a sender that runs before; the message stays. */

static void receives_outside(void) {
    receives(30, TIMED_OUT, 0);
    leave('r');
    receives(0, NO_ERROR, 4);
    STOP_SELF();
}

static void sends_outside(void) {
    IS(NO_ERROR, TIMED_WAIT, 50);
    buffer_is(0, 0);
    sends(4, 0, NO_ERROR);
    leave('s');
    STOP_SELF();
}

static void outside_main(void) {
    create_buffer(1);
    start_at(5, "RECEIVES", receives_outside);
    start_at(9, "SENDS", sends_outside);
    set_mode(NORMAL);
}

/* A sender's time-out: its message is none. */

static void sends_full(void) {
    sends(1, 0, NO_ERROR);
    sends(2, 3, TIMED_OUT);
    leave('f');
    buffer_is(1, 0);
    receives(0, NO_ERROR, 1);
    receives(0, NOT_AVAILABLE, 0);
    STOP_SELF();
}

static void full_main(void) {
    create_buffer(1);
    start_at(5, "FULL", sends_full);
    set_mode(NORMAL);
}

/* Who is stopped waits no more; who is suspended is served, and runs when it is resumed. */

static void waits_stopped(void) {
    receives(INFINITE_TIME_VALUE, NO_ERROR, 1);
    expect(false, "a process that was stopped");
}

static void waits_suspended(void) {
    receives(INFINITE_TIME_VALUE, NO_ERROR, 1);
    leave('w');
    STOP_SELF();
}

static void stops_and_suspends(void) {
    buffer_is(0, 2);
    IS(NO_ERROR, STOP, 1);
    IS(NO_ERROR, SUSPEND, 2);
    buffer_is(0, 1);
    IS(NO_ERROR, DELAYED_START, 1, 50); /* it hasn't run again yet */
    buffer_is(0, 1);
    sends(1, 0, NO_ERROR);
    buffer_is(0, 0);
    leave('s');
    IS(NO_ERROR, RESUME, 2);
    leave('s');
    STOP_SELF();
}

static void stopping_main(void) {
    create_buffer(1);
    start_at(9, "STOPPED", waits_stopped);
    start_at(8, "SUSPENDED", waits_suspended);
    start_at(5, "STOPS", stops_and_suspends);
    set_mode(NORMAL);
}

/* A restart leaves no buffer. */

static int starts;

static void restarts(void) {
    sends(1, 0, NO_ERROR);
    leave('r');
    set_mode(starts == 1 ? WARM_START : IDLE);
}

static void restarting_main(void) {
    BUFFER_NAME_TYPE name = "BUFFER";
    BUFFER_ID_TYPE id;
    starts++;
    IS(INVALID_CONFIG, GET_BUFFER_ID, name, &id);
    create_buffer(1);
    buffer_is(0, 0);
    start_at(5, "RESTARTS", restarts);
    set_mode(NORMAL);
}

/* Blackboards. */

static void displays(APEX_BYTE byte) { IS(NO_ERROR, DISPLAY_BLACKBOARD, FIRST, &byte, 1); }

static void reads(SYSTEM_TIME_TYPE time_out, RETURN_CODE_TYPE wanted, APEX_BYTE byte) {
    APEX_BYTE message[4] = {0};
    MESSAGE_SIZE_TYPE length = MINE;
    const bool is_asked = wanted == NO_ERROR || wanted == NOT_AVAILABLE || wanted == TIMED_OUT;
    IS(wanted, READ_BLACKBOARD, FIRST, time_out, message, &length);
    expect(length == (wanted == NO_ERROR ? 1 : is_asked ? 0 : MINE), "the length");
    expect(message[0] == (wanted == NO_ERROR ? byte : 0), "the message");
}

static void board_is(EMPTY_INDICATOR_TYPE is_empty, WAITING_RANGE_TYPE processes) {
    BLACKBOARD_STATUS_TYPE status;
    IS(NO_ERROR, GET_BLACKBOARD_STATUS, FIRST, &status);
    expect(status.EMPTY_INDICATOR == is_empty && status.WAITING_PROCESSES == processes &&
               status.MAX_MESSAGE_SIZE == 4, "the blackboard's status");
}

static void create_board(void) {
    BLACKBOARD_NAME_TYPE name = "BUFFER"; /* the name of a buffer is none of a blackboard */
    BLACKBOARD_ID_TYPE id = MINE;
    IS(NO_ERROR, CREATE_BLACKBOARD, name, 4, &id);
    expect(id == FIRST, "the first identifier");
}

static void refused_boards(void) {
    BLACKBOARD_NAME_TYPE name = "WRONG", none = "";
    BLACKBOARD_ID_TYPE id = MINE;
    IS(INVALID_PARAM, CREATE_BLACKBOARD, NULL, 4, &id);
    IS(INVALID_PARAM, CREATE_BLACKBOARD, name, 4, NULL);
    IS(INVALID_PARAM, CREATE_BLACKBOARD, none, 4, &id);
    IS(INVALID_PARAM, CREATE_BLACKBOARD, name, 0, &id);
    IS(INVALID_PARAM, CREATE_BLACKBOARD, name, SYSTEM_LIMIT_MESSAGE_SIZE + 1, &id);
    IS(INVALID_CONFIG, GET_BLACKBOARD_ID, name, &id);
    expect(id == MINE, "the place for the identifier");
}

static void refused_readings(void) {
    APEX_BYTE message[8] = {1};
    MESSAGE_SIZE_TYPE length = MINE;
    BLACKBOARD_STATUS_TYPE status;
    for (BLACKBOARD_ID_TYPE id = 0; id <= NONE; id += NONE) {
        IS(INVALID_PARAM, DISPLAY_BLACKBOARD, id, message, 1);
        IS(INVALID_PARAM, READ_BLACKBOARD, id, 0, message, &length);
        IS(INVALID_PARAM, CLEAR_BLACKBOARD, id);
        IS(INVALID_PARAM, GET_BLACKBOARD_STATUS, id, &status);
    }
    IS(INVALID_PARAM, DISPLAY_BLACKBOARD, FIRST, NULL, 1);
    IS(INVALID_PARAM, DISPLAY_BLACKBOARD, FIRST, message, 0);
    IS(INVALID_PARAM, DISPLAY_BLACKBOARD, FIRST, message, 5);
    IS(INVALID_PARAM, READ_BLACKBOARD, FIRST, 0, NULL, &length);
    IS(INVALID_PARAM, READ_BLACKBOARD, FIRST, 0, message, NULL);
    reads(-2, INVALID_PARAM, 0);
    reads(1, INVALID_MODE, 0);
    expect(length == MINE, "the place for the length");
}

static void boards_main(void) {
    BLACKBOARD_NAME_TYPE name = "BUFFER";
    BLACKBOARD_ID_TYPE id = MINE;
    create_buffer(1);
    refused_boards();
    create_board();
    refused_readings();
    IS(NO_ACTION, CREATE_BLACKBOARD, name, 0, &id);
    IS(NO_ERROR, GET_BLACKBOARD_ID, name, &id);
    expect(id == FIRST, "the identifier");
    board_is(EMPTY, 0);
    reads(0, NOT_AVAILABLE, 0);
    displays(1);
    displays(2);
    board_is(OCCUPIED, 0);
    reads(0, NO_ERROR, 2);
    reads(0, NO_ERROR, 2);
    IS(NO_ERROR, CLEAR_BLACKBOARD, FIRST);
    board_is(EMPTY, 0);
    reads(0, NOT_AVAILABLE, 0);
    for (int i = 2; i <= MAX_NUMBER_OF_BLACKBOARDS; i++) {
        name[0] = (char)('A' + i);
        IS(NO_ERROR, CREATE_BLACKBOARD, name, SYSTEM_LIMIT_MESSAGE_SIZE, &id);
    }
    IS(INVALID_CONFIG, CREATE_BLACKBOARD, name, 4, &id);
}

/* All that wait read what is displayed; who runs first is a matter of priorities, and then of arrival. */

static void reads_one(void) {
    PROCESS_ID_TYPE me;
    IS(NO_ERROR, GET_MY_ID, &me);
    IS(NO_ERROR, TIMED_WAIT, 4 - me);
    reads(me == 1 ? 2 : INFINITE_TIME_VALUE, me == 1 ? TIMED_OUT : NO_ERROR, 7);
    leave((char)('0' + me));
    STOP_SELF();
}

static void displays_one(void) {
    BLACKBOARD_NAME_TYPE name = "LATE";
    BLACKBOARD_ID_TYPE id;
    IS(INVALID_MODE, CREATE_BLACKBOARD, name, 4, &id);
    IS(NO_ERROR, TIMED_WAIT, 6);
    board_is(EMPTY, 3);
    displays(7);
    board_is(OCCUPIED, 0);
    leave('d');
    reads(INFINITE_TIME_VALUE, NO_ERROR, 7);
    IS(NO_ERROR, CLEAR_BLACKBOARD, FIRST);
    reads(3, TIMED_OUT, 0);
    leave('d');
    STOP_SELF();
}

static void reading_main(void) {
    create_board();
    start_at(5, "LATE", reads_one);
    start_at(5, "EARLY", reads_one);
    start_at(9, "HIGH", reads_one);
    start_at(5, "FIRST", reads_one);
    start_at(5, "DISPLAYS", displays_one);
    set_mode(NORMAL);
}

static void play(QUEUING_DISCIPLINE_TYPE by, void (*entry)(void), int frames, const char *wanted) {
    discipline = by;
    run_frames(entry, frames);
    has_left(wanted);
}

static void buffers(void) {
    play(FIFO, codes_main, 1, "");
    play(FIFO, locking_main, 1, "l@10 h@10 l@10 ");
    play(FIFO, receivers_main, 1, "1@15 2@15 3@15 s@15 ");
    play(PRIORITY, receivers_main, 1, "2@15 3@15 1@15 s@15 ");
    play(FIFO, senders_main, 1, "1@10 1@12 2@12 r@12 ");
    play(PRIORITY, senders_main, 1, "1@10 2@12 1@12 r@12 ");
    is_sender_first = true;
    play(FIFO, ends_main, 1, "s@15 r@15 s@16 r@16 ");
    is_sender_first = false;
    play(FIFO, ends_main, 1, "r@15 s@15 r@15 s@16 ");
    play(FIFO, outside_main, 2, "s@110 r@110 ");
    play(FIFO, full_main, 1, "f@13 ");
    play(FIFO, stopping_main, 1, "s@10 w@10 s@10 ");
    play(FIFO, restarting_main, 3, "r@10 r@110 ");
}

int main(int count, char **words) {
    expect(count == 2, "usage: c_buffers CONFIG");
    text_length = read_config(words[1], text, sizeof text);
    no_process();
    buffers();
    play(FIFO, boards_main, 1, "");
    play(FIFO, reading_main, 1, "1@15 3@16 d@16 4@16 2@16 d@19 ");
    printf("%lu answers\n", seen);
    return 0;
}
