/* c_semaphores CONFIG: semaphores and events, by the rules of docs/C.md. The partition has its windows from 10 to 30 of
 * each 100 nanoseconds. Prints how many answers were seen. */
#include "../c/bench_objects.h"
#include "c_process_test.h"

enum { FIRST = 1, NONE = 2 };

static QUEUING_DISCIPLINE_TYPE discipline;

static void create_semaphore(SEMAPHORE_VALUE_TYPE value, SEMAPHORE_VALUE_TYPE limit) {
    SEMAPHORE_NAME_TYPE name = "SHARED";
    SEMAPHORE_ID_TYPE id = MINE;
    IS(NO_ERROR, CREATE_SEMAPHORE, name, value, limit, discipline, &id);
    expect(id == FIRST, "the first identifier");
}

static void semaphore_is(SEMAPHORE_VALUE_TYPE value, WAITING_RANGE_TYPE processes) {
    SEMAPHORE_STATUS_TYPE status;
    IS(NO_ERROR, GET_SEMAPHORE_STATUS, FIRST, &status);
    expect(status.CURRENT_VALUE == value && status.WAITING_PROCESSES == processes, "the semaphore's status");
}

/* The return codes, and what a main process may do, which may not wait. */

static void wrong_semaphores(void) {
    SEMAPHORE_NAME_TYPE name = "WRONG", none = "";
    SEMAPHORE_ID_TYPE id = MINE;
    IS(INVALID_PARAM, CREATE_SEMAPHORE, NULL, 1, 1, FIFO, &id);
    IS(INVALID_PARAM, CREATE_SEMAPHORE, name, 1, 1, FIFO, NULL);
    IS(INVALID_PARAM, CREATE_SEMAPHORE, none, 1, 1, FIFO, &id);
    IS(INVALID_PARAM, CREATE_SEMAPHORE, name, -1, 1, FIFO, &id);
    IS(INVALID_PARAM, CREATE_SEMAPHORE, name, 2, 1, FIFO, &id);
    IS(INVALID_PARAM, CREATE_SEMAPHORE, name, 1, MAX_SEMAPHORE_VALUE + 1, FIFO, &id);
    IS(INVALID_PARAM, CREATE_SEMAPHORE, name, 1, 1, (QUEUING_DISCIPLINE_TYPE)2, &id);
    IS(INVALID_CONFIG, GET_SEMAPHORE_ID, name, &id);
    expect(id == MINE, "the place for the identifier");
}

static void refused_calls(void) {
    SEMAPHORE_STATUS_TYPE status;
    for (SEMAPHORE_ID_TYPE id = 0; id <= NONE; id += NONE) {
        IS(INVALID_PARAM, WAIT_SEMAPHORE, id, 0);
        IS(INVALID_PARAM, SIGNAL_SEMAPHORE, id);
        IS(INVALID_PARAM, GET_SEMAPHORE_STATUS, id, &status);
    }
    IS(INVALID_PARAM, GET_SEMAPHORE_STATUS, FIRST, NULL);
    IS(INVALID_PARAM, WAIT_SEMAPHORE, FIRST, -2);
    IS(INVALID_PARAM, WAIT_SEMAPHORE, FIRST, INT64_MAX);
    IS(INVALID_MODE, WAIT_SEMAPHORE, FIRST, 1);
    IS(INVALID_MODE, WAIT_SEMAPHORE, FIRST, INFINITE_TIME_VALUE);
}

static void codes_main(void) {
    SEMAPHORE_NAME_TYPE name = "SHARED";
    SEMAPHORE_ID_TYPE id = MINE;
    SEMAPHORE_STATUS_TYPE status;
    wrong_semaphores();
    create_semaphore(1, 2);
    IS(NO_ACTION, CREATE_SEMAPHORE, name, 5, 2, FIFO, &id);
    IS(NO_ERROR, GET_SEMAPHORE_ID, name, &id);
    expect(id == FIRST, "the identifier");
    refused_calls();
    IS(NO_ERROR, WAIT_SEMAPHORE, FIRST, 0);
    IS(NOT_AVAILABLE, WAIT_SEMAPHORE, FIRST, 0);
    semaphore_is(0, 0);
    IS(NO_ERROR, SIGNAL_SEMAPHORE, FIRST);
    IS(NO_ERROR, SIGNAL_SEMAPHORE, FIRST);
    IS(NO_ACTION, SIGNAL_SEMAPHORE, FIRST);
    IS(NO_ERROR, GET_SEMAPHORE_STATUS, FIRST, &status);
    expect(status.CURRENT_VALUE == 2 && status.MAXIMUM_VALUE == 2, "the semaphore's values");
    for (int i = 2; i <= MAX_NUMBER_OF_SEMAPHORES; i++) {
        name[0] = (char)('0' + i);
        IS(NO_ERROR, CREATE_SEMAPHORE, name, MAX_SEMAPHORE_VALUE, MAX_SEMAPHORE_VALUE, PRIORITY, &id);
        expect(id == i, "the next identifier");
    }
    IS(INVALID_CONFIG, CREATE_SEMAPHORE, name, 1, 1, FIFO, &id);
}

/* Three wait, 1 first and then 2 and 3; who is served runs at once, and gives the semaphore to the next. */

static void shares(void) {
    PROCESS_ID_TYPE me;
    IS(NO_ERROR, GET_MY_ID, &me);
    IS(NO_ERROR, TIMED_WAIT, me - 1);
    IS(NO_ERROR, WAIT_SEMAPHORE, FIRST, INFINITE_TIME_VALUE);
    leave((char)('0' + me));
    IS(NO_ERROR, TIMED_WAIT, 1);
    IS(NO_ERROR, SIGNAL_SEMAPHORE, FIRST);
    leave((char)('0' + me));
    STOP_SELF();
}

static void holds(void) {
    SEMAPHORE_NAME_TYPE name = "LATE";
    SEMAPHORE_ID_TYPE id;
    IS(INVALID_MODE, CREATE_SEMAPHORE, name, 1, 1, FIFO, &id);
    IS(NO_ERROR, WAIT_SEMAPHORE, FIRST, INFINITE_TIME_VALUE);
    IS(NO_ERROR, TIMED_WAIT, 5);
    semaphore_is(0, 3);
    IS(NO_ERROR, SIGNAL_SEMAPHORE, FIRST);
    semaphore_is(0, 2);
    leave('s');
    IS(NO_ERROR, WAIT_SEMAPHORE, FIRST, INFINITE_TIME_VALUE);
    semaphore_is(0, discipline == FIFO ? 0 : 2);
    leave('s');
    IS(NO_ERROR, SIGNAL_SEMAPHORE, FIRST);
    semaphore_is(discipline == FIFO ? 1 : 0, discipline == FIFO ? 0 : 1);
    STOP_SELF();
}

static void sharing_main(void) {
    create_semaphore(1, 1);
    start_at(5, "LOW", shares);
    start_at(9, "HIGH", shares);
    start_at(7, "MIDDLE", shares);
    start_at(10, "HOLDS", holds);
    set_mode(NORMAL);
}

/* Time-outs; a process that is stopped takes nothing. */

static void waits_shortly(void) {
    IS(TIMED_OUT, WAIT_SEMAPHORE, FIRST, 4);
    leave('w');
    semaphore_is(0, 1);
    IS(NO_ERROR, WAIT_SEMAPHORE, FIRST, 6); /* given at the very end, by a process that runs before */
    leave('w');
    STOP_SELF();
}

static void waits_stopped(void) {
    IS(NO_ERROR, WAIT_SEMAPHORE, FIRST, INFINITE_TIME_VALUE);
    expect(false, "a process that was stopped");
}

static void gives(void) {
    LOCK_LEVEL_TYPE level;
    IS(NO_ERROR, TIMED_WAIT, 10);
    semaphore_is(0, 2);
    IS(NO_ERROR, STOP, 2);
    semaphore_is(0, 1);
    IS(NO_ERROR, LOCK_PREEMPTION, &level);
    IS(INVALID_MODE, WAIT_SEMAPHORE, FIRST, 1);
    IS(NO_ERROR, SIGNAL_SEMAPHORE, FIRST);
    leave('g');
    IS(NO_ERROR, UNLOCK_PREEMPTION, &level);
    leave('g');
    semaphore_is(0, 0);
    STOP_SELF();
}

static void timing_main(void) {
    create_semaphore(0, 3);
    start_at(5, "WAITS", waits_shortly);
    start_at(5, "STOPPED", waits_stopped);
    start_at(8, "GIVES", gives);
    set_mode(NORMAL);
}

/* Events. */

static void create_event(void) {
    EVENT_NAME_TYPE name = "SHARED"; /* the name of a semaphore is none of an event */
    EVENT_ID_TYPE id = MINE;
    IS(NO_ERROR, CREATE_EVENT, name, &id);
    expect(id == FIRST, "the first identifier");
}

static void event_is(EVENT_STATE_TYPE state, WAITING_RANGE_TYPE processes) {
    EVENT_STATUS_TYPE status;
    IS(NO_ERROR, GET_EVENT_STATUS, FIRST, &status);
    expect(status.EVENT_STATE == state && status.WAITING_PROCESSES == processes, "the event's status");
}

static void refused_events(void) {
    EVENT_NAME_TYPE name = "WRONG", none = "";
    EVENT_ID_TYPE id = MINE;
    EVENT_STATUS_TYPE status;
    IS(INVALID_PARAM, CREATE_EVENT, NULL, &id);
    IS(INVALID_PARAM, CREATE_EVENT, name, NULL);
    IS(INVALID_PARAM, CREATE_EVENT, none, &id);
    IS(INVALID_CONFIG, GET_EVENT_ID, name, &id);
    IS(INVALID_PARAM, GET_EVENT_ID, name, NULL);
    IS(INVALID_PARAM, GET_EVENT_ID, NULL, &id);
    expect(id == MINE, "the place for the identifier");
    for (id = 0; id <= NONE; id += NONE) {
        IS(INVALID_PARAM, SET_EVENT, id);
        IS(INVALID_PARAM, RESET_EVENT, id);
        IS(INVALID_PARAM, WAIT_EVENT, id, 0);
        IS(INVALID_PARAM, GET_EVENT_STATUS, id, &status);
    }
    IS(INVALID_PARAM, GET_EVENT_STATUS, FIRST, NULL);
    IS(INVALID_PARAM, WAIT_EVENT, FIRST, -2);
    IS(INVALID_PARAM, WAIT_EVENT, FIRST, INT64_MAX);
    IS(INVALID_MODE, WAIT_EVENT, FIRST, 1);
}

static void events_main(void) {
    EVENT_NAME_TYPE name = "SHARED";
    EVENT_ID_TYPE id = MINE;
    create_semaphore(0, 1);
    create_event();
    refused_events();
    IS(NO_ACTION, CREATE_EVENT, name, &id);
    IS(NO_ERROR, GET_EVENT_ID, name, &id);
    expect(id == FIRST, "the identifier");
    event_is(DOWN, 0);
    IS(NOT_AVAILABLE, WAIT_EVENT, FIRST, 0);
    IS(NO_ERROR, SET_EVENT, FIRST);
    IS(NO_ERROR, SET_EVENT, FIRST);
    event_is(UP, 0);
    IS(NO_ERROR, WAIT_EVENT, FIRST, 0);
    event_is(UP, 0);
    IS(NO_ERROR, RESET_EVENT, FIRST);
    event_is(DOWN, 0);
    for (int i = 2; i <= MAX_NUMBER_OF_EVENTS; i++) {
        name[0] = (char)('0' + i);
        IS(NO_ERROR, CREATE_EVENT, name, &id);
    }
    IS(INVALID_CONFIG, CREATE_EVENT, name, &id);
}

/* All that wait go on; who runs first is a matter of priorities, and then of arrival. */

static void waits_for_event(void) {
    PROCESS_ID_TYPE me;
    IS(NO_ERROR, GET_MY_ID, &me);
    IS(NO_ERROR, TIMED_WAIT, 4 - me);
    IS(me == 1 ? TIMED_OUT : NO_ERROR, WAIT_EVENT, FIRST, me == 1 ? 2 : INFINITE_TIME_VALUE);
    leave((char)('0' + me));
    STOP_SELF();
}

static void sets(void) {
    EVENT_NAME_TYPE name = "LATE";
    EVENT_ID_TYPE id;
    IS(INVALID_MODE, CREATE_EVENT, name, &id);
    IS(NO_ERROR, TIMED_WAIT, 6);
    event_is(DOWN, 3);
    IS(NO_ERROR, SET_EVENT, FIRST);
    event_is(UP, 0);
    leave('e');
    IS(NO_ERROR, WAIT_EVENT, FIRST, INFINITE_TIME_VALUE);
    IS(NO_ERROR, RESET_EVENT, FIRST);
    IS(TIMED_OUT, WAIT_EVENT, FIRST, 3);
    leave('e');
    STOP_SELF();
}

static void waiting_main(void) {
    create_event();
    start_at(5, "LATE", waits_for_event);
    start_at(5, "EARLY", waits_for_event);
    start_at(9, "HIGH", waits_for_event);
    start_at(5, "FIRST", waits_for_event);
    start_at(5, "SETS", sets);
    set_mode(NORMAL);
}

/* An error handler may set an event and not wait for it; a restart leaves neither. */

static int starts;

static void handles(void) {
    IS(INVALID_MODE, WAIT_EVENT, FIRST, 1);
    IS(NO_ERROR, SET_EVENT, FIRST);
    IS(NO_ERROR, SIGNAL_SEMAPHORE, FIRST);
    leave('h');
    STOP_SELF();
}

static void waits_for_both(void) {
    IS(NO_ERROR, WAIT_EVENT, FIRST, INFINITE_TIME_VALUE);
    IS(NO_ERROR, WAIT_SEMAPHORE, FIRST, INFINITE_TIME_VALUE);
    leave('w');
    set_mode(COLD_START);
}

static void raises(void) {
    APEX_BYTE byte = 'a';
    IS(NO_ERROR, RAISE_APPLICATION_ERROR, APPLICATION_ERROR, &byte, 1);
    expect(false, "a process that a higher one ends");
}

static void handling_main(void) {
    EVENT_NAME_TYPE name = "SHARED";
    EVENT_ID_TYPE id;
    IS(INVALID_CONFIG, GET_EVENT_ID, name, &id);
    IS(INVALID_CONFIG, GET_SEMAPHORE_ID, name, &id);
    create_event();
    create_semaphore(0, 1);
    event_is(DOWN, 0);
    semaphore_is(0, 0);
    IS(NO_ERROR, CREATE_ERROR_HANDLER, handles, 4096);
    start_at(9, "BOTH", waits_for_both);
    if (++starts == 1) {
        start_at(5, "RAISES", raises);
    }
    set_mode(NORMAL);
}

static void play(QUEUING_DISCIPLINE_TYPE by, void (*entry)(void), int frames, const char *wanted) {
    discipline = by;
    run_frames(entry, frames);
    has_left(wanted);
}

int main(int count, char **words) {
    expect(count == 2, "usage: c_semaphores CONFIG");
    text_length = read_config(words[1], text, sizeof text);
    IS(INVALID_CONFIG, WAIT_SEMAPHORE, FIRST, 0);
    IS(INVALID_CONFIG, SET_EVENT, FIRST);
    play(FIFO, codes_main, 1, "");
    play(FIFO, sharing_main, 1, "s@15 1@15 2@16 1@16 2@17 3@17 s@18 3@18 ");
    play(PRIORITY, sharing_main, 1, "s@15 2@15 s@16 2@16 3@16 3@17 1@17 1@18 ");
    play(FIFO, timing_main, 1, "w@14 g@20 g@20 w@20 ");
    play(FIFO, events_main, 1, "");
    play(FIFO, waiting_main, 1, "1@15 3@16 e@16 4@16 2@16 e@19 ");
    play(FIFO, handling_main, 3, "h@10 w@10 ");
    printf("%lu answers\n", seen);
    return 0;
}
