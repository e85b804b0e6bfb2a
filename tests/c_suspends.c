/* c_suspends CONFIG: the services that suspend, stop, start and ask for processes, with each of their return codes, by
 * the rules of docs/C.md. The partition has its windows from 10 to 30 of each 100 nanoseconds. Prints how many answers
 * were seen. */
#include "c_process_test.h"

#include <pthread.h>

enum { NOBODY = 9 };

static void high(void) {
    leave('h');
    STOP_SELF();
}

/* SUSPEND, SUSPEND_SELF and RESUME. */

static void suspend_self(void) {
    IS(INVALID_PARAM, SUSPEND_SELF, -2);
    IS(INVALID_PARAM, SUSPEND_SELF, INT64_MAX);
    IS(NO_ERROR, SUSPEND_SELF, 0);
    leave('s');
    IS(TIMED_OUT, SUSPEND_SELF, 2);
    leave('s');
    IS(NO_ERROR, SUSPEND_SELF, INFINITE_TIME_VALUE);
    leave('s');
    IS(NO_ERROR, SUSPEND_SELF, 1); /* resumed at the very end */
    leave('s');
    IS(NO_ERROR, TIMED_WAIT, 3);
    leave('s');
    STOP_SELF();
}

static void resume(void) {
    IS(NO_ERROR, TIMED_WAIT, 1);
    IS(INVALID_PARAM, RESUME, 0);
    IS(INVALID_PARAM, RESUME, 2);
    IS(INVALID_PARAM, SUSPEND, NOBODY);
    IS(INVALID_PARAM, SUSPEND, 2);
    IS(INVALID_MODE, SUSPEND, 3); /* periodic */
    IS(INVALID_MODE, RESUME, 3);
    IS(INVALID_MODE, SUSPEND, 4); /* dormant */
    IS(INVALID_MODE, RESUME, 4);
    IS(NO_ACTION, SUSPEND, 1); /* it has suspended itself */
    IS(NO_ERROR, TIMED_WAIT, 4);
    leave('r');
    IS(NO_ERROR, RESUME, 1);
    leave('r');
    IS(NO_ERROR, TIMED_WAIT, 1);
    IS(NO_ERROR, RESUME, 1);
    IS(NO_ACTION, RESUME, 1);
    IS(NO_ERROR, TIMED_WAIT, 1);
    IS(NO_ERROR, SUSPEND, 1); /* within its delay, which ends at 19 */
    IS(NO_ACTION, SUSPEND, 1);
    IS(NO_ERROR, TIMED_WAIT, 4);
    leave('r');
    IS(NO_ERROR, RESUME, 1);
    STOP_SELF();
}

/* Its time-out passes at 50, outside of the windows; another process, which runs first at 110, suspends it then. */
static void late_self(void) {
    IS(TIMED_OUT, SUSPEND_SELF, 40);
    leave('s');
    STOP_SELF();
}

static void suspends_late(void) {
    IS(NO_ERROR, TIMED_WAIT, 45);
    leave('l');
    IS(NO_ERROR, SUSPEND, 1);
    IS(NO_ERROR, TIMED_WAIT, 2);
    leave('l');
    IS(NO_ERROR, RESUME, 1);
    STOP_SELF();
}

static void late_main(void) {
    start_at(5, "SELF", late_self);
    start_at(9, "LATE", suspends_late);
    set_mode(NORMAL);
}

static void delayed(void) {
    IS(NO_ERROR, TIMED_WAIT, 6);
    leave('d');
    STOP_SELF();
}

static void resumes_early(void) {
    IS(NO_ERROR, TIMED_WAIT, 1);
    IS(NO_ERROR, SUSPEND, 1);
    IS(NO_ERROR, RESUME, 1);
    leave('r');
    STOP_SELF();
}

static void early_main(void) {
    start_at(5, "DELAYED", delayed);
    start_at(5, "RESUMES", resumes_early);
    set_mode(NORMAL);
}

static void periodic(void) {
    IS(INVALID_MODE, SUSPEND_SELF, 1);
    leave('p');
    STOP_SELF();
}

static void suspending_main(void) {
    IS(INVALID_MODE, SUSPEND_SELF, 1);
    start_at(5, "SELF", suspend_self);
    start_at(7, "RESUME", resume);
    create("PERIODIC", periodic, PERIOD, true);
    create("DORMANT", high, INFINITE_TIME_VALUE, false);
    set_mode(NORMAL);
}

/* STOP and DELAYED_START. */

static void waits_long(void) {
    leave('w');
    IS(NO_ERROR, TIMED_WAIT, 1000);
    expect(false, "a process that was stopped");
}

/* Nothing that its functions hold is given back. */
static void cleans_up(void *letter) { leave(*(const char *)letter); }

static void holds(void) {
    static const char letter = 'c';
    pthread_cleanup_push(cleans_up, (void *)(uintptr_t)&letter);
    leave('h');
    IS(NO_ERROR, TIMED_WAIT, 1000);
    pthread_cleanup_pop(0);
}

static void stops_holder(void) {
    IS(NO_ERROR, STOP, 1);
    leave('s');
    STOP_SELF();
}

static void holding_main(void) {
    start_at(9, "HOLDS", holds);
    start_at(5, "STOPS", stops_holder);
    set_mode(NORMAL);
}

static void stop(void) {
    IS(INVALID_PARAM, STOP, 0);
    IS(INVALID_PARAM, STOP, NOBODY);
    IS(INVALID_PARAM, STOP, 2);
    IS(NO_ACTION, STOP, 3);
    IS(NO_ERROR, SET_PRIORITY, 1, 3);
    IS(NO_ERROR, SUSPEND, 1);
    IS(NO_ERROR, STOP, 1);
    IS(NO_ACTION, STOP, 1);
    IS(NO_ERROR, START, 1); /* from its entry point */
    IS(NO_ACTION, START, 1);
    leave('s');
    IS(NO_ERROR, STOP, 1);
    IS(INVALID_PARAM, DELAYED_START, NOBODY, 0);
    IS(INVALID_PARAM, DELAYED_START, 1, -1);
    IS(INVALID_CONFIG, DELAYED_START, 1, INT64_MAX - 9);
    IS(NO_ERROR, DELAYED_START, 1, 3);
    IS(NO_ACTION, DELAYED_START, 1, 3);
    IS(NO_ERROR, TIMED_WAIT, 4);
    leave('s');
    STOP_SELF();
}

static void stopping_main(void) {
    start_at(9, "WAITS", waits_long);
    start_at(5, "STOP", stop);
    create("DORMANT", high, INFINITE_TIME_VALUE, false);
    set_mode(NORMAL);
}

static void delayed_periodic(void) {
    RETURN_CODE_TYPE code;
    for (;;) {
        leave('p');
        PERIODIC_WAIT(&code);
    }
}

static void delaying_main(void) {
    const PROCESS_ID_TYPE each = create_at(5, "EACH", delayed_periodic, PERIOD);
    const PROCESS_ID_TYPE once = create_at(5, "ONCE", high, INFINITE_TIME_VALUE);
    IS(INVALID_PARAM, DELAYED_START, each, PERIOD);
    IS(NO_ERROR, DELAYED_START, each, 7);
    IS(NO_ERROR, DELAYED_START, once, 5);
    set_mode(NORMAL);
}

/* What is asked of processes. */

static void state_is(PROCESS_ID_TYPE id, PROCESS_STATE_TYPE state, PRIORITY_TYPE priority, SYSTEM_TIME_TYPE deadline) {
    PROCESS_STATUS_TYPE status;
    memset(&status, 0x5a, sizeof status);
    IS(NO_ERROR, GET_PROCESS_STATUS, id, &status);
    expect(status.PROCESS_STATE == state, "the state");
    expect(status.CURRENT_PRIORITY == priority && status.DEADLINE_TIME == deadline, "the priority and the deadline");
    expect(status.ATTRIBUTES.ENTRY_POINT != NULL && status.ATTRIBUTES.STACK_SIZE == 4096, "the attributes");
}

static void ask(void) {
    PROCESS_STATUS_TYPE status;
    PROCESS_NAME_TYPE name;
    PROCESS_ID_TYPE id = MINE;
    bench_name(name, "NONE");
    IS(INVALID_CONFIG, GET_PROCESS_ID, name, &id);
    IS(INVALID_PARAM, GET_PROCESS_ID, name, NULL);
    IS(INVALID_PARAM, GET_PROCESS_ID, NULL, &id);
    expect(id == MINE, "the place for the identifier");
    bench_name(name, "LOW");
    IS(NO_ERROR, GET_PROCESS_ID, name, &id);
    expect(id == 2, "the identifier");
    IS(INVALID_PARAM, GET_PROCESS_STATUS, NOBODY, &status);
    IS(INVALID_PARAM, GET_PROCESS_STATUS, 1, NULL);
    state_is(1, RUNNING, 5, 40); /* released at 10, with 30 */
    state_is(2, READY, 4, INFINITE_TIME_VALUE);
    state_is(3, DORMANT, 3, INFINITE_TIME_VALUE);
    IS(NO_ERROR, SUSPEND, 2);
    state_is(2, WAITING, 4, INFINITE_TIME_VALUE);
    IS(NO_ERROR, RESUME, 2);
    IS(NO_ERROR, SET_PRIORITY, 2, 3);
    state_is(2, READY, 3, INFINITE_TIME_VALUE);
    /* Its deadline. */
    IS(INVALID_PARAM, REPLENISH, -2);
    IS(INVALID_PARAM, REPLENISH, INT64_MAX);
    IS(NO_ERROR, REPLENISH, 60);
    state_is(1, RUNNING, 5, 70);
    IS(NO_ERROR, REPLENISH, INFINITE_TIME_VALUE);
    state_is(1, RUNNING, 5, INFINITE_TIME_VALUE);
    IS(NO_ACTION, REPLENISH, 5); /* it has no deadline now */
    leave('a');
    STOP_SELF();
}

static void asking_main(void) {
    PROCESS_ATTRIBUTE_TYPE a = named("ASK", ask, INFINITE_TIME_VALUE);
    PROCESS_ID_TYPE id;
    a.TIME_CAPACITY = 30;
    IS(NO_ERROR, CREATE_PROCESS, &a, &id);
    IS(NO_ERROR, START, id);
    start_at(4, "LOW", high);
    create_at(3, "LOWER", high, INFINITE_TIME_VALUE);
    IS(NO_ACTION, REPLENISH, 5);
    state_is(1, WAITING, 5, INFINITE_TIME_VALUE);
    set_mode(NORMAL);
}

/* A periodic process may have its deadline up to its next release point. */
static void replenish(void) {
    state_is(1, RUNNING, 5, 160);
    IS(NO_ERROR, REPLENISH, 100);
    state_is(1, RUNNING, 5, 210);
    IS(INVALID_MODE, REPLENISH, 101);
    IS(INVALID_MODE, REPLENISH, INFINITE_TIME_VALUE);
    leave('r');
    STOP_SELF();
}

static void replenishing_main(void) {
    PROCESS_ATTRIBUTE_TYPE a = named("REPLENISH", replenish, PERIOD);
    PROCESS_ID_TYPE id;
    a.TIME_CAPACITY = 50;
    IS(NO_ERROR, CREATE_PROCESS, &a, &id);
    IS(NO_ERROR, START, id);
    set_mode(NORMAL);
}

int main(int count, char **words) {
    expect(count == 2, "usage: c_suspends CONFIG");
    text_length = read_config(words[1], text, sizeof text);
    run_frames(suspending_main, 2);
    has_left("s@10 s@12 r@15 r@15 s@15 s@16 r@21 s@21 p@110 ");
    run_frames(early_main, 1);
    has_left("r@11 d@16 ");
    run_frames(late_main, 2);
    has_left("l@110 l@112 s@112 ");
    run_frames(holding_main, 2);
    has_left("h@10 s@10 ");
    run_frames(stopping_main, 1);
    has_left("w@10 w@10 s@10 w@13 s@14 ");
    run_frames(delaying_main, 3);
    has_left("h@15 p@117 p@217 ");
    run_frames(asking_main, 1);
    has_left("a@10 h@10 ");
    run_frames(replenishing_main, 2);
    has_left("r@110 ");
    printf("%lu answers\n", seen);
    return 0;
}
