/* c_priorities CONFIG: priorities, preemption and its lock, by the rules of docs/C.md. The partition has its windows
 * from 10 to 30 of each 100 nanoseconds. Prints how many answers were seen. What the host says is in
 * c_priorities.stderr.txt. */
#include "c_process_test.h"

enum { NOBODY = 9 };

static PROCESS_ID_TYPE other;

static void high(void) {
    leave('h');
    STOP_SELF();
}

/* A process that is started by another runs at once if its priority is higher, and the other keeps its place. */

static void start_others(void) {
    leave('l');
    IS(NO_ERROR, START, 2); /* higher */
    leave('l');
    IS(NO_ERROR, START, 3); /* equal, after the process that was ready before */
    leave('l');
    STOP_SELF();
}

static void equal(void) {
    leave('e');
    STOP_SELF();
}

static void second(void) {
    leave('s');
    IS(NO_ERROR, TIMED_WAIT, 0);
    leave('s');
    STOP_SELF();
}

static void starting_main(void) {
    start_at(5, "FIRST", start_others);
    create_at(9, "HIGH", high, INFINITE_TIME_VALUE);
    create_at(5, "EQUAL", equal, INFINITE_TIME_VALUE);
    start_at(5, "SECOND", second);
    set_mode(NORMAL);
}

/* A delay of 0 lets no process of a lower priority run before; time lets one of a higher priority run. */

static void low_turns(void) {
    leave('l');
    IS(NO_ERROR, TIMED_WAIT, 6);
    leave('l');
    STOP_SELF();
}

static void high_turns(void) {
    leave('h');
    IS(NO_ERROR, TIMED_WAIT, 0);
    leave('h');
    IS(NO_ERROR, TIMED_WAIT, 6);
    leave('h');
    STOP_SELF();
}

/* If processes became ready outside of the windows, their priority counts, and not since when they are ready. */
static void low_outside(void) {
    IS(NO_ERROR, TIMED_WAIT, 30);
    leave('l');
    STOP_SELF();
}

static void high_outside(void) {
    IS(NO_ERROR, TIMED_WAIT, 40);
    leave('h');
    STOP_SELF();
}

static void outside_main(void) {
    start_at(5, "LOW", low_outside);
    start_at(9, "HIGH", high_outside);
    set_mode(NORMAL);
}

/* The main process waits where it set NORMAL, and what it has on its stack stays; a restart unlocks preemption. */

static const unsigned char *of_main;
static int starts;

static void uses_stack_of_main(void) {
    volatile unsigned char own[8192];
    LOCK_LEVEL_TYPE level;
    for (size_t i = 0; i < sizeof own; i++) {
        own[i] = 1;
    }
    for (int i = 0; i < 4096; i++) {
        expect(of_main[i] == 0x5a, "what the main process has on its stack");
    }
    leave('u');
    IS(NO_ERROR, LOCK_PREEMPTION, &level);
    if (starts == 1) {
        set_mode(WARM_START);
    }
    STOP_SELF();
}

static void stack_main(void) {
    unsigned char bytes[4096];
    PARTITION_STATUS_TYPE status;
    memset(bytes, 0x5a, sizeof bytes);
    of_main = bytes;
    starts++;
    IS(NO_ERROR, GET_PARTITION_STATUS, &status);
    expect(status.LOCK_LEVEL == 0, "no lock at a start");
    IS(NO_ERROR, CREATE_ERROR_HANDLER, uses_stack_of_main, 4096);
    start_at(5, "USES", uses_stack_of_main);
    set_mode(NORMAL);
}

static void turning_main(void) {
    start_at(5, "LOW", low_turns);
    start_at(9, "HIGH", high_turns);
    set_mode(NORMAL);
}

/* Preemption that is locked. */

static void lock_is(bool is_lock, RETURN_CODE_TYPE wanted, LOCK_LEVEL_TYPE level) {
    LOCK_LEVEL_TYPE place = MINE;
    PARTITION_STATUS_TYPE status;
    RETURN_CODE_TYPE code;
    (is_lock ? LOCK_PREEMPTION : UNLOCK_PREEMPTION)(&place, &code);
    answers(code, wanted, is_lock ? "LOCK_PREEMPTION" : "UNLOCK_PREEMPTION");
    expect(place == (wanted == NO_ERROR ? level : MINE), "the place for the level");
    GET_PARTITION_STATUS(&status, &code);
    expect(status.LOCK_LEVEL == level, "the level in the partition's status");
}

static void lock(void) {
    lock_is(false, NO_ACTION, 0);
    lock_is(true, NO_ERROR, 1);
    lock_is(true, NO_ERROR, 2);
    IS(NO_ERROR, START, other);
    leave('l');
    IS(INVALID_MODE, TIMED_WAIT, 0);
    IS(INVALID_MODE, SUSPEND_SELF, 0);
    lock_is(false, NO_ERROR, 1);
    leave('l');
    lock_is(false, NO_ERROR, 0);
    leave('m');
    for (int level = 1; level <= MAX_LOCK_LEVEL; level++) {
        lock_is(true, NO_ERROR, level);
    }
    lock_is(true, INVALID_CONFIG, MAX_LOCK_LEVEL);
    IS(NO_ERROR, START, other);
    leave('m');
    STOP_SELF(); /* and the lock is gone */
}

static void locking_main(void) {
    lock_is(true, NO_ACTION, 0);
    lock_is(false, NO_ACTION, 0);
    start_at(5, "LOCK", lock);
    other = create_at(9, "HIGH", high, INFINITE_TIME_VALUE);
    IS(INVALID_PARAM, LOCK_PREEMPTION, NULL);
    set_mode(NORMAL);
}

/* An entry point that returns gives the lock back, too. */

static void locks_and_returns(void) {
    lock_is(true, NO_ERROR, 1);
    leave('r');
}

static void returning_main(void) {
    start_at(9, "RETURNS", locks_and_returns);
    start_at(5, "OTHER", high);
    set_mode(NORMAL);
}

/* SET_PRIORITY. */

static void change(void) {
    IS(INVALID_PARAM, SET_PRIORITY, 0, 5);
    IS(INVALID_PARAM, SET_PRIORITY, NOBODY, 5);
    IS(INVALID_PARAM, SET_PRIORITY, 1, MIN_PRIORITY_VALUE - 1);
    IS(INVALID_PARAM, SET_PRIORITY, 1, MAX_PRIORITY_VALUE + 1);
    IS(INVALID_MODE, SET_PRIORITY, 3, 5);
    leave('c');
    IS(NO_ERROR, SET_PRIORITY, 2, 6); /* the other is above this one, and runs */
    leave('c');
    IS(NO_ERROR, SET_PRIORITY, 1, 1);
    leave('c');
    STOP_SELF();
}

static void changed(void) {
    leave('d');
    IS(NO_ERROR, TIMED_WAIT, 2);
    leave('d');
    IS(NO_ERROR, SET_PRIORITY, 2, 6); /* where it was, but behind all that have it */
    leave('d');
    STOP_SELF();
}

static void sixth(void) {
    IS(NO_ERROR, TIMED_WAIT, 2);
    leave('6');
    STOP_SELF();
}

static void changing_main(void) {
    start_at(5, "CHANGE", change);
    start_at(5, "CHANGED", changed);
    create_at(5, "DORMANT", high, INFINITE_TIME_VALUE);
    start_at(6, "SIXTH", sixth);
    set_mode(NORMAL);
}

int main(int count, char **words) {
    expect(count == 2, "usage: c_priorities CONFIG");
    text_length = read_config(words[1], text, sizeof text);
    run_frames(starting_main, 1);
    has_left("l@10 h@10 l@10 l@10 s@10 e@10 s@10 ");
    run_frames(turning_main, 1);
    has_left("h@10 h@10 l@10 h@16 l@16 ");
    run_frames(outside_main, 2);
    has_left("h@110 l@110 ");
    run_frames(stack_main, 2);
    has_left("u@10 u@110 ");
    run_frames(locking_main, 1);
    has_left("l@10 l@10 h@10 m@10 m@10 h@10 ");
    run_frames(returning_main, 1);
    has_left("r@10 h@10 ");
    run_frames(changing_main, 1);
    has_left("c@10 d@10 c@10 c@10 d@12 6@12 d@12 ");
    printf("%lu answers\n", seen);
    return 0;
}
