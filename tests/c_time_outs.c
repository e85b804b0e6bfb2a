/* c_time_outs CONFIG: waiting on queuing ports: time-outs, restarts, suspended processes, calls of the bench's own, and
 * what may not wait; by the rules of docs/C.md. Prints how many answers it saw. */
#include "c_wait_test.h"

/* Deadlines outside of B's windows: A sends at 100. */

static SYSTEM_TIME_TYPE within;
static RETURN_CODE_TYPE first_code;

static void receive_within(void) {
    receives(Q_IN, within, first_code, 4);
    leave('q');
    receives(Q_IN, 0, first_code == NO_ERROR ? NOT_AVAILABLE : NO_ERROR, 4);
    STOP_SELF();
}

static void within_main(void) {
    create_ports_of_b();
    start_at(5, "WITHIN", receive_within);
    set_mode(NORMAL);
}

static void send_at_100(void) {
    waits_for(100);
    sends(Q_OUT, 4, 0, NO_ERROR);
    STOP_SELF();
}

static void sending_main(void) {
    create_ports_of_a();
    start_at(5, "SEND", send_at_100);
    set_mode(NORMAL);
}

static void deadlines(void) {
    within = 50, first_code = NO_ERROR;
    play(sending_main, within_main, 2, "q@150 ");
    within = 49, first_code = TIMED_OUT;
    play(sending_main, within_main, 2, "q@150 ");
}

/* B restarts while a process waits: the message of 100 stays for the process that waits after the restart. */

static int starts;

static void wait_and_restart(void) {
    receives(Q_IN, INFINITE_TIME_VALUE, NO_ERROR, 4);
    leave((char)('0' + starts));
    STOP_SELF();
}

static void restart(void) {
    waits_for(10);
    set_mode(WARM_START);
}

static void restarting_main(void) {
    create_ports_of_b();
    start_at(5, "WAIT", wait_and_restart);
    if (++starts == 1) {
        start_at(5, "RESTART", restart);
    }
    set_mode(NORMAL);
}

/* A ends in IDLE: a process of B waits for it as long as its time-out says. */

static void idle_main(void) { set_mode(IDLE); }

static void receive_in_vain(void) {
    receives(Q_IN, 110, TIMED_OUT, 0);
    leave('v');
    STOP_SELF();
}

static void vain_main(void) {
    create_ports_of_b();
    start_at(5, "VAIN", receive_in_vain);
    set_mode(NORMAL);
}

/* B leaves NORMAL while a process waits for room: its message is never sent. */

static OPERATING_MODE_TYPE left_for;

static void waits_for_room(void) {
    sends(R_OUT, 1, 0, NO_ERROR);
    sends(R_OUT, 2, INFINITE_TIME_VALUE, NO_ERROR);
    expect(false, "a sender of a partition that has left NORMAL");
}

static void leaves_normal(void) {
    waits_for(10);
    set_mode(left_for);
}

static void leaving_main(void) {
    create_ports_of_b();
    if (++starts == 1) {
        start_at(5, "WAITS", waits_for_room);
        start_at(5, "LEAVES", leaves_normal);
    }
    set_mode(NORMAL);
}

static void receives_twice(void) {
    waits_for(100);
    receives(R_IN, 0, NO_ERROR, 1);
    leave('r');
    receives(R_IN, 100, TIMED_OUT, 0);
    leave('t');
    STOP_SELF();
}

static void receiving_main(void) {
    create_ports_of_a();
    start_at(5, "RECEIVES", receives_twice);
    set_mode(NORMAL);
}

static void restarts(void) {
    play(sending_main, restarting_main, 2, "2@150 ");
    starts = 0, left_for = COLD_START;
    play(receiving_main, leaving_main, 3, "r@100 t@200 ");
    starts = 0, left_for = IDLE;
    play(receiving_main, leaving_main, 3, "r@100 t@200 ");
    open_both(idle_main, vain_main);
    run_both(2);
    bench_set_partition(0); /* no call of a partition in IDLE is made */
    sends(Q_OUT, 4, 0, INVALID_MODE);
    expect(calls_of(0) == 2, "a call that isn't made is counted");
    close_both();
    has_left("v@160 ");
}

/* A process that is suspended while it waits gets its message, and runs when it is resumed. */

static void waits_suspended(void) {
    receives(Q_IN, INFINITE_TIME_VALUE, NO_ERROR, 4);
    leave('w');
    STOP_SELF();
}

static void suspends(void) {
    QUEUING_PORT_STATUS_TYPE status;
    RETURN_CODE_TYPE code;
    GET_QUEUING_PORT_STATUS(Q_IN, &status, &code);
    expect(code == NO_ERROR && status.WAITING_PROCESSES == 1, "one process waits");
    SUSPEND(1, &code);
    answers(code, NO_ERROR, "SUSPEND");
    waits_for(105);
    GET_QUEUING_PORT_STATUS(Q_IN, &status, &code);
    expect(code == NO_ERROR && status.WAITING_PROCESSES == 0 && status.NB_MESSAGE == 0, "its message is taken");
    leave('s');
    RESUME(1, &code);
    answers(code, NO_ERROR, "RESUME");
    leave('e');
    STOP_SELF();
}

static void suspending_main(void) {
    create_ports_of_b();
    start_at(9, "WAITS", waits_suspended);
    start_at(5, "SUSPENDS", suspends);
    set_mode(NORMAL);
}

/* Between frames the bench's own thread calls as a partition, too: what it sends is served in B's next window, and what
 * it takes first isn't there. Its time-outs run out at once. */
static void bench_between(void) {
    within = INFINITE_TIME_VALUE, first_code = NO_ERROR;
    open_both(idle_forever, within_main);
    QUEUING_PORT_STATUS_TYPE status;
    RETURN_CODE_TYPE code;
    run_both(1);
    bench_set_partition(1);
    GET_QUEUING_PORT_STATUS(Q_IN, &status, &code);
    expect(code == NO_ERROR && status.WAITING_PROCESSES == 1, "the process that waits");
    bench_set_partition(0);
    sends(Q_OUT, 4, 0, NO_ERROR);
    bench_set_partition(1);
    receives(Q_IN, INFINITE_TIME_VALUE, NO_ERROR, 4);
    receives(Q_IN, -2, TIMED_OUT, 0);
    run_both(1);
    has_left("");
    bench_set_partition(0);
    sends(Q_OUT, 4, 0, NO_ERROR);
    run_both(1);
    has_left("q@250 ");
    /* B: 4 creations and NORMAL; 3 calls of the bench; of the process the first call, one in vain at 150, the one at
     * 250 and the last */
    expect(calls_of(1) == 5 + 3 + 4, "the calls of B");
    close_both();
}

/* Two wait, and what the bench takes away again from the first changes nothing in their order. */

static void receive_in_order(void) {
    PROCESS_ID_TYPE me;
    RETURN_CODE_TYPE code;
    GET_MY_ID(&me, &code);
    receives(Q_IN, INFINITE_TIME_VALUE, NO_ERROR, (APEX_BYTE)me);
    leave((char)('0' + me));
    STOP_SELF();
}

static void two_main(void) {
    create_ports_of_b();
    start_at(5, "ONE", receive_in_order);
    start_at(5, "TWO", receive_in_order);
    set_mode(NORMAL);
}

static void in_vain(void) {
    open_both(idle_forever, two_main);
    run_both(1);
    bench_set_partition(0);
    sends(Q_OUT, 9, 0, NO_ERROR);
    bench_set_partition(1);
    receives(Q_IN, 0, NO_ERROR, 9);
    run_both(1);
    bench_set_partition(0);
    sends(Q_OUT, 1, 0, NO_ERROR);
    run_both(1);
    bench_set_partition(0);
    sends(Q_OUT, 2, 0, NO_ERROR);
    run_both(1);
    close_both();
    has_left("1@250 2@350 ");
}

/* The bench restarts B and sets NORMAL between two frames: what ran ends, and the main process runs again. Before the
 * first frame there is nothing to restart. */

static void waits_for_ever(void) {
    leave('w');
    receives(Q_IN, INFINITE_TIME_VALUE, NO_ERROR, 4);
    expect(false, "a process of a partition that the bench restarted");
}

static void main_of_both_starts(void) {
    PARTITION_STATUS_TYPE status;
    RETURN_CODE_TYPE code;
    GET_PARTITION_STATUS(&status, &code);
    if (status.OPERATING_MODE == NORMAL) {
        expect(status.START_CONDITION == PARTITION_RESTART, "the start's condition");
        leave('n');
        return;
    }
    expect(status.START_CONDITION == NORMAL_START, "the first start's condition");
    leave('m');
    create_ports_of_b();
    start_at(5, "WAITS", waits_for_ever);
    set_mode(NORMAL);
}

static void bench_restarts(void) {
    open_both(idle_forever, main_of_both_starts);
    bench_set_partition(1);
    set_mode(COLD_START);
    run_both(1);
    bench_set_partition(1);
    set_mode(COLD_START);
    set_mode(NORMAL);
    bench_set_partition(0);
    sends(Q_OUT, 4, 0, NO_ERROR);
    run_both(2);
    close_both();
    has_left("m@50 w@50 n@150 ");
}

/* A process that is stopped while it waits no longer waits. Started again, it waits anew. */

static void waits_again(void) {
    leave('w');
    receives(Q_IN, INFINITE_TIME_VALUE, NO_ERROR, 4);
    leave('w');
    STOP_SELF();
}

static void stops_and_starts(void) {
    QUEUING_PORT_STATUS_TYPE status;
    RETURN_CODE_TYPE code;
    IS(NO_ERROR, STOP, 1);
    GET_QUEUING_PORT_STATUS(Q_IN, &status, &code);
    expect(code == NO_ERROR && status.WAITING_PROCESSES == 0, "no process waits");
    waits_for(101);
    GET_QUEUING_PORT_STATUS(Q_IN, &status, &code);
    expect(code == NO_ERROR && status.NB_MESSAGE == 1, "the message stays");
    leave('s');
    IS(NO_ERROR, START, 1);
    STOP_SELF();
}

static void stopping_main(void) {
    create_ports_of_b();
    start_at(9, "WAITS", waits_again);
    start_at(5, "STOPS", stops_and_starts);
    set_mode(NORMAL);
}

/* What may not wait, and what is no time-out; neither is asked of the ports. */

static void may_not_wait(void) {
    LOCK_LEVEL_TYPE level;
    RETURN_CODE_TYPE code;
    receives(Q_IN, -2, INVALID_PARAM, 0);
    receives(Q_IN, INT64_MAX - 49, INVALID_PARAM, 0);
    sends(R_OUT, 1, -2, INVALID_PARAM);
    LOCK_PREEMPTION(&level, &code);
    receives(Q_IN, 1, INVALID_MODE, 0);
    sends(R_OUT, 1, INFINITE_TIME_VALUE, INVALID_MODE);
    expect(calls_of(1) == 6, "none of these is a call of the ports");
    receives(Q_IN, 0, NOT_AVAILABLE, 0);
    UNLOCK_PREEMPTION(&level, &code);
    receives(Q_IN, INT64_MAX - 50, NO_ERROR, 4);
    leave('n');
    STOP_SELF();
}

static void not_waiting_main(void) {
    create_ports_of_b();
    receives(Q_IN, 1, INVALID_MODE, 0);
    sends(R_OUT, 1, INFINITE_TIME_VALUE, INVALID_MODE);
    receives(Q_IN, -2, INVALID_PARAM, 0);
    receives(Q_IN, 0, NOT_AVAILABLE, 0);
    expect(calls_of(1) == 5, "four creations and one call");
    start_at(5, "NOT", may_not_wait);
    set_mode(NORMAL);
}

int main(int count, char **words) {
    expect(count == 2, "usage: c_time_outs CONFIG");
    text_length = read_config(words[1], text, sizeof text);
    deadlines();
    restarts();
    play(sending_main, suspending_main, 2, "s@155 w@155 e@155 ");
    bench_between();
    in_vain();
    bench_restarts();
    play(sending_main, stopping_main, 2, "w@50 s@151 w@151 w@151 ");
    play(sending_main, not_waiting_main, 2, "n@150 ");
    printf("%lu answers\n", seen);
    return 0;
}
