/* c_waits CONFIG: waiting on queuing ports: for room and for messages, by each discipline, and with both ends in one
 * partition; by the rules of docs/C.md. Prints how many answers it saw. */
#include "c_wait_test.h"

/* Room: two senders of B wait at R, of depth 1, and A receives or clears. */

static void send_two(void) {
    sends(R_OUT, 1, INFINITE_TIME_VALUE, NO_ERROR);
    leave('x');
    sends(R_OUT, 2, INFINITE_TIME_VALUE, NO_ERROR);
    leave('x');
    STOP_SELF();
}

static void send_third(void) {
    waits_for(1);
    sends(R_OUT, 3, INFINITE_TIME_VALUE, NO_ERROR);
    leave('y');
    STOP_SELF();
}

static void senders_main(void) {
    create_ports_of_b();
    start_at(5, "X", send_two);
    start_at(9, "Y", send_third);
    set_mode(NORMAL);
}

static APEX_BYTE order_of_r[3]; /* the messages in the order in which they come */

static void receive_each(void) {
    waits_for(50);
    for (int i = 0; i < 3; i++) {
        receives(R_IN, 0, NO_ERROR, order_of_r[i]);
        leave('a');
        waits_for(100);
    }
    STOP_SELF();
}

static void receivers_main(void) {
    create_ports_of_a();
    start_at(1, "RECEIVE", receive_each);
    set_mode(NORMAL);
}

static void clear_once(void) {
    RETURN_CODE_TYPE code;
    waits_for(110);
    CLEAR_QUEUING_PORT(R_IN, &code);
    answers(code, NO_ERROR, "CLEAR_QUEUING_PORT");
    leave('c');
    receives(R_IN, 35, TIMED_OUT, 0);
    leave('t');
    receives(R_IN, 0, NO_ERROR, 2);
    leave('a');
    STOP_SELF();
}

static void clearing_main(void) {
    create_ports_of_a();
    start_at(1, "CLEAR", clear_once);
    set_mode(NORMAL);
}

/* X sends 1 at 50 and waits with 2; Y waits from 51 on with 3. A receives at 100, 200 and 300; room at 100 is for the
 * first by the discipline, and used in B's window at 150. Cleared at 110, the queue has room for one; the message that
 * X sends at 150 comes behind A's time-out of 145. */
static void room(void) {
    discipline = FIFO;
    memcpy(order_of_r, (APEX_BYTE[]){1, 2, 3}, 3);
    open_both(receivers_main, senders_main);
    run_both(4);
    expect(calls_of(1) == 5 + 3 + 2, "each send that waits is made twice");
    close_both();
    has_left("x@50 a@100 x@150 a@200 y@250 a@300 ");
    discipline = PRIORITY;
    memcpy(order_of_r, (APEX_BYTE[]){1, 3, 2}, 3);
    play(receivers_main, senders_main, 4, "x@50 a@100 y@150 a@200 x@250 a@300 ");
    discipline = FIFO;
}

static void clearing(void) { play(clearing_main, senders_main, 4, "x@50 c@110 x@150 t@200 a@200 y@250 "); }

/* Three wait in B by priority, and two messages come at 100: for H and, behind it, for L, although L came first. */

static void receive_once(void) {
    PROCESS_ID_TYPE me;
    RETURN_CODE_TYPE code;
    GET_MY_ID(&me, &code);
    waits_for(me - 1);
    receives(Q_IN, INFINITE_TIME_VALUE, NO_ERROR, me == 2 ? 4 : 5);
    leave((char)('0' + me));
    STOP_SELF();
}

static void three_main(void) {
    create_ports_of_b();
    start_at(5, "L", receive_once);
    start_at(9, "H", receive_once);
    start_at(1, "M", receive_once);
    set_mode(NORMAL);
}

static void send_both(void) {
    waits_for(100);
    sends(Q_OUT, 4, 0, NO_ERROR);
    sends(Q_OUT, 5, 0, NO_ERROR);
    STOP_SELF();
}

static void both_main(void) {
    create_ports_of_a();
    start_at(5, "SEND", send_both);
    set_mode(NORMAL);
}

static void two_of_three(void) {
    discipline = PRIORITY;
    open_both(both_main, three_main);
    run_both(2);
    expect(calls_of(1) == 5 + 3 + 2, "a call for each that waits, and one for each message");
    close_both();
    has_left("2@150 1@150 ");
    discipline = FIFO;
}

/* Both ends in B. */

static PRIORITY_TYPE receiver_priority;

static void receive_own(void) {
    receives(S_IN, INFINITE_TIME_VALUE, NO_ERROR, 7);
    leave('r');
    receives(S_IN, 5, NO_ERROR, 8);
    leave('r');
    receives(S_IN, 5, TIMED_OUT, 0);
    leave('t');
    STOP_SELF();
}

static void send_own(void) {
    waits_for(1);
    sends(S_OUT, 7, 0, NO_ERROR);
    leave('s');
    waits_for(5);
    sends(S_OUT, 8, 0, NO_ERROR); /* at the very end of the time-out of 5, before or behind it */
    leave('s');
    STOP_SELF();
}

static void own_main(void) {
    create_ports_of_b();
    start_at(receiver_priority, "R", receive_own);
    start_at(5, "S", send_own);
    set_mode(NORMAL);
}

static void own_ends(void) {
    receiver_priority = 4;
    play(idle_forever, own_main, 1, "s@51 r@51 s@56 r@56 t@61 ");
}

/* A receiver of a higher priority runs at once; at the end of its time-out it runs before the sender, so that nothing
 * has come. */
static void receive_first(void) {
    receives(S_IN, INFINITE_TIME_VALUE, NO_ERROR, 7);
    leave('r');
    receives(S_IN, 5, TIMED_OUT, 0);
    leave('t');
    STOP_SELF();
}

static void preempting_main(void) {
    create_ports_of_b();
    start_at(9, "R", receive_first);
    start_at(5, "S", send_own);
    set_mode(NORMAL);
}

/* Clearing makes room at once; a change of the mode that is refused comes back. */

static void send_own_two(void) {
    sends(S_OUT, 1, 0, NO_ERROR);
    sends(S_OUT, 2, INFINITE_TIME_VALUE, NO_ERROR);
    leave('p');
    STOP_SELF();
}

static void clear_own(void) {
    RETURN_CODE_TYPE code;
    SET_PARTITION_MODE(NORMAL, &code);
    answers(code, NO_ACTION, "NORMAL in NORMAL");
    SET_PARTITION_MODE((OPERATING_MODE_TYPE)9, &code);
    answers(code, INVALID_PARAM, "no mode");
    CLEAR_QUEUING_PORT(S_IN, &code);
    answers(code, NO_ERROR, "CLEAR_QUEUING_PORT");
    leave('q');
    receives(S_IN, 0, NO_ERROR, 2);
    STOP_SELF();
}

static void clearing_own_main(void) {
    create_ports_of_b();
    start_at(9, "P", send_own_two);
    start_at(5, "Q", clear_own);
    set_mode(NORMAL);
}

int main(int count, char **words) {
    expect(count == 2, "usage: c_waits CONFIG");
    text_length = read_config(words[1], text, sizeof text);
    room();
    clearing();
    two_of_three();
    own_ends();
    play(idle_forever, preempting_main, 1, "r@51 s@51 t@56 s@56 ");
    play(idle_forever, clearing_own_main, 1, "p@50 q@50 ");
    printf("%lu answers\n", seen);
    return 0;
}
