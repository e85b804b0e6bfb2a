/* c_partition_forms CONFIG: partitions' code in its common forms, which must neither hang nor starve the bench: servers
 * that wait, busy waits, endless loops, priorities, restarts. Prints what happens when, as worked out by hand in
 * c_partition_forms.txt; what the host says is in c_partition_forms.stderr.txt. */
#include "c_process_test.h"

#include <pthread.h>

static QUEUING_PORT_ID_TYPE in, out;
static QUEUING_DISCIPLINE_TYPE discipline;
static SYSTEM_TIME_TYPE time_out;

static int now(void) {
    SYSTEM_TIME_TYPE time = -1;
    RETURN_CODE_TYPE code;
    GET_TIME(&time, &code);
    return (int)time;
}

/* Runs A from 0 and B from 50 of each 100 nanoseconds, for 20 each. */
static void run_form(const char *what, void (*a)(void), void (*b)(void), int frames) {
    const struct bench_partition first = {a, PERIOD, 0, WINDOW}, second = {b, PERIOD, 50, WINDOW};
    printf("%s\n", what);
    expect(bench_open(text, text_length) == 0, "opening");
    expect((a == NULL || bench_add_partition(0, &first)) && (b == NULL || bench_add_partition(1, &second)), "adding");
    bool is_run = true;
    for (int i = 0; i < frames && is_run; i++) {
        is_run = bench_run_frame(PERIOD);
    }
    bench_end_processes();
    expect(bench_close() == 0, "closing");
    printf("  %s\n", is_run ? "done" : "not done");
}

static void create_out(void) {
    QUEUING_PORT_NAME_TYPE name = "Q_OUT";
    RETURN_CODE_TYPE code;
    CREATE_QUEUING_PORT(name, 64, 4, SOURCE, FIFO, &out, &code);
    answers(code, NO_ERROR, "CREATE_QUEUING_PORT");
}

static void create_in(void) {
    QUEUING_PORT_NAME_TYPE name = "Q_IN";
    RETURN_CODE_TYPE code;
    CREATE_QUEUING_PORT(name, 64, 4, DESTINATION, discipline, &in, &code);
    answers(code, NO_ERROR, "CREATE_QUEUING_PORT");
}

static void send_next(APEX_BYTE *message) {
    RETURN_CODE_TYPE code;
    SEND_QUEUING_MESSAGE(out, message, 1, 0, &code);
    printf("  %d: sent %d, code %d\n", now(), message[0]++, (int)code);
}

/* A server that waits for each message, and its client. */

static void serve(void) {
    for (;;) {
        APEX_BYTE message[64];
        MESSAGE_SIZE_TYPE length;
        RETURN_CODE_TYPE code;
        RECEIVE_QUEUING_MESSAGE(in, INFINITE_TIME_VALUE, message, &length, &code);
        printf("  %d: received %d, %d bytes, code %d\n", now(), message[0], (int)length, (int)code);
    }
}

static void ask(void) {
    APEX_BYTE message[1] = {1};
    for (;;) {
        RETURN_CODE_TYPE code;
        send_next(message);
        PERIODIC_WAIT(&code);
    }
}

static void server_main(void) {
    create_in();
    create("SERVER", serve, INFINITE_TIME_VALUE, true);
    set_mode(NORMAL);
}

static void client_main(void) {
    create_out();
    create("CLIENT", ask, PERIOD, true);
    set_mode(NORMAL);
}

/* Three receivers of three messages each, and what their status is. */

static void receive_three(void) {
    PROCESS_ID_TYPE me;
    RETURN_CODE_TYPE code;
    GET_MY_ID(&me, &code);
    for (int i = 0; i < 3; i++) {
        APEX_BYTE message[64];
        MESSAGE_SIZE_TYPE length;
        RECEIVE_QUEUING_MESSAGE(in, time_out, message, &length, &code);
        printf("  %d: R%d code %d message %d\n", now(), (int)me, (int)code, code == NO_ERROR ? message[0] : -1);
    }
    STOP_SELF();
}

static void ask_status(void) {
    QUEUING_PORT_STATUS_TYPE status;
    RETURN_CODE_TYPE code;
    TIMED_WAIT(15, &code);
    for (;;) {
        GET_QUEUING_PORT_STATUS(in, &status, &code);
        printf("  %d: %d processes wait, %d messages\n", now(), (int)status.WAITING_PROCESSES, (int)status.NB_MESSAGE);
        TIMED_WAIT(100, &code);
    }
}

static void receivers_main(void) {
    create_in();
    start_at(5, "R1", receive_three);
    start_at(9, "R2", receive_three);
    start_at(7, "R3", receive_three);
    start_at(1, "STATUS", ask_status);
    set_mode(NORMAL);
}

static void send_two_and_more(void) {
    APEX_BYTE message[1] = {10};
    send_next(message);
    send_next(message);
    for (;;) {
        RETURN_CODE_TYPE code;
        PERIODIC_WAIT(&code);
        send_next(message);
    }
}

static void sender_main(void) {
    create_out();
    create("SENDER", send_two_and_more, PERIOD, true);
    set_mode(NORMAL);
}

static void run_receivers(const char *what, QUEUING_DISCIPLINE_TYPE by, SYSTEM_TIME_TYPE within, int frames) {
    discipline = by;
    time_out = within;
    run_form(what, sender_main, receivers_main, frames);
}

/* Time-outs of a main process. */

static void timed_main(void) {
    static const SYSTEM_TIME_TYPE times[] = {10, INFINITE_TIME_VALUE, -2, INT64_MAX, 0};
    create_in();
    for (int i = 0; i < 5; i++) {
        APEX_BYTE message[64];
        MESSAGE_SIZE_TYPE length;
        RETURN_CODE_TYPE code;
        RECEIVE_QUEUING_MESSAGE(in, times[i], message, &length, &code);
        printf("  code %d\n", (int)code);
    }
    set_mode(NORMAL);
}

/* Waits that are busy, and loops. */

static void wait_busily(void) {
    const int start = now();
    while (now() < start + 5) {
    }
    printf("  later: %d\n", now());
    STOP_SELF();
}

static void busy_main(void) {
    create("BUSY", wait_busily, INFINITE_TIME_VALUE, true);
    set_mode(NORMAL);
}

static void looping_main(void) {
    set_mode(NORMAL);
    for (;;) {
    }
}

static void spin(void) {
    RETURN_CODE_TYPE code;
    for (;;) {
        TIMED_WAIT(0, &code);
    }
}

static void wait_five(void) {
    RETURN_CODE_TYPE code;
    for (;;) {
        printf("  %d: after 5\n", now());
        TIMED_WAIT(5, &code);
    }
}

static void spinning_main(void) {
    create("SPIN", spin, INFINITE_TIME_VALUE, true);
    create("FIVE", wait_five, INFINITE_TIME_VALUE, true);
    set_mode(NORMAL);
}

/* A process that asks its port for ever, without a wait. */

static void ask_port(void) {
    for (;;) {
        APEX_BYTE message[64];
        MESSAGE_SIZE_TYPE length;
        RETURN_CODE_TYPE code;
        RECEIVE_QUEUING_MESSAGE(in, 0, message, &length, &code);
    }
}

static void asking_main(void) {
    create_in();
    create("ASKING", ask_port, INFINITE_TIME_VALUE, true);
    set_mode(NORMAL);
}

/* A handler for the end of a thread, which waits itself: it doesn't run, and the bench ends. */

static void wait_at_end(void *nothing) {
    RETURN_CODE_TYPE code;
    (void)nothing;
    printf("  the handler waits\n");
    TIMED_WAIT(1, &code);
}

static void wait_with_handler(void) {
    RETURN_CODE_TYPE code;
    pthread_cleanup_push(wait_at_end, NULL);
    for (;;) {
        printf("  %d: waits\n", now());
        PERIODIC_WAIT(&code);
    }
    pthread_cleanup_pop(0);
}

static void handler_main(void) {
    create("HANDLER", wait_with_handler, PERIOD, true);
    set_mode(NORMAL);
}

/* Two priorities. */

static void print_id(void) {
    PROCESS_ID_TYPE me;
    RETURN_CODE_TYPE code;
    GET_MY_ID(&me, &code);
    printf("  process %d\n", (int)me);
    STOP_SELF();
}

static void priorities_main(void) {
    start_at(10, "LOW", print_id);
    start_at(20, "HIGH", print_id);
    set_mode(NORMAL);
}

/* A restart by a process: static data stays. */

static int starts;

static void restart(void) {
    set_mode(COLD_START);
    printf("  it comes back\n");
}

static void restarting_main(void) {
    printf("  %d: main, start %d\n", now(), ++starts);
    create("RESTART", restart, INFINITE_TIME_VALUE, true);
    set_mode(NORMAL);
}

int main(int count, char **words) {
    expect(count == 2, "usage: c_partition_forms CONFIG");
    text_length = read_config(words[1], text, sizeof text);
    run_form("server", client_main, server_main, 3);
    run_receivers("FIFO, without end", FIFO, INFINITE_TIME_VALUE, 4);
    run_receivers("PRIORITY, without end", PRIORITY, INFINITE_TIME_VALUE, 4);
    run_receivers("PRIORITY, within 70", PRIORITY, 70, 4);
    run_receivers("FIFO, within 30", FIFO, 30, 3);
    run_form("time-outs of a main process", NULL, timed_main, 2);
    run_form("busy", busy_main, NULL, 2);
    bench_service_time(2);
    run_form("busy, 2 for each service", busy_main, NULL, 2);
    bench_service_time(0);
    run_form("a loop behind NORMAL", looping_main, NULL, 2);
    run_form("delays of 0", spinning_main, NULL, 2);
    run_form("a port that is asked for ever", NULL, asking_main, 2);
    run_form("a handler for the end", handler_main, NULL, 3);
    run_form("priorities", priorities_main, NULL, 1);
    run_form("restarts", restarting_main, NULL, 3);
    return 0;
}
