/* c_faults CONFIG: faults that a bench injects, by the rules of docs/C.md. Prints what each partition sees, and the
 * log, as worked out by hand in c_faults.txt. */
#include "c_process_test.h"

enum { Q = 0, P = 1, OUT = 1, IN = 1, SAMPLING = 2 };

static int now(void) {
    SYSTEM_TIME_TYPE time = -1;
    RETURN_CODE_TYPE code;
    GET_TIME(&time, &code);
    return (int)time;
}

/* A sends a message at 100, 200 and so on, the fifth until 680; and writes each. */
static void send_each(void) {
    for (APEX_BYTE i = 1;; i++) {
        RETURN_CODE_TYPE sent, written;
        SEND_QUEUING_MESSAGE(OUT, &i, 1, i == 5 ? 180 : 0, &sent);
        WRITE_SAMPLING_MESSAGE(SAMPLING, &i, 1, &written);
        printf("%d: A sends %d, codes %d %d\n", now(), i, (int)sent, (int)written);
        PERIODIC_WAIT(&sent);
    }
}

/* While that one waits another isn't sent either. */
static void send_another(void) {
    APEX_BYTE byte = 9;
    RETURN_CODE_TYPE code;
    QUEUING_PORT_STATUS_TYPE status;
    TIMED_WAIT(505, &code);
    GET_QUEUING_PORT_STATUS(9, &status, &code);
    expect(bench_last_words()[0] != '\0', "why a call was refused");
    SEND_QUEUING_MESSAGE(OUT, &byte, 1, 0, &code);
    expect(bench_last_words()[0] == '\0', "no words where a fault refuses");
    printf("%d: A sends 9, code %d\n", now(), (int)code);
    STOP_SELF();
}

static void receive_all(void) {
    RETURN_CODE_TYPE code;
    for (;;) {
        APEX_BYTE message[4];
        MESSAGE_SIZE_TYPE length;
        VALIDITY_TYPE validity;
        READ_SAMPLING_MESSAGE(SAMPLING, message, &length, &validity, &code);
        printf("%d: B reads %d, receives", now(), code == NO_ERROR ? message[0] : 0);
        for (;;) {
            RECEIVE_QUEUING_MESSAGE(IN, 0, message, &length, &code);
            if (code != NO_ERROR) {
                break;
            }
            printf(" %d", message[0]);
        }
        printf("\n");
        PERIODIC_WAIT(&code);
    }
}

static void main_of(const char *port, const char *sampling, PORT_DIRECTION_TYPE direction, void (*entry)(void)) {
    NAME_TYPE name;
    APEX_INTEGER id;
    bench_name(name, port);
    IS(NO_ERROR, CREATE_QUEUING_PORT, name, 4, 2, direction, FIFO, &id);
    bench_name(name, sampling);
    IS(NO_ERROR, CREATE_SAMPLING_PORT, name, 4, direction, 1000, &id);
    create("EACH", entry, PERIOD, true);
    if (direction == SOURCE) {
        create("ANOTHER", send_another, INFINITE_TIME_VALUE, true);
    }
    set_mode(NORMAL);
}

static void a_main(void) { main_of("Q_OUT", "P_OUT", SOURCE, send_each); }
static void b_main(void) { main_of("Q_IN", "P_IN", DESTINATION, receive_all); }

static void is_added(bool wanted, struct bench_fault fault, const char *what) {
    expect(bench_add_fault(&fault) == wanted, what);
}

static void count(const char *line) { seen += line[0] != '\0'; }

/* What is no fault; a line for each. */
static void refusals(void) {
    bench_tell_to(count);
    seen = 0;
    expect(!bench_add_fault(NULL), "no fault");
    is_added(false, (struct bench_fault){.kind = (enum bench_fault_kind)3}, "an unknown kind");
    is_added(false, (struct bench_fault){.channel = 2}, "no channel");
    is_added(false, (struct bench_fault){.from = -1}, "a moment before 0");
    is_added(false, (struct bench_fault){.until = -1}, "an end before 0");
    is_added(false, (struct bench_fault){.kind = BENCH_DELAY}, "a delay of nothing");
    is_added(false, (struct bench_fault){.kind = BENCH_DELAY, .delay = INT64_MAX}, "a delay beyond all time");
    is_added(false, (struct bench_fault){.kind = BENCH_DROP, .delay = 1}, "a delay of what is dropped");
    is_added(false, (struct bench_fault){.kind = BENCH_FULL, .channel = P}, "a sampling channel that is full");
    expect(seen == 9, "a line for each");
    bench_tell_to(NULL);
}

/* The report has the calls alone, by their numbers. */
static void expect_calls(const char *last) {
    static char report[8192];
    FILE *file = fmemopen(report, sizeof report, "w");
    expect(file != NULL && bench_report(file), "the report");
    fclose(file);
    expect(strstr(report, last) != NULL && strstr(report, "bench") == NULL, "the report's calls");
}

int main(int words_count, char **words) {
    const struct bench_partition a = {a_main, PERIOD, 0, WINDOW}, b = {b_main, PERIOD, 50, WINDOW};
    expect(words_count == 2, "usage: c_faults CONFIG");
    text_length = read_config(words[1], text, sizeof text);
    expect(bench_open(text, text_length) == 0 && bench_keep_calls(true), "opening");
    expect(bench_add_partition(0, &a) && bench_add_partition(1, &b), "adding");
    refusals();
    is_added(true, (struct bench_fault){.channel = Q, .until = 100}, "nothing is sent before 100");
    is_added(true, (struct bench_fault){.channel = Q, .first = 100}, "there is no hundredth message");
    is_added(true, (struct bench_fault){.channel = Q, .from = 700, .until = 750, .first = 3}, "nor a third of 700");
    is_added(true, (struct bench_fault){.kind = BENCH_DELAY, .channel = Q, .from = 640, .until = 660, .delay = 1},
             "nor one while the queue has room again, for the fifth, which is sent at 700");
    is_added(true, (struct bench_fault){.channel = Q, .first = 2, .count = 1}, "the second message is dropped");
    is_added(true, (struct bench_fault){.kind = BENCH_DELAY, .channel = Q, .from = 300, .until = 301, .delay = 100},
             "the message of 300 is delayed");
    is_added(true, (struct bench_fault){.kind = BENCH_FULL, .channel = Q, .from = 500, .until = 650}, "held full");
    is_added(true, (struct bench_fault){.channel = P, .first = 3, .count = 2}, "two samples are dropped");
    is_added(true, (struct bench_fault){.kind = BENCH_DELAY, .channel = P, .first = 5, .count = 1, .delay = 120},
             "a sample is delayed");
    for (int i = 0; i < 9; i++) {
        expect(bench_run_frame(PERIOD), "a frame");
    }
    expect(bench_log(stdout), "the log");
    expect_calls("\n42 850 B receive NOT_AVAILABLE\npartition A mode NORMAL calls 17\n");
    bench_end_processes();
    expect(bench_close() == 0, "closing");
    return 0;
}
