/* c_processes CONFIG: each service of bench_processes.h with each of its return codes, by the rules of docs/C.md.
 * Prints how many answers were seen. What the host says on standard error is in c_processes.stderr.txt. */
#include "c_process_test.h"

static void idle_process(void) { STOP_SELF(); }

/* CREATE_PROCESS. */

static void create_is(const PROCESS_ATTRIBUTE_TYPE *attributes, RETURN_CODE_TYPE wanted, const char *what) {
    PROCESS_ATTRIBUTE_TYPE a = *attributes;
    PROCESS_ID_TYPE id = MINE;
    RETURN_CODE_TYPE code;
    CREATE_PROCESS(&a, &id, &code);
    answers(code, wanted, what);
    expect((id == MINE) == (wanted != NO_ERROR), "the place for the identifier");
}

#define WRONG(field, value, wanted)                                                                                    \
    do {                                                                                                               \
        PROCESS_ATTRIBUTE_TYPE wrong = named("WRONG", idle_process, PERIOD);                                           \
        wrong.field = value;                                                                                           \
        create_is(&wrong, wanted, #field " of " #value);                                                               \
    } while (0)

static void wrong_attributes(void) {
    WRONG(STACK_SIZE, 0, INVALID_PARAM);
    WRONG(STACK_SIZE, MAX_STACK_SIZE + 1, INVALID_PARAM);
    WRONG(BASE_PRIORITY, MIN_PRIORITY_VALUE - 1, INVALID_PARAM);
    WRONG(BASE_PRIORITY, MAX_PRIORITY_VALUE + 1, INVALID_PARAM);
    WRONG(PERIOD, 0, INVALID_PARAM);
    WRONG(PERIOD, -2, INVALID_PARAM);
    WRONG(PERIOD, PERIOD + 1, INVALID_CONFIG);
    WRONG(PERIOD, PERIOD / 2, INVALID_CONFIG);
    WRONG(TIME_CAPACITY, 0, INVALID_PARAM);
    WRONG(TIME_CAPACITY, -2, INVALID_PARAM);
    WRONG(TIME_CAPACITY, PERIOD + 1, INVALID_PARAM);
    WRONG(DEADLINE, (DEADLINE_TYPE)2, INVALID_PARAM);
    WRONG(ENTRY_POINT, NULL, INVALID_PARAM);
    WRONG(NAME[0], '\0', INVALID_PARAM);
}

static void creating_main(void) {
    PROCESS_ATTRIBUTE_TYPE a = named("FIRST", idle_process, INFINITE_TIME_VALUE);
    PROCESS_ID_TYPE id = MINE;
    RETURN_CODE_TYPE code = TIMED_OUT;
    wrong_attributes();
    CREATE_PROCESS(NULL, &id, &code);
    answers(code, INVALID_PARAM, "CREATE_PROCESS without attributes");
    CREATE_PROCESS(&a, NULL, &code);
    answers(code, INVALID_PARAM, "CREATE_PROCESS without a place for the identifier");
    CREATE_PROCESS(&a, &id, NULL);
    expect(id == MINE, "CREATE_PROCESS without a place for the code");
    CREATE_PROCESS(&a, &id, &code);
    answers(code, NO_ERROR, "CREATE_PROCESS");
    expect(id == 1, "the first identifier");
    create_is(&a, NO_ACTION, "a name that is there");
    WRONG(TIME_CAPACITY, PERIOD, NO_ERROR);
    a.NAME[0] = 'a';
    for (int i = 3; i <= MAX_NUMBER_OF_PROCESSES; i++, a.NAME[0]++) {
        create_is(&a, NO_ERROR, "processes as far as their number");
    }
    create_is(&a, INVALID_CONFIG, "one more process");
}

static void creating_in_normal(void) {
    PROCESS_ATTRIBUTE_TYPE a = named("LATE", idle_process, PERIOD);
    create_is(&a, INVALID_MODE, "CREATE_PROCESS in NORMAL");
    leave('c');
    STOP_SELF();
}

static void creating_in_normal_main(void) {
    create("CREATING", creating_in_normal, INFINITE_TIME_VALUE, true);
    set_mode(NORMAL);
    expect(false, "NORMAL doesn't come back to the main process");
}

/* START and GET_MY_ID. */

static void tell_id(void) {
    PROCESS_ID_TYPE id = MINE;
    RETURN_CODE_TYPE code;
    GET_MY_ID(NULL, &code);
    answers(code, INVALID_PARAM, "GET_MY_ID without a place");
    GET_MY_ID(&id, NULL);
    expect(id == MINE, "GET_MY_ID without a place for the code");
    GET_MY_ID(&id, &code);
    answers(code, NO_ERROR, "GET_MY_ID");
    leave((char)('0' + id));
    START(id, &code);
    answers(code, NO_ACTION, "START of itself");
    STOP_SELF();
    expect(false, "STOP_SELF doesn't come back");
}

static void starting_main(void) {
    PROCESS_ATTRIBUTE_TYPE a = named("FAR", idle_process, INFINITE_TIME_VALUE);
    PROCESS_ID_TYPE id = MINE;
    RETURN_CODE_TYPE code = TIMED_OUT;
    GET_MY_ID(&id, &code);
    answers(code, INVALID_MODE, "GET_MY_ID of the main process");
    expect(id == MINE, "the place for the identifier");
    create("ONE", tell_id, INFINITE_TIME_VALUE, false);
    create("TWO", tell_id, INFINITE_TIME_VALUE, true);
    a.TIME_CAPACITY = INT64_MAX;
    CREATE_PROCESS(&a, &id, &code);
    START(id, &code);
    answers(code, INVALID_CONFIG, "START with a deadline beyond all time");
    memcpy(a.NAME, "EDGE", 5);
    a.TIME_CAPACITY = INT64_MAX - 10;
    CREATE_PROCESS(&a, &id, &code);
    START(id, &code);
    answers(code, NO_ERROR, "START with a deadline at the end of all time");
    START(0, &code);
    answers(code, INVALID_PARAM, "START of process 0");
    START(5, &code);
    answers(code, INVALID_PARAM, "START of a process that isn't there");
    START(1, NULL);
    START(2, &code);
    answers(code, NO_ACTION, "START of a started process");
    START(1, &code);
    answers(code, NO_ERROR, "START");
    set_mode(NORMAL);
}

/* A process that starts another each time, which has stopped meanwhile. */
static void starter(void) {
    RETURN_CODE_TYPE code;
    for (;;) {
        START(1, &code);
        answers(code, NO_ERROR, "START of a stopped process");
        leave('s');
        PERIODIC_WAIT(&code);
    }
}

static void restarting_main(void) {
    create("ONE", tell_id, INFINITE_TIME_VALUE, false);
    create("STARTER", starter, PERIOD, true);
    set_mode(NORMAL);
}

/* The waits. */

static void periodic(void) {
    RETURN_CODE_TYPE code;
    PERIODIC_WAIT(NULL);
    for (;;) {
        leave('p');
        PERIODIC_WAIT(&code);
        answers(code, NO_ERROR, "PERIODIC_WAIT");
    }
}

static void slower(void) {
    RETURN_CODE_TYPE code;
    for (;;) {
        leave('q');
        TIMED_WAIT(0, &code);
        leave('r');
        PERIODIC_WAIT(&code);
    }
}

/* Its delays end within the window, at its end, which is beyond it, and in the next but one. */
static void aperiodic(void) {
    static const SYSTEM_TIME_TYPE delays[] = {0, 5, 14, 1, 200};
    RETURN_CODE_TYPE code;
    PERIODIC_WAIT(&code);
    answers(code, INVALID_MODE, "PERIODIC_WAIT of an aperiodic process");
    TIMED_WAIT(INFINITE_TIME_VALUE, &code);
    answers(code, INVALID_PARAM, "TIMED_WAIT without end");
    TIMED_WAIT(-2, &code);
    answers(code, INVALID_PARAM, "TIMED_WAIT of less than nothing");
    TIMED_WAIT(INT64_MAX, &code);
    answers(code, INVALID_PARAM, "TIMED_WAIT beyond all time");
    TIMED_WAIT(1, NULL);
    for (int i = 0; i < 5; i++) {
        leave('a');
        TIMED_WAIT(delays[i], &code);
        answers(code, NO_ERROR, "TIMED_WAIT");
    }
    leave('a');
}

static void waiting_main(void) {
    RETURN_CODE_TYPE code;
    PERIODIC_WAIT(&code);
    answers(code, INVALID_MODE, "PERIODIC_WAIT of the main process");
    TIMED_WAIT(1, &code);
    answers(code, INVALID_MODE, "TIMED_WAIT of the main process");
    STOP_SELF();
    create("APERIODIC", aperiodic, INFINITE_TIME_VALUE, true);
    create("SLOWER", slower, 2 * PERIOD, true);
    create("PERIODIC", periodic, PERIOD, true);
    leave('m');
    set_mode(NORMAL);
}

static void late(void) {
    RETURN_CODE_TYPE code;
    TIMED_WAIT(5, &code);
    leave('l');
    TIMED_WAIT(1, &code);
    leave('l');
    TIMED_WAIT(1, &code);
    leave('l');
    PERIODIC_WAIT(&code);
    leave('l');
    TIMED_WAIT(6, &code);
    leave('l');
    STOP_SELF();
}

static int turned;

static void turning(void) {
    RETURN_CODE_TYPE code;
    for (;; turned++) {
        TIMED_WAIT(0, &code);
    }
}

static void late_main(void) {
    PROCESS_ATTRIBUTE_TYPE a = named("LATE", late, PERIOD);
    PROCESS_ID_TYPE id;
    RETURN_CODE_TYPE code;
    a.TIME_CAPACITY = 5;
    CREATE_PROCESS(&a, &id, &code);
    START(id, &code);
    set_mode(NORMAL);
}

static void turning_main(void) {
    create("TURNING", turning, INFINITE_TIME_VALUE, true);
    set_mode(NORMAL);
}

/* GET_TIME, GET_PARTITION_STATUS, and the errors. */

static void status_is(OPERATING_MODE_TYPE mode, START_CONDITION_TYPE condition) {
    PARTITION_STATUS_TYPE status;
    RETURN_CODE_TYPE code;
    memset(&status, 0x5a, sizeof status);
    GET_PARTITION_STATUS(&status, &code);
    answers(code, NO_ERROR, "GET_PARTITION_STATUS");
    expect(status.PERIOD == PERIOD && status.DURATION == WINDOW && status.IDENTIFIER == 1 && status.LOCK_LEVEL == 0 &&
               status.OPERATING_MODE == mode && status.START_CONDITION == condition, "the partition's status");
}

static void errors_are_told(void) {
    APEX_BYTE message[MAX_ERROR_MESSAGE_SIZE + 1] = "a\\b\n";
    RETURN_CODE_TYPE code;
    REPORT_APPLICATION_MESSAGE(NULL, 1, &code);
    answers(code, INVALID_PARAM, "REPORT_APPLICATION_MESSAGE without a message");
    REPORT_APPLICATION_MESSAGE(message, -1, &code);
    answers(code, INVALID_PARAM, "REPORT_APPLICATION_MESSAGE of less than nothing");
    REPORT_APPLICATION_MESSAGE(message, MAX_ERROR_MESSAGE_SIZE + 1, &code);
    answers(code, INVALID_PARAM, "REPORT_APPLICATION_MESSAGE of too much");
    REPORT_APPLICATION_MESSAGE(message, 4, NULL);
    REPORT_APPLICATION_MESSAGE(message, 4, &code);
    answers(code, NO_ERROR, "REPORT_APPLICATION_MESSAGE");
    RAISE_APPLICATION_ERROR(APPLICATION_ERROR, NULL, 1, &code);
    answers(code, INVALID_PARAM, "RAISE_APPLICATION_ERROR without a message");
    RAISE_APPLICATION_ERROR(NUMERIC_ERROR, message, 4, &code);
    answers(code, INVALID_PARAM, "RAISE_APPLICATION_ERROR of another kind");
    RAISE_APPLICATION_ERROR(APPLICATION_ERROR, message, -1, &code);
    answers(code, INVALID_PARAM, "RAISE_APPLICATION_ERROR of less than nothing");
    RAISE_APPLICATION_ERROR(APPLICATION_ERROR, message, MAX_ERROR_MESSAGE_SIZE + 1, &code);
    answers(code, INVALID_PARAM, "RAISE_APPLICATION_ERROR of too much");
    RAISE_APPLICATION_ERROR(APPLICATION_ERROR, message, 4, NULL);
    RAISE_APPLICATION_ERROR(APPLICATION_ERROR, message, 1, &code);
    answers(code, NO_ERROR, "RAISE_APPLICATION_ERROR");
}

static void telling(void) {
    status_is(NORMAL, NORMAL_START);
    errors_are_told();
    STOP_SELF();
}

static void telling_main(void) {
    RETURN_CODE_TYPE code;
    GET_TIME(NULL, &code);
    answers(code, INVALID_PARAM, "GET_TIME without a place");
    GET_PARTITION_STATUS(NULL, &code);
    answers(code, INVALID_PARAM, "GET_PARTITION_STATUS without a place");
    status_is(COLD_START, NORMAL_START);
    create("TELLING", telling, INFINITE_TIME_VALUE, true);
    set_mode(NORMAL);
}

int main(int count, char **words) {
    expect(count == 2, "usage: c_processes CONFIG");
    text_length = read_config(words[1], text, sizeof text);
    run_frames(creating_main, 1);
    run_frames(creating_in_normal_main, 1);
    has_left("c@10 ");
    run_frames(starting_main, 1);
    has_left("1@10 2@10 ");
    run_frames(restarting_main, 3);
    has_left("s@110 1@110 s@210 1@210 ");
    run_frames(waiting_main, 4);
    has_left("m@10 a@10 a@10 a@15 a@29 a@110 q@110 p@110 r@110 p@210 a@310 q@310 p@310 r@310 ");
    run_frames(late_main, 3);
    has_left("l@115 l@116 l@117 l@210 l@216 ");
    run_frames(turning_main, 2);
    expect(turned == 2 * 1000 - 1, "the delays of 0 in two windows, the last of which goes on");
    run_frames(telling_main, 1);
    printf("%lu answers\n", seen);
    return 0;
}
