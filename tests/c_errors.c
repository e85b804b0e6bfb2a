/* c_errors CONFIG: error handlers, what is done without one, missed deadlines, and turns that don't end; by the rules
 * of docs/C.md. The partition has its windows from 10 to 30 of each 100 nanoseconds. Prints how many answers were seen.
 * What the host says is in c_errors.stderr.txt. */
#include "c_process_test.h"

#include <stdatomic.h>

static void raise_error(const char *words, RETURN_CODE_TYPE wanted) {
    APEX_BYTE message[MAX_ERROR_MESSAGE_SIZE];
    RETURN_CODE_TYPE code;
    memcpy(message, words, strlen(words));
    RAISE_APPLICATION_ERROR(APPLICATION_ERROR, message, (ERROR_MESSAGE_SIZE_TYPE)strlen(words), &code);
    answers(code, wanted, "RAISE_APPLICATION_ERROR");
}

static void status_is(PROCESS_ID_TYPE failed, ERROR_CODE_TYPE kind, const char *words) {
    ERROR_STATUS_TYPE status;
    RETURN_CODE_TYPE code;
    memset(&status, 0x5a, sizeof status);
    GET_ERROR_STATUS(&status, &code);
    answers(code, NO_ERROR, "GET_ERROR_STATUS");
    expect(status.FAILED_PROCESS_ID == failed && status.ERROR_CODE == kind && status.FAILED_ADDRESS != NULL,
           "the error's process and kind");
    expect(status.LENGTH == (ERROR_MESSAGE_SIZE_TYPE)strlen(words) &&
               memcmp(status.MESSAGE, words, strlen(words)) == 0, "the error's message");
}

static void no_status(RETURN_CODE_TYPE wanted) {
    ERROR_STATUS_TYPE status;
    RETURN_CODE_TYPE code;
    GET_ERROR_STATUS(&status, &code);
    answers(code, wanted, "GET_ERROR_STATUS");
}

/* The handler runs before all other processes, a locker of preemption included, and may not wait. */

static void handle(void) {
    LOCK_LEVEL_TYPE level = MINE;
    PROCESS_ID_TYPE id = MINE;
    RETURN_CODE_TYPE codes[7];
    leave('e');
    status_is(1, APPLICATION_ERROR, "first");
    no_status(NO_ACTION);
    TIMED_WAIT(0, &codes[0]);
    PERIODIC_WAIT(&codes[1]);
    SUSPEND_SELF(0, &codes[2]);
    GET_MY_ID(&id, &codes[3]);
    LOCK_PREEMPTION(&level, &codes[4]);
    UNLOCK_PREEMPTION(&level, &codes[5]);
    REPLENISH(1, &codes[6]);
    for (int i = 0; i < 7; i++) {
        answers(codes[i], i < 4 ? INVALID_MODE : NO_ACTION, "a service of the error handler");
    }
    expect(level == MINE && id == MINE, "places of refused services");
    STOP_SELF();
}

static void raises(void) {
    LOCK_LEVEL_TYPE level;
    RETURN_CODE_TYPE code;
    no_status(INVALID_CONFIG);
    LOCK_PREEMPTION(&level, &code);
    START(2, &code);
    raise_error("first", NO_ERROR);
    leave('r');
    raise_error("first", NO_ERROR); /* the handler is there again */
    UNLOCK_PREEMPTION(&level, &code);
    leave('r');
    STOP_SELF();
}

static void higher(void) {
    leave('h');
    STOP_SELF();
}

static void create_handler(void (*entry)(void)) {
    RETURN_CODE_TYPE code;
    CREATE_ERROR_HANDLER(NULL, 4096, &code);
    answers(code, INVALID_CONFIG, "a handler without an entry point");
    CREATE_ERROR_HANDLER(entry, 0, &code);
    answers(code, INVALID_CONFIG, "a handler without a stack");
    CREATE_ERROR_HANDLER(entry, MAX_STACK_SIZE + 1, &code);
    answers(code, INVALID_CONFIG, "a handler with too large a stack");
    CREATE_ERROR_HANDLER(entry, 4096, &code);
    answers(code, NO_ERROR, "CREATE_ERROR_HANDLER");
    CREATE_ERROR_HANDLER(entry, 4096, &code);
    answers(code, NO_ACTION, "a second handler");
}

static void handling_main(void) {
    create_handler(handle);
    start_at(4, "RAISES", raises);
    create("HIGHER", higher, INFINITE_TIME_VALUE, false);
    set_mode(NORMAL);
}

/* A handler that stops the process that failed, and one that raises an error itself: that is for the bench's action. */

static void stop_failed(void) {
    RETURN_CODE_TYPE code;
    leave('e');
    CREATE_ERROR_HANDLER(stop_failed, 4096, &code);
    answers(code, NO_ACTION, "a second handler");
    STOP(1, &code);
    answers(code, NO_ERROR, "STOP of the failed process");
    raise_error("handler", NO_ERROR);
    leave('e');
}

static void is_stopped(void) {
    LOCK_LEVEL_TYPE level;
    RETURN_CODE_TYPE code;
    CREATE_ERROR_HANDLER(stop_failed, 4096, &code);
    LOCK_PREEMPTION(&level, &code);
    raise_error("second", NO_ERROR);
    expect(false, "a process that the handler stopped");
}

static void stopping_main(void) {
    create_handler(stop_failed);
    start_at(5, "STOPPED", is_stopped);
    start_at(4, "HIGHER", higher); /* whose turn it is, although the lock was never given back */
    set_mode(NORMAL);
}

/* A handler can't be created in NORMAL. */

static void creates_late(void) {
    RETURN_CODE_TYPE code;
    CREATE_ERROR_HANDLER(higher, 4096, &code);
    answers(code, INVALID_MODE, "CREATE_ERROR_HANDLER in NORMAL");
    leave('l');
    STOP_SELF();
}

static void late_main(void) {
    start_at(5, "LATE", creates_late);
    set_mode(NORMAL);
}

/* Deadlines: two are missed, one while its process waits and both by the nanosecond behind them. */

static void handle_deadlines(void) {
    ERROR_STATUS_TYPE status;
    RETURN_CODE_TYPE code;
    TIMED_WAIT(1, &code);
    answers(code, INVALID_MODE, "TIMED_WAIT of the error handler");
    leave('e');
    for (GET_ERROR_STATUS(&status, &code); code == NO_ERROR; GET_ERROR_STATUS(&status, &code)) {
        answers((RETURN_CODE_TYPE)status.ERROR_CODE, (RETURN_CODE_TYPE)DEADLINE_MISSED, "the kind of error");
        leave((char)('0' + status.FAILED_PROCESS_ID));
    }
    STOP_SELF();
}

static void misses(void) {
    RETURN_CODE_TYPE code;
    TIMED_WAIT(8, &code);
    leave('m');
    STOP_SELF();
}

static void in_time(void) {
    RETURN_CODE_TYPE code;
    TIMED_WAIT(5, &code);
    leave('t');
    STOP_SELF();
}

static void add_timed(const char *name, void (*entry)(void), SYSTEM_TIME_TYPE capacity) {
    PROCESS_ATTRIBUTE_TYPE a = named(name, entry, INFINITE_TIME_VALUE);
    PROCESS_ID_TYPE id;
    RETURN_CODE_TYPE code;
    a.TIME_CAPACITY = capacity;
    CREATE_PROCESS(&a, &id, &code);
    answers(code, NO_ERROR, "CREATE_PROCESS");
    START(id, &code);
}

static void deadlines_main(void) {
    create_handler(handle_deadlines);
    add_timed("EARLY", misses, 5);
    add_timed("IN_TIME", in_time, 5);
    add_timed("LATER", misses, 7);
    set_mode(NORMAL);
}

/* A process that waits for long misses its deadline outside of the windows, which is handled in the next. */

static void waits_long(void) {
    RETURN_CODE_TYPE code;
    TIMED_WAIT(150, &code);
    leave('w');
    STOP_SELF();
}

static void outside_main(void) {
    create_handler(handle_deadlines);
    add_timed("LONG", waits_long, 30);
    set_mode(NORMAL);
}

/* Each service takes 2, main's four too: BUSY is released at 18 and misses its deadline of 23 in the service that ends
 * at 24, whose turn the handler takes. */

static void stop_late(void) {
    RETURN_CODE_TYPE code;
    leave('e');
    STOP(1, &code);
    answers(code, NO_ERROR, "STOP of the process that is late");
    STOP_SELF();
}

static void is_busy(void) {
    for (;;) {
        leave('b');
    }
}

static void create_only_handler(void (*entry)(void)) {
    RETURN_CODE_TYPE code;
    CREATE_ERROR_HANDLER(entry, 4096, &code);
    answers(code, NO_ERROR, "CREATE_ERROR_HANDLER");
}

static void busy_main(void) {
    create_only_handler(stop_late);
    add_timed("BUSY", is_busy, 5);
    set_mode(NORMAL);
}

/* Each service takes 1, main's six too: NORMAL is set at 16. WAITS waits from 17 on. The handler, which starts at 18
 * for RAISES, has asked for all errors at 20; WAITS misses its deadline of 20 then, and the handler, which ends at 22,
 * starts once more. */

static void ask_for_errors(void) {
    ERROR_STATUS_TYPE status;
    RETURN_CODE_TYPE code;
    for (GET_ERROR_STATUS(&status, &code); code == NO_ERROR; GET_ERROR_STATUS(&status, &code)) {
        strncat(trail, status.ERROR_CODE == DEADLINE_MISSED ? "d " : "a ", sizeof trail - strlen(trail) - 1);
    }
    leave('e');
    STOP_SELF();
}

static void waits_in_vain(void) {
    RETURN_CODE_TYPE code;
    TIMED_WAIT(1000, &code);
    expect(false, "a process that waits for longer than the bench runs");
}

static void raises_once(void) {
    raise_error("once", NO_ERROR);
    leave('r');
    STOP_SELF();
}

static void asking_main(void) {
    create_only_handler(ask_for_errors);
    add_timed("WAITS", waits_in_vain, 4);
    add_timed("RAISES", raises_once, INFINITE_TIME_VALUE);
    set_mode(NORMAL);
}

/* Without a handler: what the bench names. */

static int starts;

static void fails(void) {
    leave('f');
    raise_error("it\\fails", NO_ERROR);
    leave('g');
    STOP_SELF();
}

static void failing_main(void) {
    PARTITION_STATUS_TYPE status;
    RETURN_CODE_TYPE code;
    leave('m');
    GET_PARTITION_STATUS(&status, &code);
    expect(status.START_CONDITION == (starts++ == 0 ? NORMAL_START : HM_PARTITION_RESTART), "the start's condition");
    start_at(5, "FAILS", fails);
    set_mode(NORMAL);
}

static void raising_main(void) {
    QUEUING_PORT_NAME_TYPE name = "Q_IN";
    QUEUING_PORT_ID_TYPE id;
    RETURN_CODE_TYPE code;
    leave('m');
    CREATE_QUEUING_PORT(name, 64, 4, DESTINATION, FIFO, &id, &code);
    answers(code, NO_ERROR, "a port that no start has created");
    raise_error("main", NO_ERROR);
    leave('n');
}

static void missing_main(void) {
    leave('m');
    add_timed("EARLY", misses, 5);
    set_mode(NORMAL);
}

static void run_action(void (*entry)(void), enum bench_action action, int frames, const char *wanted) {
    const struct bench_partition how = {entry, PERIOD, 10, WINDOW};
    starts = 0;
    expect(bench_open(text, text_length) == 0 && bench_add_partition(1, &how), "a partition that is run");
    expect(bench_on_error(1, action), "an action");
    for (int i = 0; i < frames; i++) {
        expect(bench_run_frame(PERIOD), "a frame");
    }
    bench_end_processes();
    expect(bench_close() == 0, "closing");
    has_left(wanted);
}

static void actions(void) {
    expect(!bench_on_error(1, BENCH_IDLE), "an action of a partition that wasn't added");
    expect(!bench_on_error(32, BENCH_IDLE), "an action of no partition");
    run_action(failing_main, BENCH_IGNORE, 2, "m@10 f@10 g@10 ");
    run_action(failing_main, BENCH_IDLE, 2, "m@10 f@10 ");
    run_action(failing_main, BENCH_COLD_START, 2, "m@10 f@10 m@110 f@110 ");
    run_action(failing_main, BENCH_WARM_START, 2, "m@10 f@10 m@110 f@110 ");
    run_action(raising_main, BENCH_IGNORE, 2, "m@10 n@10 ");
    run_action(raising_main, BENCH_IDLE, 2, "m@10 ");
    run_action(raising_main, BENCH_WARM_START, 2, "m@10 m@110 ");
    run_action(missing_main, BENCH_COLD_START, 2, "m@10 m@110 ");
}

/* Turns that don't end. */

static atomic_bool is_watched;

static void wakes(const char *line) {
    fprintf(stderr, "sink: %s\n", line);
    atomic_store(&is_watched, true);
}

static void runs_on(void) {
    leave('r');
    while (!atomic_load(&is_watched)) {
    }
    leave('r');
    STOP_SELF();
}

static void running_main(void) {
    start_at(5, "RUNS_ON", runs_on);
    set_mode(NORMAL);
}

static void call_on(void) {
    for (;;) {
        PROCESS_ID_TYPE id;
        RETURN_CODE_TYPE code;
        GET_MY_ID(&id, &code);
    }
}

static void calling_main(void) {
    start_at(5, "CALLS_ON", call_on);
    set_mode(NORMAL);
}

/* Two processes that resume each other for ever at one moment. */
static void resumes(void) {
    PROCESS_ID_TYPE id;
    RETURN_CODE_TYPE code;
    GET_MY_ID(&id, &code);
    for (;;) {
        RESUME(3 - id, &code);
        SUSPEND_SELF(INFINITE_TIME_VALUE, &code);
    }
}

static void resuming_main(void) {
    start_at(5, "ONE", resumes);
    start_at(5, "OTHER", resumes);
    set_mode(NORMAL);
}

static void is_not_run(void (*entry)(void)) {
    const struct bench_partition how = {entry, PERIOD, 10, WINDOW};
    expect(bench_open(text, text_length) == 0 && bench_add_partition(1, &how), "a partition that is run");
    expect(!bench_run_frame(PERIOD), "a frame with a turn that doesn't end");
    expect(!bench_run_frame(PERIOD), "a frame after it");
    bench_end_processes();
    expect(bench_close() == 0, "closing");
    seen++;
}

/* Each service takes 3, main's three too: the seventh has 2 left of the window, and is made when the next begins. */
static void counts(void) {
    for (int i = 0; i < 9; i++) {
        leave('c');
    }
    STOP_SELF();
}

static void counting_main(void) {
    start_at(5, "COUNTS", counts);
    set_mode(NORMAL);
}

int main(int count, char **words) {
    expect(count == 2, "usage: c_errors CONFIG");
    text_length = read_config(words[1], text, sizeof text);
    run_frames(handling_main, 1);
    has_left("e@10 r@10 e@10 h@10 r@10 ");
    run_frames(stopping_main, 1);
    has_left("e@10 e@10 h@10 ");
    run_frames(late_main, 1);
    has_left("l@10 ");
    run_frames(deadlines_main, 1);
    has_left("t@15 e@16 1@16 e@18 3@18 m@18 m@18 ");
    run_frames(outside_main, 3);
    has_left("e@110 1@110 w@210 ");
    actions();
    bench_watch(1);
    bench_tell_to(wakes);
    run_frames(running_main, 1);
    bench_tell_to(NULL);
    bench_watch(10);
    has_left("r@10 r@10 ");
    is_not_run(calling_main);
    is_not_run(resuming_main);
    bench_service_time(3);
    run_frames(counting_main, 2);
    has_left("c@22 c@25 c@28 c@110 c@113 c@116 c@119 c@122 c@125 ");
    bench_service_time(2);
    run_frames(busy_main, 1);
    has_left("b@20 b@22 e@26 ");
    bench_service_time(1);
    run_frames(asking_main, 1);
    bench_service_time(0);
    has_left("a e@21 d e@25 r@27 ");
    printf("%lu answers\n", seen);
    return 0;
}
