/* c_frames CONFIG: the bench's calls of bench_processes.h: what they refuse, the order of the windows and their
 * moments, restarts, a partition in IDLE, a module that is closed, and calls by no process; by the rules of docs/C.md.
 * Prints how many answers were seen. What the host says on standard error is in c_frames.stderr.txt. */
#include "c_process_test.h"

static void nothing(void) {}

/* Calls by a thread that is no process. */

static void calls_by_no_process(void) {
    PROCESS_ATTRIBUTE_TYPE a = named("NONE", nothing, PERIOD);
    PROCESS_ID_TYPE id = MINE;
    SYSTEM_TIME_TYPE time = MINE;
    PARTITION_STATUS_TYPE status;
    APEX_BYTE message[1] = "a";
    RETURN_CODE_TYPE codes[9];
    CREATE_PROCESS(&a, &id, &codes[0]);
    START(1, &codes[1]);
    GET_MY_ID(&id, &codes[2]);
    TIMED_WAIT(1, &codes[3]);
    PERIODIC_WAIT(&codes[4]);
    GET_TIME(&time, &codes[5]);
    GET_PARTITION_STATUS(&status, &codes[6]);
    REPORT_APPLICATION_MESSAGE(message, 1, &codes[7]);
    RAISE_APPLICATION_ERROR(APPLICATION_ERROR, message, 1, &codes[8]);
    for (int i = 0; i < 9; i++) {
        answers(codes[i], INVALID_CONFIG, "a call by no process");
    }
    STOP_SELF();
    expect(id == MINE && time == MINE, "places of calls by no process");
}

/* What the bench's calls refuse. */

static void is_added(bool wanted, uint32_t partition, struct bench_partition how, const char *what) {
    expect(bench_add_partition(partition, &how) == wanted, what);
    seen++;
}

static void is_run(bool wanted, SYSTEM_TIME_TYPE length, const char *what) {
    expect(bench_run_frame(length) == wanted, what);
    seen++;
}

static void refusals(void) {
    is_added(false, 0, (struct bench_partition){nothing, 100, 0, 10}, "a module that isn't open");
    expect(bench_open(text, text_length) == 0, "opening");
    is_run(false, 100, "a frame without a partition");
    is_added(false, 3, (struct bench_partition){nothing, 100, 0, 10}, "a partition that isn't there");
    is_added(false, UINT32_MAX, (struct bench_partition){nothing, 100, 0, 10}, "a partition far beyond");
    expect(!bench_add_partition(0, NULL), "no partition");
    is_added(false, 0, (struct bench_partition){NULL, 100, 0, 10}, "no entry");
    is_added(false, 0, (struct bench_partition){nothing, 100, -1, 10}, "an offset before 0");
    is_added(false, 0, (struct bench_partition){nothing, 100, 0, 0}, "no duration");
    is_added(false, 0, (struct bench_partition){nothing, 100, 0, 101}, "a window longer than its period");
    is_added(false, 0, (struct bench_partition){nothing, 100, 91, 10}, "a window beyond its period");
    is_added(true, 0, (struct bench_partition){nothing, 100, 90, 10}, "a window at its period's end");
    is_added(false, 0, (struct bench_partition){nothing, 100, 0, 10}, "a partition once more");
    is_added(false, 1, (struct bench_partition){nothing, 100, 81, 10}, "a window that ends within another");
    is_added(false, 1, (struct bench_partition){nothing, 100, 90, 1}, "a window that begins with another");
    is_added(false, 1, (struct bench_partition){nothing, 150, 49, 2}, "a window that meets another in time");
    is_added(true, 1, (struct bench_partition){nothing, 150, 100, 40}, "a window beside the others of each period");
    is_run(false, 0, "a frame of no length");
    is_run(false, -300, "a frame of less than nothing");
    is_run(false, 150, "a frame that is no multiple of each period");
    is_run(false, INT64_MAX / 300 * 300, "a frame beyond all time");
    is_run(true, 300, "a frame");
    is_added(false, 2, (struct bench_partition){nothing, 300, 0, 10}, "a partition after the first frame");
    bench_end_processes();
    is_run(false, 300, "a frame after the end");
    is_added(true, 2, (struct bench_partition){nothing, 100, 0, 10}, "a partition after the end");
    expect(bench_close() == 0, "closing");
    is_run(false, 300, "a frame of a closed module");
    bench_end_processes();
}

/* The order of the windows, and the moments of the partitions' calls. */

static void three_times(char letter) {
    RETURN_CODE_TYPE code;
    for (;;) {
        leave(letter);
        TIMED_WAIT(3, &code);
        leave(letter);
        PERIODIC_WAIT(&code);
    }
}

static void run_f(void) { three_times('f'); }
static void run_a(void) { three_times('a'); }

static void f_main(void) {
    create("F", run_f, 100, true);
    set_mode(NORMAL);
}

static void a_main(void) {
    SAMPLING_PORT_NAME_TYPE name = "SPD_OUT";
    SAMPLING_PORT_ID_TYPE id;
    APEX_BYTE message[1] = "a";
    RETURN_CODE_TYPE code;
    CREATE_SAMPLING_PORT(name, 4, SOURCE, 50, &id, &code);
    answers(code, NO_ERROR, "CREATE_SAMPLING_PORT");
    WRITE_SAMPLING_MESSAGE(id, message, 1, &code);
    answers(code, NO_ERROR, "WRITE_SAMPLING_MESSAGE");
    create("A", run_a, 100, true);
    set_mode(NORMAL);
}

static void order_of_windows(void) {
    APEX_BYTE message[APEX_MESSAGE_LIMIT];
    uint32_t length;
    uint64_t at = 0;
    expect(bench_open(text, text_length) == 0, "opening");
    is_added(true, 2, (struct bench_partition){a_main, 50, 7, 5}, "a window each 50");
    is_added(true, 0, (struct bench_partition){f_main, 100, 2, 5}, "a window each 100");
    is_run(true, 100, "the first frame");
    is_run(true, 200, "a longer frame");
    has_left("a@57 a@60 f@102 f@105 a@157 a@160 f@202 f@205 a@257 a@260 ");
    apex_last_sample(bench_take_handle(), 1, message, sizeof message, &length, &at);
    bench_give_handle_back();
    expect(at == 7, "the moment of a write");
    bench_end_processes();
    expect(bench_close() == 0, "closing");
}

/* A frame has the windows that begin before its end. NORMAL is set by the bench here, after the main process. */

static void each_period(void) {
    RETURN_CODE_TYPE code;
    for (;;) {
        leave('e');
        PERIODIC_WAIT(&code);
    }
}

static void once(void) {
    leave('o');
    STOP_SELF();
}

static void initial_main(void) {
    leave('m');
    create("EACH", each_period, PERIOD, true);
    create("ONCE", once, INFINITE_TIME_VALUE, true);
}

static void ends_of_frames(void) {
    expect(bench_open(text, text_length) == 0, "opening");
    is_added(true, 1, (struct bench_partition){initial_main, PERIOD, 0, WINDOW}, "a window at the start");
    is_run(true, PERIOD, "the first frame");
    is_run(true, PERIOD, "a frame before NORMAL");
    has_left("m@0 ");
    bench_set_partition(1);
    set_mode(NORMAL);
    is_run(true, PERIOD, "a frame in NORMAL");
    has_left("e@200 o@200 ");
    is_run(true, PERIOD, "the last frame");
    has_left("e@300 ");
    bench_end_processes();
    expect(bench_close() == 0, "closing");
}

/* Restarts, IDLE and closing, by a process. Another one waits meanwhile. */

static int starts;

static void waits(void) {
    RETURN_CODE_TYPE code;
    leave('w');
    TIMED_WAIT(1000, &code);
    expect(false, "a process of a partition that has left NORMAL");
}

static void leaves_for(OPERATING_MODE_TYPE mode) {
    leave('p');
    set_mode(mode);
    expect(false, "a change of the mode comes back");
}

static void leaves(void) { leaves_for(starts == 1 ? COLD_START : starts == 2 ? WARM_START : IDLE); }

static void restarting_main(void) {
    PARTITION_STATUS_TYPE status;
    RETURN_CODE_TYPE code;
    leave('m');
    GET_PARTITION_STATUS(&status, &code);
    expect(status.START_CONDITION == (starts == 0 ? NORMAL_START : PARTITION_RESTART), "the condition of the start");
    expect(status.OPERATING_MODE == (starts == 2 ? WARM_START : COLD_START), "the mode of the start");
    starts++;
    expect(create("WAITS", waits, INFINITE_TIME_VALUE, true) == 1, "the first process again");
    create("LEAVES", leaves, PERIOD, true);
    set_mode(NORMAL);
}

static void idle_main(void) {
    leave('i');
    create("WAITS", waits, INFINITE_TIME_VALUE, true);
    set_mode(IDLE);
    expect(false, "IDLE comes back");
}

/* Restarts the partition from its initialisation, if it is in COLD_START. */
static void cold_main(void) {
    leave('c');
    create("WAITS", waits, INFINITE_TIME_VALUE, true);
    set_mode(COLD_START);
    expect(false, "COLD_START comes back");
}

static void not_normal_main(void) {
    leave('m');
    create("WAITS", waits, INFINITE_TIME_VALUE, true);
}

static void restarts(void) {
    run_frames(restarting_main, 8);
    has_left("m@10 w@10 p@110 m@210 w@210 p@310 m@410 w@410 p@510 ");
    run_frames(idle_main, 2);
    has_left("i@10 ");
    run_frames(cold_main, 2);
    has_left("c@10 c@110 ");
    run_frames(not_normal_main, 2);
    has_left("m@10 ");
}

static void closes(void) {
    RETURN_CODE_TYPE code;
    is_run(false, 100, "a frame by a process");
    is_added(false, 0, (struct bench_partition){nothing, 100, 0, 10}, "a partition by a process");
    bench_end_processes();
    expect(bench_close() == 0, "closing by a process");
    PERIODIC_WAIT(&code);
    expect(false, "a service of a closed module");
}

static void closes_main(void) {
    create("CLOSES", closes, PERIOD, true);
    set_mode(NORMAL);
}

static void main_closes(void) {
    SYSTEM_TIME_TYPE time;
    RETURN_CODE_TYPE code;
    expect(bench_close() == 0, "closing by a main process");
    GET_TIME(&time, &code);
    answers(code, INVALID_CONFIG, "a service of a closed module");
}

static void closings(void) {
    void (*const entries[])(void) = {closes_main, main_closes};
    for (int i = 0; i < 2; i++) {
        expect(bench_open(text, text_length) == 0, "opening");
        is_added(true, 1, (struct bench_partition){entries[i], PERIOD, 10, WINDOW}, "a partition");
        is_run(i == 0, PERIOD, "the first frame");
        is_run(false, PERIOD, "a frame of a closed module");
        bench_end_processes();
    }
}

int main(int count, char **words) {
    expect(count == 2, "usage: c_frames CONFIG");
    text_length = read_config(words[1], text, sizeof text);
    calls_by_no_process();
    expect(bench_open(text, text_length) == 0, "opening");
    bench_set_partition(1);
    calls_by_no_process();
    expect(bench_close() == 0, "closing");
    refusals();
    order_of_windows();
    ends_of_frames();
    restarts();
    closings();
    printf("%lu answers\n", seen);
    return 0;
}
