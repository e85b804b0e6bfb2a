/* c_many CONFIG FRAMES LOG [PIECE]: a module of six partitions with 14 processes of four priorities: servers that wait, an
 * error handler, processes that suspend and resume, and a partition that restarts. Prints the report of all calls, and
 * on standard error what the processes counted; writes a log of the calls. With PIECE it keeps the calls of that many
 * frames at a time, and the report has no lines of calls, since sanitizers are slow with a long text in memory. Each
 * partition has one window in each 100 nanoseconds. */
#include "../c/bench_processes.h"
#include "c_test.h"

#include <limits.h>

static struct {
    unsigned long jobs, works, dones, errors, reads, starts, pings, pongs, resumed, locked, quiet;
} counts;

/* Each port is its partition's port of this identifier. */
static void create_port(const char *text, MESSAGE_RANGE_TYPE depth, PORT_DIRECTION_TYPE direction) {
    QUEUING_PORT_NAME_TYPE name;
    QUEUING_PORT_ID_TYPE id;
    RETURN_CODE_TYPE code;
    bench_name(name, text);
    CREATE_QUEUING_PORT(name, 4, depth, direction, FIFO, &id, &code);
    expect(code == NO_ERROR, "CREATE_QUEUING_PORT");
}

static void create_sample(const char *text, PORT_DIRECTION_TYPE direction) {
    SAMPLING_PORT_NAME_TYPE name;
    SAMPLING_PORT_ID_TYPE id;
    RETURN_CODE_TYPE code;
    bench_name(name, text);
    CREATE_SAMPLING_PORT(name, 4, direction, 100, &id, &code);
    expect(code == NO_ERROR, "CREATE_SAMPLING_PORT");
}

static PROCESS_ID_TYPE start(const char *name, void (*entry)(void), SYSTEM_TIME_TYPE period, PRIORITY_TYPE priority) {
    PROCESS_ATTRIBUTE_TYPE a = {period, INFINITE_TIME_VALUE, entry, 4096, priority, SOFT, ""};
    PROCESS_ID_TYPE id = 0;
    RETURN_CODE_TYPE code;
    bench_name(a.NAME, name);
    CREATE_PROCESS(&a, &id, &code);
    expect(code == NO_ERROR, "CREATE_PROCESS");
    START(id, &code);
    return id;
}

static void set_normal(void) {
    RETURN_CODE_TYPE code;
    SET_PARTITION_MODE(NORMAL, &code);
}

/* SOURCE: two jobs and a speed in each frame but the first. */

static void produce(void) {
    for (APEX_BYTE job[1] = {0};;) {
        RETURN_CODE_TYPE code;
        for (int i = 0; i < 2; i++, job[0]++) {
            SEND_QUEUING_MESSAGE(1, job, 1, 0, &code);
            expect(code == NO_ERROR, "a job is sent");
            counts.jobs++;
        }
        PERIODIC_WAIT(&code);
    }
}

static void measure(void) {
    for (APEX_BYTE speed[1] = {0};; speed[0]++) {
        RETURN_CODE_TYPE code;
        WRITE_SAMPLING_MESSAGE(2, speed, 1, &code);
        PERIODIC_WAIT(&code);
    }
}

static void source_main(void) {
    create_port("JOBS_OUT", 4, SOURCE);
    create_sample("SPEED_OUT", SOURCE);
    start("PRODUCE", produce, 100, 20);
    start("MEASURE", measure, 100, 10);
    set_normal();
}

/* WORK: two servers, and a process of a low priority. */

static void work(void) {
    for (;;) {
        APEX_BYTE job[4];
        MESSAGE_SIZE_TYPE length;
        RETURN_CODE_TYPE code;
        RECEIVE_QUEUING_MESSAGE(1, INFINITE_TIME_VALUE, job, &length, &code);
        expect(code == NO_ERROR && job[0] == counts.works % 256, "each job comes once and in order");
        counts.works++;
        SEND_QUEUING_MESSAGE(2, job, length, INFINITE_TIME_VALUE, &code);
        expect(code == NO_ERROR, "a job is done");
    }
}

static void stay_quiet(void) {
    for (;;) {
        RETURN_CODE_TYPE code;
        counts.quiet++;
        TIMED_WAIT(100, &code);
    }
}

static void work_main(void) {
    create_port("JOBS_IN", 4, DESTINATION);
    create_port("DONE_OUT", 2, SOURCE);
    start("FIRST", work, INFINITE_TIME_VALUE, 10);
    start("SECOND", work, INFINITE_TIME_VALUE, 10);
    start("QUIET", stay_quiet, INFINITE_TIME_VALUE, 5);
    set_normal();
}

/* SINK: a server that raises an error with every 1000th job, and the handler. */

static void handle(void) {
    ERROR_STATUS_TYPE status;
    RETURN_CODE_TYPE code;
    for (GET_ERROR_STATUS(&status, &code); code == NO_ERROR; GET_ERROR_STATUS(&status, &code)) {
        expect(status.FAILED_PROCESS_ID == 1 && status.LENGTH == 4, "the error of the server");
        counts.errors++;
    }
    STOP_SELF();
}

static void finish(void) {
    for (;;) {
        APEX_BYTE job[4], words[4] = "1000";
        MESSAGE_SIZE_TYPE length;
        RETURN_CODE_TYPE code;
        RECEIVE_QUEUING_MESSAGE(1, INFINITE_TIME_VALUE, job, &length, &code);
        expect(code == NO_ERROR && job[0] == counts.dones % 256, "each job is done once and in order");
        if (++counts.dones % 1000 == 0) {
            RAISE_APPLICATION_ERROR(APPLICATION_ERROR, words, 4, &code);
        }
    }
}

static void look(void) {
    for (;;) {
        QUEUING_PORT_STATUS_TYPE status;
        RETURN_CODE_TYPE code;
        GET_QUEUING_PORT_STATUS(1, &status, &code);
        expect(code == NO_ERROR && status.NB_MESSAGE == 0 && status.WAITING_PROCESSES == 1, "the server waits");
        PERIODIC_WAIT(&code);
    }
}

static void sink_main(void) {
    RETURN_CODE_TYPE code;
    create_port("DONE_IN", 2, DESTINATION);
    CREATE_ERROR_HANDLER(handle, 4096, &code);
    start("FINISH", finish, INFINITE_TIME_VALUE, 30);
    start("LOOK", look, 100, 5);
    set_normal();
}

/* CONTROL: reads the speed, and restarts with the 1000th. */

static void read_speed(void) {
    for (int i = 0;; i++) {
        APEX_BYTE speed[4];
        MESSAGE_SIZE_TYPE length;
        VALIDITY_TYPE validity;
        RETURN_CODE_TYPE code;
        READ_SAMPLING_MESSAGE(1, speed, &length, &validity, &code);
        expect(code == NO_ERROR && validity == VALID, "a speed");
        counts.reads++;
        if (i == 999) {
            SET_PARTITION_MODE(WARM_START, &code);
        }
        PERIODIC_WAIT(&code);
    }
}

static void control_main(void) {
    counts.starts++;
    create_sample("SPEED_IN", DESTINATION);
    start("READ", read_speed, 100, 20);
    start("QUIET", stay_quiet, INFINITE_TIME_VALUE, 5);
    set_normal();
}

/* PING and PONG: a question and its answer in each frame. */

static void ask(void) {
    for (APEX_BYTE ball[4] = {0};; ball[0]++) {
        APEX_BYTE answer[4];
        MESSAGE_SIZE_TYPE length;
        RETURN_CODE_TYPE code;
        SEND_QUEUING_MESSAGE(1, ball, 1, INFINITE_TIME_VALUE, &code);
        RECEIVE_QUEUING_MESSAGE(2, 150, answer, &length, &code);
        expect(code == NO_ERROR && answer[0] == ball[0], "the answer");
        counts.pings++;
    }
}

static void lock_often(void) {
    for (;;) {
        LOCK_LEVEL_TYPE level;
        RETURN_CODE_TYPE code;
        LOCK_PREEMPTION(&level, &code);
        counts.locked++;
        UNLOCK_PREEMPTION(&level, &code);
        PERIODIC_WAIT(&code);
    }
}

static void ping_main(void) {
    create_port("PING_OUT", 1, SOURCE);
    create_port("PONG_IN", 1, DESTINATION);
    start("ASK", ask, INFINITE_TIME_VALUE, 10);
    start("LOCK", lock_often, 100, 20);
    set_normal();
}

static void answer(void) {
    for (;;) {
        APEX_BYTE ball[4];
        MESSAGE_SIZE_TYPE length;
        RETURN_CODE_TYPE code;
        RECEIVE_QUEUING_MESSAGE(1, INFINITE_TIME_VALUE, ball, &length, &code);
        SEND_QUEUING_MESSAGE(2, ball, length, 0, &code);
        expect(code == NO_ERROR, "an answer");
        counts.pongs++;
    }
}

static void sleep_until_resumed(void) {
    for (;;) {
        RETURN_CODE_TYPE code;
        SUSPEND_SELF(INFINITE_TIME_VALUE, &code);
        expect(code == NO_ERROR, "it is resumed");
        counts.resumed++;
    }
}

static void resume_each(void) {
    for (;;) {
        RETURN_CODE_TYPE code;
        RESUME(2, &code);
        expect(code == NO_ERROR, "RESUME");
        PERIODIC_WAIT(&code);
    }
}

static void pong_main(void) {
    create_port("PING_IN", 1, DESTINATION);
    create_port("PONG_OUT", 1, SOURCE);
    start("ANSWER", answer, INFINITE_TIME_VALUE, 30);
    start("SLEEP", sleep_until_resumed, INFINITE_TIME_VALUE, 20);
    start("RESUME", resume_each, 100, 10);
    set_normal();
}

int main(int count, char **words) {
    static char text[65536];
    static void (*const mains[])(void) = {source_main, work_main, sink_main, control_main, ping_main, pong_main};
    static const SYSTEM_TIME_TYPE offsets[] = {0, 15, 30, 45, 60, 80};
    expect(count == 4 || count == 5, "usage: c_many CONFIG FRAMES LOG [PIECE]");
    const int piece = count == 5 ? atoi(words[4]) : INT_MAX;
    FILE *log = fopen(words[3], "wb");
    expect(log != NULL, "a log");
    expect(bench_open(text, read_config(words[1], text, sizeof text)) == 0 && bench_keep_calls(true), "opening");
    for (uint32_t p = 0; p < 6; p++) {
        const struct bench_partition how = {mains[p], 100, offsets[p], 10};
        expect(bench_add_partition(p, &how), "a partition");
    }
    for (int frame = 0; frame < atoi(words[2]); frame++) {
        expect(bench_run_frame(100), "a frame");
        if ((frame + 1) % piece == 0) {
            expect(bench_log(log) && bench_keep_calls(true), "a piece of the log");
        }
    }
    expect(bench_log(log) && fclose(log) == 0, "the log");
    expect(bench_report(stdout), "the report");
    bench_end_processes();
    expect(bench_close() == 0 && bench_keep_calls(false), "closing");
    fprintf(stderr, "jobs %lu works %lu dones %lu errors %lu\nreads %lu starts %lu quiet %lu\n"
                    "pings %lu pongs %lu locked %lu resumed %lu\n",
            counts.jobs, counts.works, counts.dones, counts.errors, counts.reads, counts.starts, counts.quiet,
            counts.pings, counts.pongs, counts.locked, counts.resumed);
    return 0;
}
