/* c_random CONFIG SEED LOG: two partitions whose processes make random calls of all services of the host, right and
 * wrong, for 200 frames, with error handlers, restarts, a fault of a channel, and services that take time in some runs.
 * One process of each starts and resumes the others again. Writes a log of the calls of the ports, and prints how many
 * calls there were and a sum of all that they answered, which two runs of a seed have to have in common. */
#include "../c/bench_objects.h"
#include "c_test.h"

enum { PERIOD = 100, OTHERS = 6, FRAMES = 200 };

static uint64_t state;
static unsigned long calls, sum;

static unsigned chance(unsigned count) {
    state ^= state << 13;
    state ^= state >> 7;
    state ^= state << 17;
    return (unsigned)((state >> 11) % count);
}

static void add(long answer) { sum = sum * 33 + (unsigned long)answer; }

static SYSTEM_TIME_TYPE any_time(void) {
    static const SYSTEM_TIME_TYPE times[] = {0, 1, 5, 30, 100, INFINITE_TIME_VALUE, -2, INT64_MAX};
    return times[chance(8)];
}

/* A process, a port or an object, most often one that is there. */
static APEX_INTEGER any_id(void) { return (APEX_INTEGER)chance(OTHERS + 2); }

static void call_process(void) {
    const APEX_INTEGER id = any_id();
    const SYSTEM_TIME_TYPE time = any_time();
    const unsigned number = chance(12);
    PROCESS_STATUS_TYPE status;
    RETURN_CODE_TYPE code = NO_ERROR;
    switch (chance(10)) {
    case 0:
        START(id, &code);
        break;
    case 1:
        DELAYED_START(id, time, &code);
        break;
    case 2:
        STOP(id, &code);
        break;
    case 3:
        SUSPEND(id, &code);
        break;
    case 4:
        RESUME(id, &code);
        break;
    case 5:
        SUSPEND_SELF(time, &code);
        break;
    case 6:
        SET_PRIORITY(id, (PRIORITY_TYPE)number, &code);
        break;
    case 7:
        TIMED_WAIT(time, &code);
        break;
    case 8:
        PERIODIC_WAIT(&code);
        break;
    default:
        GET_PROCESS_STATUS(id, &status, &code);
        add(code == NO_ERROR ? status.PROCESS_STATE * 1000 + status.CURRENT_PRIORITY : 0);
    }
    add(code);
}

static void call_partition(void) {
    const SYSTEM_TIME_TYPE time = any_time();
    const unsigned number = chance(12);
    ERROR_STATUS_TYPE error;
    LOCK_LEVEL_TYPE level;
    SYSTEM_TIME_TYPE now = 0;
    APEX_BYTE byte = 7;
    RETURN_CODE_TYPE code = NO_ERROR;
    switch (chance(8)) {
    case 0:
        LOCK_PREEMPTION(&level, &code);
        break;
    case 1:
    case 2:
        UNLOCK_PREEMPTION(&level, &code);
        break;
    case 3:
        GET_TIME(&now, &code);
        break;
    case 4:
        REPLENISH(time, &code);
        break;
    case 5:
        RAISE_APPLICATION_ERROR(APPLICATION_ERROR, &byte, (ERROR_MESSAGE_SIZE_TYPE)(number % 2), &code);
        break;
    case 6:
        GET_ERROR_STATUS(&error, &code);
        break;
    default:
        if (chance(40) == 0) {
            SET_PARTITION_MODE(chance(2) == 0 ? COLD_START : WARM_START, &code);
        }
    }
    add(now);
    add(code);
}

static void call_port(void) {
    const APEX_INTEGER id = any_id();
    const SYSTEM_TIME_TYPE time = any_time();
    const unsigned number = chance(12);
    APEX_BYTE message[APEX_MESSAGE_LIMIT] = {7};
    MESSAGE_SIZE_TYPE length = 0;
    QUEUING_PORT_STATUS_TYPE status = {.NB_MESSAGE = 0};
    RETURN_CODE_TYPE code;
    switch (chance(6)) {
    case 0:
    case 1:
        SEND_QUEUING_MESSAGE(id, message, 1 + (MESSAGE_SIZE_TYPE)(number % 4), time, &code);
        break;
    case 2:
    case 3:
        RECEIVE_QUEUING_MESSAGE(id, time, message, &length, &code);
        break;
    case 4:
        CLEAR_QUEUING_PORT(id, &code);
        break;
    default:
        GET_QUEUING_PORT_STATUS(id, &status, &code);
    }
    add(length + status.NB_MESSAGE * 100 + status.WAITING_PROCESSES);
    add(code);
}

static void call_object(void) {
    const APEX_INTEGER id = (APEX_INTEGER)chance(4);
    const SYSTEM_TIME_TYPE time = any_time();
    const unsigned number = chance(12);
    APEX_BYTE message[4] = {7, 7, 7, 7};
    MESSAGE_SIZE_TYPE length = 0;
    BUFFER_STATUS_TYPE buffer = {.NB_MESSAGE = 0};
    SEMAPHORE_STATUS_TYPE semaphore = {.CURRENT_VALUE = 0};
    RETURN_CODE_TYPE code;
    switch (chance(12)) {
    case 0:
        SEND_BUFFER(id, message, (MESSAGE_SIZE_TYPE)(number % 6), time, &code);
        break;
    case 1:
        RECEIVE_BUFFER(id, time, message, &length, &code);
        break;
    case 2:
        GET_BUFFER_STATUS(id, &buffer, &code);
        break;
    case 3:
        DISPLAY_BLACKBOARD(id, message, (MESSAGE_SIZE_TYPE)(number % 6), &code);
        break;
    case 4:
        READ_BLACKBOARD(id, time, message, &length, &code);
        break;
    case 5:
        CLEAR_BLACKBOARD(id, &code);
        break;
    case 6:
        WAIT_SEMAPHORE(id, time, &code);
        break;
    case 7:
        SIGNAL_SEMAPHORE(id, &code);
        break;
    case 8:
        GET_SEMAPHORE_STATUS(id, &semaphore, &code);
        break;
    case 9:
        SET_EVENT(id, &code);
        break;
    case 10:
        RESET_EVENT(id, &code);
        break;
    default:
        WAIT_EVENT(id, time, &code);
    }
    add(length + buffer.NB_MESSAGE * 100 + buffer.WAITING_PROCESSES + semaphore.CURRENT_VALUE * 10);
    add(code);
}

static void call_any(void) {
    static void (*const kinds[])(void) = {call_process, call_partition, call_port, call_object};
    calls++;
    kinds[chance(4)]();
}

/* A turn of random calls, and a wait, for which a lock is given back; now and then it returns. */
static void act(void) {
    while (chance(60) != 0) {
        LOCK_LEVEL_TYPE level;
        RETURN_CODE_TYPE code = NO_ERROR;
        for (unsigned left = 1 + chance(30); left > 0; left--) {
            call_any();
        }
        while (code == NO_ERROR) {
            UNLOCK_PREEMPTION(&level, &code);
        }
        TIMED_WAIT(1 + chance(30), &code);
    }
}

static void revive(void) {
    for (;;) {
        RETURN_CODE_TYPE code;
        for (PROCESS_ID_TYPE id = 1; id <= OTHERS; id++) {
            START(id, &code);
            RESUME(id, &code);
            if (chance(12) == 0) {
                STOP(id, &code);
            }
        }
        PERIODIC_WAIT(&code);
    }
}

static void handle(void) {
    for (unsigned left = chance(10); left > 0; left--) {
        call_any();
    }
}

static void create_ports(bool is_first, QUEUING_DISCIPLINE_TYPE by) {
    const struct {
        const char *name;
        MESSAGE_SIZE_TYPE size;
        PORT_DIRECTION_TYPE direction;
    } ports[] = {{"Q_OUT", 64, SOURCE}, {"R_IN", 4, DESTINATION}, {"Q_IN", 64, DESTINATION},
                 {"R_OUT", 4, SOURCE},  {"S_OUT", 4, SOURCE},     {"S_IN", 4, DESTINATION}};
    for (int i = is_first ? 0 : 2; i < (is_first ? 2 : 6); i++) {
        NAME_TYPE name;
        QUEUING_PORT_ID_TYPE id;
        RETURN_CODE_TYPE code;
        bench_name(name, ports[i].name);
        CREATE_QUEUING_PORT(name, ports[i].size, ports[i].size == 64 ? 4 : 1, ports[i].direction, by, &id, &code);
        expect(code == NO_ERROR, "a port");
    }
}

static void create_objects(void) {
    NAME_TYPE names[] = {"A", "B"};
    for (int i = 0; i < 2; i++) {
        APEX_INTEGER id;
        RETURN_CODE_TYPE codes[4];
        CREATE_BUFFER(names[i], 4, 1 + (MESSAGE_RANGE_TYPE)chance(3), PRIORITY, &id, &codes[0]);
        CREATE_BLACKBOARD(names[i], 4, &id, &codes[1]);
        CREATE_SEMAPHORE(names[i], 1, 2, FIFO, &id, &codes[2]);
        CREATE_EVENT(names[i], &id, &codes[3]);
        for (int kind = 0; kind < 4; kind++) {
            expect(codes[kind] == NO_ERROR, "an object");
        }
    }
}

static void create(char letter, void (*entry)(void), SYSTEM_TIME_TYPE period, PRIORITY_TYPE priority) {
    PROCESS_ATTRIBUTE_TYPE a = {period, INFINITE_TIME_VALUE, entry, 4096, priority, SOFT, {letter}};
    PROCESS_ID_TYPE id;
    RETURN_CODE_TYPE code;
    a.TIME_CAPACITY = chance(3) == 0 ? 20 + (SYSTEM_TIME_TYPE)chance(60) : INFINITE_TIME_VALUE;
    CREATE_PROCESS(&a, &id, &code);
    expect(code == NO_ERROR, "a process");
    START(id, &code);
}

static void main_process(void) {
    PARTITION_STATUS_TYPE status;
    RETURN_CODE_TYPE code;
    GET_PARTITION_STATUS(&status, &code);
    create_ports(status.IDENTIFIER == 0, chance(2) == 0 ? FIFO : PRIORITY);
    create_objects();
    if (chance(3) != 0) {
        CREATE_ERROR_HANDLER(handle, 4096, &code);
    }
    for (int i = 0; i < OTHERS; i++) {
        create((char)('A' + i), act, i % 3 == 0 ? PERIOD : INFINITE_TIME_VALUE, 1 + (PRIORITY_TYPE)chance(9));
    }
    create('R', revive, PERIOD, 20);
    SET_PARTITION_MODE(NORMAL, &code);
}

static void add_line(const char *line) {
    while (*line != '\0') {
        add(*line++);
    }
}

int main(int count, char **words) {
    static char text[65536];
    expect(count == 4, "usage: c_random CONFIG SEED LOG");
    state = 88172645463325252u + strtoull(words[2], NULL, 10) * 7919;
    const struct bench_partition first = {main_process, PERIOD, 0, 20}, second = {main_process, PERIOD, 50, 20};
    expect(bench_open(text, read_config(words[1], text, sizeof text)) == 0 && bench_keep_calls(true), "opening");
    bench_tell_to(add_line);
    expect(bench_add_partition(0, &first) && bench_add_partition(1, &second), "adding");
    expect(bench_on_error(1, BENCH_WARM_START), "an action");
    bench_service_time(chance(3));
    struct bench_fault fault = {.kind = (enum bench_fault_kind)chance(3), .from = 500};
    fault.channel = chance(3);
    fault.delay = fault.kind == BENCH_DELAY ? 130 : 0;
    expect(bench_add_fault(&fault), "a fault");
    for (int i = 0; i < FRAMES; i++) {
        expect(bench_run_frame(PERIOD), "a frame");
    }
    FILE *log = fopen(words[3], "w");
    expect(log != NULL && bench_log(log) && fclose(log) == 0, "the log");
    bench_end_processes();
    expect(bench_close() == 0, "closing");
    printf("%lu calls, %lx\n", calls, sum);
    return 0;
}
