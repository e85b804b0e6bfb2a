/* The partitions A and B of c_recorded.toml, in a file each with a recorder, whose processes wait for messages and for
 * room, and then restart: A by an error, for which the bench has named a warm start, and B by a call. a_main is
 * compiled with A, b_main without. The bench has the sink. */
#include "arinc653/error.h"
#include "arinc653/partition.h"
#include "arinc653/process.h"
#include "arinc653/queuing.h"
#include "arinc653/sampling.h"
#include "arinc653/time.h"
#include "record/apex_record.h"

int take(void *name, const char *text, size_t length);

static RETURN_CODE_TYPE code;
static PARTITION_STATUS_TYPE status_at_start;
static QUEUING_PORT_ID_TYPE queue;
static SAMPLING_PORT_ID_TYPE sample;

static void starts(char *name, void (*entry)(void), QUEUING_PORT_NAME_TYPE queue_name,
                   SAMPLING_PORT_NAME_TYPE sample_name, PORT_DIRECTION_TYPE direction, SYSTEM_TIME_TYPE refresh) {
    PROCESS_ATTRIBUTE_TYPE attributes = {.PERIOD = INFINITE_TIME_VALUE, .TIME_CAPACITY = INFINITE_TIME_VALUE,
                                         .ENTRY_POINT = entry, .STACK_SIZE = 4096, .BASE_PRIORITY = 1,
                                         .DEADLINE = SOFT, .NAME = "PROCESS"};
    PROCESS_ID_TYPE process;
    apex_record_to(take, name);
    GET_PARTITION_STATUS(&status_at_start, &code);
    if (status_at_start.START_CONDITION != NORMAL_START) {
        apex_record_restarted(status_at_start.OPERATING_MODE);
    }
    CREATE_QUEUING_PORT(queue_name, 4, 2, direction, FIFO, &queue, &code);
    CREATE_SAMPLING_PORT(sample_name, 4, direction, refresh, &sample, &code);
    CREATE_PROCESS(&attributes, &process, &code);
    START(process, &code);
    SET_PARTITION_MODE(NORMAL, &code);
}

#ifdef A
static void sends(APEX_BYTE byte, SYSTEM_TIME_TYPE time_out) {
    APEX_BYTE message[4] = {byte, 0, 0, 0};
    SEND_QUEUING_MESSAGE(queue, message, 1, time_out, &code);
}

static void writes(APEX_BYTE byte) {
    APEX_BYTE message[4] = {byte, 0, 0, 0};
    WRITE_SAMPLING_MESSAGE(sample, message, 1, &code);
}

/* The send at 200 waits for room until B receives at 350, and returns with the next window, at 400. */
static void process(void) {
    APEX_BYTE text[] = "restart";
    if (status_at_start.START_CONDITION != NORMAL_START) {
        sends(5, 0);
        STOP_SELF();
    }
    TIMED_WAIT(100, &code);
    writes(0xaa);
    sends(1, 0);
    TIMED_WAIT(100, &code);
    sends(2, 0);
    sends(3, 0);
    sends(4, 1000);
    writes(0xbb);
    RAISE_APPLICATION_ERROR(APPLICATION_ERROR, text, 7, &code);
}

void a_main(void) {
    static QUEUING_PORT_NAME_TYPE queue_name = "OUT";
    static SAMPLING_PORT_NAME_TYPE sample_name = "S_OUT";
    starts("A", process, queue_name, sample_name, SOURCE, 100);
}
#else
static void receives(SYSTEM_TIME_TYPE time_out) {
    APEX_BYTE message[1024] = {0};
    MESSAGE_SIZE_TYPE length = 0;
    RECEIVE_QUEUING_MESSAGE(queue, time_out, message, &length, &code);
}

static void reads(void) {
    APEX_BYTE message[1024] = {0};
    MESSAGE_SIZE_TYPE length = 0;
    VALIDITY_TYPE validity;
    READ_SAMPLING_MESSAGE(sample, message, &length, &validity, &code);
}

/* The receive at 50 waits for the message that A sends at 100, and returns with the next window, at 150. */
static void process(void) {
    QUEUING_PORT_STATUS_TYPE status;
    SAMPLING_PORT_STATUS_TYPE last;
    if (status_at_start.START_CONDITION != NORMAL_START) {
        receives(0);
        STOP_SELF();
    }
    receives(1000);
    reads();
    TIMED_WAIT(200, &code);
    GET_QUEUING_PORT_STATUS(queue, &status, &code);
    receives(0);
    receives(0);
    receives(0);
    TIMED_WAIT(100, &code);
    receives(0);
    reads();
    GET_SAMPLING_PORT_STATUS(sample, &last, &code);
    TIMED_WAIT(1, &code);
    reads();
    SET_PARTITION_MODE(COLD_START, &code);
}

void b_main(void) {
    static QUEUING_PORT_NAME_TYPE queue_name = "IN";
    static SAMPLING_PORT_NAME_TYPE sample_name = "S_IN";
    starts("B", process, queue_name, sample_name, DESTINATION, 50);
}
#endif
