/* For benches, and outside of what is proved: the processes of partitions whose code is C, with the
 * names, types and orders of parameters of ARINC Specification 653 Part 1 (APEX). The files
 * bench_*.c run them as threads, one at a time.
 *
 * Below the services are the functions by which a bench says when a partition has its windows, and
 * steps them. docs/C.md says what is done, each return code, and what is not done. */
#ifndef BENCH_PROCESSES_H
#define BENCH_PROCESSES_H

#include "apex.h"

#ifdef __cplusplus
extern "C" {
#endif

/* Processes. */

#define MAX_NUMBER_OF_PROCESSES SYSTEM_LIMIT_NUMBER_OF_PROCESSES /* of a partition */
#define MIN_PRIORITY_VALUE 1
#define MAX_PRIORITY_VALUE 239
#define MAX_STACK_SIZE 0x1000000 /* bytes */

typedef NAME_TYPE PROCESS_NAME_TYPE;
typedef APEX_INTEGER PROCESS_ID_TYPE; /* from 1, in the order of creation */
typedef APEX_INTEGER LOCK_LEVEL_TYPE;
#define MIN_LOCK_LEVEL 0
#define MAX_LOCK_LEVEL 16
typedef APEX_UNSIGNED STACK_SIZE_TYPE;
typedef APEX_INTEGER PRIORITY_TYPE;
typedef void (*SYSTEM_ADDRESS_TYPE)(void);
typedef enum { SOFT = 0, HARD = 1 } DEADLINE_TYPE;

typedef struct {
    SYSTEM_TIME_TYPE PERIOD; /* INFINITE_TIME_VALUE if the process is aperiodic */
    SYSTEM_TIME_TYPE TIME_CAPACITY;
    SYSTEM_ADDRESS_TYPE ENTRY_POINT;
    STACK_SIZE_TYPE STACK_SIZE;
    PRIORITY_TYPE BASE_PRIORITY;
    DEADLINE_TYPE DEADLINE;
    PROCESS_NAME_TYPE NAME;
} PROCESS_ATTRIBUTE_TYPE;

typedef enum { DORMANT = 0, READY = 1, RUNNING = 2, WAITING = 3 } PROCESS_STATE_TYPE;

typedef struct {
    SYSTEM_TIME_TYPE DEADLINE_TIME;
    PRIORITY_TYPE CURRENT_PRIORITY;
    PROCESS_STATE_TYPE PROCESS_STATE;
    PROCESS_ATTRIBUTE_TYPE ATTRIBUTES;
} PROCESS_STATUS_TYPE;

void CREATE_PROCESS(PROCESS_ATTRIBUTE_TYPE *ATTRIBUTES, PROCESS_ID_TYPE *PROCESS_ID,
                    RETURN_CODE_TYPE *RETURN_CODE);
void START(PROCESS_ID_TYPE PROCESS_ID, RETURN_CODE_TYPE *RETURN_CODE);
void DELAYED_START(PROCESS_ID_TYPE PROCESS_ID, SYSTEM_TIME_TYPE DELAY_TIME,
                   RETURN_CODE_TYPE *RETURN_CODE);
void STOP_SELF(void);
void STOP(PROCESS_ID_TYPE PROCESS_ID, RETURN_CODE_TYPE *RETURN_CODE);
void SUSPEND_SELF(SYSTEM_TIME_TYPE TIME_OUT, RETURN_CODE_TYPE *RETURN_CODE);
void SUSPEND(PROCESS_ID_TYPE PROCESS_ID, RETURN_CODE_TYPE *RETURN_CODE);
void RESUME(PROCESS_ID_TYPE PROCESS_ID, RETURN_CODE_TYPE *RETURN_CODE);
void SET_PRIORITY(PROCESS_ID_TYPE PROCESS_ID, PRIORITY_TYPE PRIORITY_VALUE,
                  RETURN_CODE_TYPE *RETURN_CODE);
void LOCK_PREEMPTION(LOCK_LEVEL_TYPE *LOCK_LEVEL, RETURN_CODE_TYPE *RETURN_CODE);
void UNLOCK_PREEMPTION(LOCK_LEVEL_TYPE *LOCK_LEVEL, RETURN_CODE_TYPE *RETURN_CODE);
void GET_MY_ID(PROCESS_ID_TYPE *PROCESS_ID, RETURN_CODE_TYPE *RETURN_CODE);
void GET_PROCESS_ID(PROCESS_NAME_TYPE PROCESS_NAME, PROCESS_ID_TYPE *PROCESS_ID,
                    RETURN_CODE_TYPE *RETURN_CODE);
void GET_PROCESS_STATUS(PROCESS_ID_TYPE PROCESS_ID, PROCESS_STATUS_TYPE *PROCESS_STATUS,
                        RETURN_CODE_TYPE *RETURN_CODE);

/* Time. */

void TIMED_WAIT(SYSTEM_TIME_TYPE DELAY_TIME, RETURN_CODE_TYPE *RETURN_CODE);
void PERIODIC_WAIT(RETURN_CODE_TYPE *RETURN_CODE);
void GET_TIME(SYSTEM_TIME_TYPE *SYSTEM_TIME, RETURN_CODE_TYPE *RETURN_CODE);
void REPLENISH(SYSTEM_TIME_TYPE BUDGET_TIME, RETURN_CODE_TYPE *RETURN_CODE);

/* Partition management. */

typedef APEX_INTEGER PARTITION_ID_TYPE; /* from 0, in the order of the configuration */
typedef enum {
    NORMAL_START = 0,
    PARTITION_RESTART = 1,
    HM_MODULE_RESTART = 2,
    HM_PARTITION_RESTART = 3
} START_CONDITION_TYPE;

typedef struct {
    SYSTEM_TIME_TYPE PERIOD;
    SYSTEM_TIME_TYPE DURATION;
    PARTITION_ID_TYPE IDENTIFIER;
    LOCK_LEVEL_TYPE LOCK_LEVEL;
    OPERATING_MODE_TYPE OPERATING_MODE;
    START_CONDITION_TYPE START_CONDITION;
} PARTITION_STATUS_TYPE;

void GET_PARTITION_STATUS(PARTITION_STATUS_TYPE *PARTITION_STATUS, RETURN_CODE_TYPE *RETURN_CODE);

/* Errors. */

#define MAX_ERROR_MESSAGE_SIZE 128 /* bytes */
typedef APEX_INTEGER ERROR_MESSAGE_SIZE_TYPE;
typedef enum {
    DEADLINE_MISSED = 0,
    APPLICATION_ERROR = 1,
    NUMERIC_ERROR = 2,
    ILLEGAL_REQUEST = 3,
    STACK_OVERFLOW = 4,
    MEMORY_VIOLATION = 5,
    HARDWARE_FAULT = 6,
    POWER_FAIL = 7
} ERROR_CODE_TYPE;

typedef APEX_BYTE ERROR_MESSAGE_TYPE[MAX_ERROR_MESSAGE_SIZE];

typedef struct {
    ERROR_CODE_TYPE ERROR_CODE;
    ERROR_MESSAGE_SIZE_TYPE LENGTH;
    PROCESS_ID_TYPE FAILED_PROCESS_ID;
    SYSTEM_ADDRESS_TYPE FAILED_ADDRESS; /* its entry point */
    ERROR_MESSAGE_TYPE MESSAGE;
} ERROR_STATUS_TYPE;

void CREATE_ERROR_HANDLER(SYSTEM_ADDRESS_TYPE ENTRY_POINT, STACK_SIZE_TYPE STACK_SIZE,
                          RETURN_CODE_TYPE *RETURN_CODE);
void GET_ERROR_STATUS(ERROR_STATUS_TYPE *ERROR_STATUS, RETURN_CODE_TYPE *RETURN_CODE);
void REPORT_APPLICATION_MESSAGE(MESSAGE_ADDR_TYPE MESSAGE_ADDR, MESSAGE_SIZE_TYPE LENGTH,
                                RETURN_CODE_TYPE *RETURN_CODE);
void RAISE_APPLICATION_ERROR(ERROR_CODE_TYPE ERROR_CODE, MESSAGE_ADDR_TYPE MESSAGE_ADDR,
                             ERROR_MESSAGE_SIZE_TYPE LENGTH, RETURN_CODE_TYPE *RETURN_CODE);

/* The bench's side, for one thread of the bench's own. */

/* What a partition runs and when: its windows begin at `offset`, `offset + period` and so on. */
struct bench_partition {
    /* The main process: creates ports and processes, starts them, and sets NORMAL. */
    void (*entry)(void);
    SYSTEM_TIME_TYPE period, offset, duration;
};

/* Gives a partition of the open module its windows. Answers false, changes nothing and says why on
 * standard error if the partition has windows already or the module lacks it, if a window doesn't
 * lie in one period or overlaps another partition's, if there is no entry, or after the first frame. */
bool bench_add_partition(uint32_t partition, const struct bench_partition *how);

/* Gives a partition whose code is a shared object its windows. `entry` is the name of its main
 * process; the entry of `how` is ignored. Each start and restart loads a copy of the file. So its
 * data are as in the file, and two partitions share none. The services come from the program, which
 * is linked with -rdynamic. Answers as bench_add_partition, and false if the file can't be loaded
 * or has no such function. */
bool bench_load_partition(const char *file, const char *entry, uint32_t partition,
                          const struct bench_partition *how);

/* Names what is done about a partition's errors that no error handler takes: nothing, which is the
 * default, or its mode is set. False for a partition that wasn't added, or an unknown action. */
enum bench_action { BENCH_IGNORE = 0, BENCH_IDLE = 1, BENCH_COLD_START = 2, BENCH_WARM_START = 3 };
bool bench_on_error(uint32_t partition, enum bench_action action);

/* Each service of a process takes this many nanoseconds; 0 at first. */
void bench_service_time(SYSTEM_TIME_TYPE nanoseconds);

/* The bench reports a process that runs without a service for this many seconds of the machine's
 * clock: 10 by default, never if 0. */
void bench_watch(unsigned seconds);

/* A fault of a channel that the bench injects. It meets messages that the ports would accept, and
 * that are sent or written from the moment `from` on and, unless `until` is 0, before `until`. It
 * meets `count` of them, or all if that is 0, beginning with number `first`, or 1 if that is 0. */
enum bench_fault_kind {
    BENCH_DROP = 0,  /* the message is answered NO_ERROR, and lost */
    BENCH_DELAY = 1, /* NO_ERROR, and sent when a window begins, `delay` later or more */
    BENCH_FULL = 2   /* it is answered as if the queue were full */
};
struct bench_fault {
    enum bench_fault_kind kind;
    uint32_t channel; /* its number, from 0 in the order of the configuration */
    uint64_t first, count;
    SYSTEM_TIME_TYPE from, until, delay;
};

/* Injects a fault until bench_end_processes. If several meet a message, the one added first counts.
 * Answers false and says why if there are 64 already, no partition was added, the module isn't open
 * or lacks the channel, or the fault isn't valid. */
bool bench_add_fault(const struct bench_fault *fault);

/* Runs all windows of the next `length` nanoseconds, which must be a multiple of each partition's
 * period. Afterwards the moment is that much later; the first frame begins at 0. Answers false and
 * says why on standard error if the length is no such multiple or no partition was added; also if
 * the module is closed or a thread can't be started, and then no frame runs until
 * bench_end_processes. */
bool bench_run_frame(SYSTEM_TIME_TYPE length);

/* Ends all processes, also those that wait, and forgets the partitions: the next frame is the first
 * again. To be called before bench_close. */
void bench_end_processes(void);

#ifdef __cplusplus
}
#endif

#endif
