/* The port services of ARINC Specification 653 Part 1 (APEX) for a partition's code in C, with the names, types and
 * orders of parameters of the standard's C binding. apex.c serves them by the proved ports of a module (apex_ports.h).
 *
 * Below the services are the functions by which a bench opens a module and says which partition a thread runs.
 * docs/C.md has the choices that are made here: time-outs, faulty parameters, partitions in IDLE.
 *
 * Assumed of the caller: a pointer that isn't null points to a value of its type; a message's address to as many bytes
 * as LENGTH says; the address that a message is received at to as many bytes as the port's MAX_MESSAGE_SIZE. */
#ifndef APEX_H
#define APEX_H

#include "apex_ports.h"

#include <stdio.h>

#ifdef __cplusplus
extern "C" {
#endif

typedef unsigned char APEX_BYTE;
typedef int32_t APEX_INTEGER;
typedef uint32_t APEX_UNSIGNED;
typedef int64_t APEX_LONG_INTEGER;

typedef enum {
    NO_ERROR = 0,
    NO_ACTION = 1,
    NOT_AVAILABLE = 2,
    INVALID_PARAM = 3,
    INVALID_CONFIG = 4,
    INVALID_MODE = 5,
    TIMED_OUT = 6
} RETURN_CODE_TYPE;

/* A name of fewer bytes is followed by zero bytes. */
#define MAX_NAME_LENGTH 30
typedef char NAME_TYPE[MAX_NAME_LENGTH];

typedef APEX_BYTE *MESSAGE_ADDR_TYPE;
typedef APEX_INTEGER MESSAGE_SIZE_TYPE;  /* bytes */
typedef APEX_INTEGER MESSAGE_RANGE_TYPE; /* messages */
typedef APEX_INTEGER WAITING_RANGE_TYPE; /* processes */
typedef enum { SOURCE = 0, DESTINATION = 1 } PORT_DIRECTION_TYPE;
typedef enum { FIFO = 0, PRIORITY = 1 } QUEUING_DISCIPLINE_TYPE;

/* Nanoseconds. */
typedef APEX_LONG_INTEGER SYSTEM_TIME_TYPE;
#define INFINITE_TIME_VALUE (-1)

/* A partition's limits. */
#define SYSTEM_LIMIT_NUMBER_OF_PARTITIONS 32
#define SYSTEM_LIMIT_NUMBER_OF_MESSAGES 512 /* in a queue */
#define SYSTEM_LIMIT_MESSAGE_SIZE 1024      /* bytes */
#define SYSTEM_LIMIT_NUMBER_OF_PROCESSES 32
#define SYSTEM_LIMIT_NUMBER_OF_SAMPLING_PORTS 32
#define SYSTEM_LIMIT_NUMBER_OF_QUEUING_PORTS 32
#define MAX_NUMBER_OF_SAMPLING_PORTS SYSTEM_LIMIT_NUMBER_OF_SAMPLING_PORTS
#define MAX_NUMBER_OF_QUEUING_PORTS SYSTEM_LIMIT_NUMBER_OF_QUEUING_PORTS

/* Sampling ports. */

typedef NAME_TYPE SAMPLING_PORT_NAME_TYPE;
typedef APEX_INTEGER SAMPLING_PORT_ID_TYPE;
typedef enum { INVALID = 0, VALID = 1 } VALIDITY_TYPE;

typedef struct {
    SYSTEM_TIME_TYPE REFRESH_PERIOD;
    MESSAGE_SIZE_TYPE MAX_MESSAGE_SIZE;
    PORT_DIRECTION_TYPE PORT_DIRECTION;
    VALIDITY_TYPE LAST_MSG_VALIDITY;
} SAMPLING_PORT_STATUS_TYPE;

void CREATE_SAMPLING_PORT(
    /*in */ SAMPLING_PORT_NAME_TYPE SAMPLING_PORT_NAME,
    /*in */ MESSAGE_SIZE_TYPE MAX_MESSAGE_SIZE,
    /*in */ PORT_DIRECTION_TYPE PORT_DIRECTION,
    /*in */ SYSTEM_TIME_TYPE REFRESH_PERIOD,
    /*out*/ SAMPLING_PORT_ID_TYPE *SAMPLING_PORT_ID,
    /*out*/ RETURN_CODE_TYPE *RETURN_CODE);

void WRITE_SAMPLING_MESSAGE(
    /*in */ SAMPLING_PORT_ID_TYPE SAMPLING_PORT_ID,
    /*in */ MESSAGE_ADDR_TYPE MESSAGE_ADDR,
    /*in */ MESSAGE_SIZE_TYPE LENGTH,
    /*out*/ RETURN_CODE_TYPE *RETURN_CODE);

void READ_SAMPLING_MESSAGE(
    /*in */ SAMPLING_PORT_ID_TYPE SAMPLING_PORT_ID,
    /*in */ MESSAGE_ADDR_TYPE MESSAGE_ADDR,
    /*out*/ MESSAGE_SIZE_TYPE *LENGTH,
    /*out*/ VALIDITY_TYPE *VALIDITY,
    /*out*/ RETURN_CODE_TYPE *RETURN_CODE);

void GET_SAMPLING_PORT_ID(
    /*in */ SAMPLING_PORT_NAME_TYPE SAMPLING_PORT_NAME,
    /*out*/ SAMPLING_PORT_ID_TYPE *SAMPLING_PORT_ID,
    /*out*/ RETURN_CODE_TYPE *RETURN_CODE);

void GET_SAMPLING_PORT_STATUS(
    /*in */ SAMPLING_PORT_ID_TYPE SAMPLING_PORT_ID,
    /*out*/ SAMPLING_PORT_STATUS_TYPE *SAMPLING_PORT_STATUS,
    /*out*/ RETURN_CODE_TYPE *RETURN_CODE);

/* Queuing ports. */

typedef NAME_TYPE QUEUING_PORT_NAME_TYPE;
typedef APEX_INTEGER QUEUING_PORT_ID_TYPE;

typedef struct {
    MESSAGE_RANGE_TYPE NB_MESSAGE;
    MESSAGE_RANGE_TYPE MAX_NB_MESSAGE;
    MESSAGE_SIZE_TYPE MAX_MESSAGE_SIZE;
    PORT_DIRECTION_TYPE PORT_DIRECTION;
    WAITING_RANGE_TYPE WAITING_PROCESSES;
} QUEUING_PORT_STATUS_TYPE;

void CREATE_QUEUING_PORT(
    /*in */ QUEUING_PORT_NAME_TYPE QUEUING_PORT_NAME,
    /*in */ MESSAGE_SIZE_TYPE MAX_MESSAGE_SIZE,
    /*in */ MESSAGE_RANGE_TYPE MAX_NB_MESSAGE,
    /*in */ PORT_DIRECTION_TYPE PORT_DIRECTION,
    /*in */ QUEUING_DISCIPLINE_TYPE QUEUING_DISCIPLINE,
    /*out*/ QUEUING_PORT_ID_TYPE *QUEUING_PORT_ID,
    /*out*/ RETURN_CODE_TYPE *RETURN_CODE);

void SEND_QUEUING_MESSAGE(
    /*in */ QUEUING_PORT_ID_TYPE QUEUING_PORT_ID,
    /*in */ MESSAGE_ADDR_TYPE MESSAGE_ADDR,
    /*in */ MESSAGE_SIZE_TYPE LENGTH,
    /*in */ SYSTEM_TIME_TYPE TIME_OUT,
    /*out*/ RETURN_CODE_TYPE *RETURN_CODE);

void RECEIVE_QUEUING_MESSAGE(
    /*in */ QUEUING_PORT_ID_TYPE QUEUING_PORT_ID,
    /*in */ SYSTEM_TIME_TYPE TIME_OUT,
    /*in */ MESSAGE_ADDR_TYPE MESSAGE_ADDR,
    /*out*/ MESSAGE_SIZE_TYPE *LENGTH,
    /*out*/ RETURN_CODE_TYPE *RETURN_CODE);

void GET_QUEUING_PORT_ID(
    /*in */ QUEUING_PORT_NAME_TYPE QUEUING_PORT_NAME,
    /*out*/ QUEUING_PORT_ID_TYPE *QUEUING_PORT_ID,
    /*out*/ RETURN_CODE_TYPE *RETURN_CODE);

void GET_QUEUING_PORT_STATUS(
    /*in */ QUEUING_PORT_ID_TYPE QUEUING_PORT_ID,
    /*out*/ QUEUING_PORT_STATUS_TYPE *QUEUING_PORT_STATUS,
    /*out*/ RETURN_CODE_TYPE *RETURN_CODE);

void CLEAR_QUEUING_PORT(
    /*in */ QUEUING_PORT_ID_TYPE QUEUING_PORT_ID,
    /*out*/ RETURN_CODE_TYPE *RETURN_CODE);

/* Partition management. */

typedef enum { IDLE = 0, COLD_START = 1, WARM_START = 2, NORMAL = 3 } OPERATING_MODE_TYPE;

void SET_PARTITION_MODE(
    /*in */ OPERATING_MODE_TYPE OPERATING_MODE,
    /*out*/ RETURN_CODE_TYPE *RETURN_CODE);

/* The bench's side. There is one module, which all threads share. */

/* Opens the module with a configuration, a TOML text of this many bytes. Answers as apex_open; a null
 * pointer is no TOML. Each line that says why the text is refused goes to standard error.
 * Assumed: `text` points to `length` bytes. */
uint32_t bench_open(const void *text, size_t length);

/* Closes the module. Answers as apex_close. */
uint32_t bench_close(void);

/* The services that this thread calls from now on are called by the partition of the number, from 0 in the order of the
 * configuration. Until a thread has a partition, each service answers it INVALID_CONFIG. */
void bench_set_partition(uint32_t partition);

/* Every call from now on is made at this moment, in nanoseconds, until the next is set. */
void bench_set_moment(uint64_t moment);

/* Every call from now on is made at the moment that CLOCK_MONOTONIC shows, as it is from the start. */
void bench_follow_clock(void);

/* From now on, all lines that the bench says go to the sink, without a line end, and not to standard error. If the sink
 * is null, they go to standard error again. Assumed: the sink calls nothing of this header. */
void bench_tell_to(void (*sink)(const char *line));

/* The words that say why the last refused port service or SET_PARTITION_MODE of this thread was refused, as
 * apex_call_words has them now; empty if there are none. They hold until the thread's next call of this function. */
const char *bench_last_words(void);

/* Makes a name from the first 30 bytes of a text, filled up with zeros. */
void bench_name(NAME_TYPE name, const char *text);

/* From bench_report.c: drops the kept calls and, if asked, keeps each call from now on. False if memory
 * ran out. */
bool bench_keep_calls(bool is_wanted);

/* Writes the report that `apexports replay` prints of the calls so far; its lines of calls are those that were kept.
 * False if the module isn't open, or the file can't be written. */
bool bench_report(FILE *file);

/* Writes the calls that were kept as a log that `dekarino judge` reads. False if none were kept, memory was refused
 * or the file can't be written. */
bool bench_log(FILE *file);

/* Lends the module's handle for the functions of apex_ports.h. Until it is given back, the calls of other threads wait.
 * Assumed: the thread that takes the handle gives it back, and calls nothing else of this header before. */
struct apex_handle *bench_take_handle(void);
void bench_give_handle_back(void);

#ifdef __cplusplus
}
#endif

#endif
