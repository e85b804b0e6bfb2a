/* A stand-in for a target's APEX, for tests of the recorder on machines that the ports' library isn't built for: the
 * types of the twelve services, with integers of 64 bits, and services that answer what a test has said. */
#ifndef C_STAND_IN_H
#define C_STAND_IN_H

#include <stdint.h>

typedef unsigned char APEX_BYTE;
typedef int64_t APEX_INTEGER;
typedef enum {
    NO_ERROR = 0,
    NO_ACTION = 1,
    NOT_AVAILABLE = 2,
    INVALID_PARAM = 3,
    INVALID_CONFIG = 4,
    INVALID_MODE = 5,
    TIMED_OUT = 6
} RETURN_CODE_TYPE;
#define MAX_NAME_LENGTH 40
typedef char NAME_TYPE[MAX_NAME_LENGTH];
typedef APEX_BYTE *MESSAGE_ADDR_TYPE;
typedef APEX_INTEGER MESSAGE_SIZE_TYPE, MESSAGE_RANGE_TYPE, WAITING_RANGE_TYPE;
typedef enum { SOURCE = 0, DESTINATION = 1 } PORT_DIRECTION_TYPE;
typedef enum { FIFO = 0, PRIORITY = 1 } QUEUING_DISCIPLINE_TYPE;
typedef int64_t SYSTEM_TIME_TYPE;
#define INFINITE_TIME_VALUE (-1)
typedef NAME_TYPE SAMPLING_PORT_NAME_TYPE, QUEUING_PORT_NAME_TYPE;
typedef APEX_INTEGER SAMPLING_PORT_ID_TYPE, QUEUING_PORT_ID_TYPE;
typedef enum { INVALID = 0, VALID = 1 } VALIDITY_TYPE;
typedef enum { IDLE = 0, COLD_START = 1, WARM_START = 2, NORMAL = 3 } OPERATING_MODE_TYPE;
typedef struct {
    SYSTEM_TIME_TYPE REFRESH_PERIOD;
    MESSAGE_SIZE_TYPE MAX_MESSAGE_SIZE;
    PORT_DIRECTION_TYPE PORT_DIRECTION;
    VALIDITY_TYPE LAST_MSG_VALIDITY;
} SAMPLING_PORT_STATUS_TYPE;
typedef struct {
    MESSAGE_RANGE_TYPE NB_MESSAGE, MAX_NB_MESSAGE;
    MESSAGE_SIZE_TYPE MAX_MESSAGE_SIZE;
    PORT_DIRECTION_TYPE PORT_DIRECTION;
    WAITING_RANGE_TYPE WAITING_PROCESSES;
} QUEUING_PORT_STATUS_TYPE;

void CREATE_SAMPLING_PORT(SAMPLING_PORT_NAME_TYPE name, MESSAGE_SIZE_TYPE size, PORT_DIRECTION_TYPE direction,
                          SYSTEM_TIME_TYPE refresh, SAMPLING_PORT_ID_TYPE *id, RETURN_CODE_TYPE *code);
void WRITE_SAMPLING_MESSAGE(SAMPLING_PORT_ID_TYPE id, MESSAGE_ADDR_TYPE message, MESSAGE_SIZE_TYPE length,
                            RETURN_CODE_TYPE *code);
void READ_SAMPLING_MESSAGE(SAMPLING_PORT_ID_TYPE id, MESSAGE_ADDR_TYPE message, MESSAGE_SIZE_TYPE *length,
                           VALIDITY_TYPE *validity, RETURN_CODE_TYPE *code);
void GET_SAMPLING_PORT_ID(SAMPLING_PORT_NAME_TYPE name, SAMPLING_PORT_ID_TYPE *id, RETURN_CODE_TYPE *code);
void GET_SAMPLING_PORT_STATUS(SAMPLING_PORT_ID_TYPE id, SAMPLING_PORT_STATUS_TYPE *status, RETURN_CODE_TYPE *code);
void CREATE_QUEUING_PORT(QUEUING_PORT_NAME_TYPE name, MESSAGE_SIZE_TYPE size, MESSAGE_RANGE_TYPE depth,
                         PORT_DIRECTION_TYPE direction, QUEUING_DISCIPLINE_TYPE discipline, QUEUING_PORT_ID_TYPE *id,
                         RETURN_CODE_TYPE *code);
void SEND_QUEUING_MESSAGE(QUEUING_PORT_ID_TYPE id, MESSAGE_ADDR_TYPE message, MESSAGE_SIZE_TYPE length,
                          SYSTEM_TIME_TYPE time_out, RETURN_CODE_TYPE *code);
void RECEIVE_QUEUING_MESSAGE(QUEUING_PORT_ID_TYPE id, SYSTEM_TIME_TYPE time_out, MESSAGE_ADDR_TYPE message,
                             MESSAGE_SIZE_TYPE *length, RETURN_CODE_TYPE *code);
void GET_QUEUING_PORT_ID(QUEUING_PORT_NAME_TYPE name, QUEUING_PORT_ID_TYPE *id, RETURN_CODE_TYPE *code);
void GET_QUEUING_PORT_STATUS(QUEUING_PORT_ID_TYPE id, QUEUING_PORT_STATUS_TYPE *status, RETURN_CODE_TYPE *code);
void CLEAR_QUEUING_PORT(QUEUING_PORT_ID_TYPE id, RETURN_CODE_TYPE *code);
void SET_PARTITION_MODE(OPERATING_MODE_TYPE mode, RETURN_CODE_TYPE *code);
void GET_TIME(SYSTEM_TIME_TYPE *time, RETURN_CODE_TYPE *code);

/* What the next call answers: each service takes what it has a place for. */
#ifndef STAND_IN_LOCAL
#define STAND_IN_LOCAL
#endif
struct stand_in_answer {
    int code;
    int64_t id, length;
    const APEX_BYTE *message;
    int validity;
    SAMPLING_PORT_STATUS_TYPE sampling;
    QUEUING_PORT_STATUS_TYPE queuing;
    void (*meanwhile)(void); /* is called before the answer, if it is there */
};
extern STAND_IN_LOCAL struct stand_in_answer stand_in_answer;
extern STAND_IN_LOCAL SYSTEM_TIME_TYPE stand_in_time;

/* What the last call was made with: the service, its values and its places, in the order of the parameters. */
struct stand_in_seen {
    const char *service;
    int64_t value[5];
    const void *place[4];
};
extern STAND_IN_LOCAL struct stand_in_seen stand_in_seen;

#endif
