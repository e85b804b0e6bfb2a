/* Records the port services that a partition calls, on a target or on a bench: each call is passed on unchanged, and
 * when it has returned, its line of the partition's own log is handed to the integrator's sink. `dekarino judge` reads
 * such logs. docs/RECORDING.md shows how, and says what a log cannot have.
 *
 * To be included behind the standard's headers, whose types it takes. Code that calls the services is compiled with it,
 * and calls the recorder in their place; or it is linked with the options of wrap.txt, and isn't compiled again:
 * apex_record.c is compiled with APEX_RECORD_WRAP then.
 *
 * Macros for apex_record.c, and the last for any file:
 *   APEX_RECORD_HEADERS    the header with the standard's types and services, in quotes: else those of c/arinc653
 *   APEX_RECORD_CLOCK      a function `SYSTEM_TIME_TYPE name(void)` that answers the moment in ns: else GET_TIME
 *   APEX_RECORD_WRAP       records by the linker's --wrap
 *   APEX_RECORD_NO_MACROS  declares the functions, and leaves the services' names to the system */
#ifndef APEX_RECORD_H
#define APEX_RECORD_H

#include <stddef.h>
#include <stdint.h>

#ifdef __cplusplus
extern "C" {
#endif

/* Takes a text of whole lines, and answers other than 0 if it has. Each process that calls a service calls it, so that
 * several may be in it at once. It calls none of the twelve services by a name that is recorded. */
typedef int (*apex_record_sink)(void *context, const char *text, size_t length);

/* Names the partition's sink: before its first call, and again after a restart that loads its data anew. Lines that no
 * sink takes are counted; the next text that one takes begins with a comment that says how many there were. */
void apex_record_to(apex_record_sink sink, void *context);

/* Says in the log that the partition was restarted in this mode, COLD_START or WARM_START. Call it if the
 * START_CONDITION isn't NORMAL_START, after apex_record_to and before all other calls. */
void apex_record_restarted(OPERATING_MODE_TYPE mode);

/* The number of lines that no sink has taken and no comment has reported yet. */
uint32_t apex_record_lost(void);

/* The twelve services, each by the name that a macro makes of it. */
#define APEX_RECORD_SERVICES(NAME)                                                                                     \
    void NAME(CREATE_SAMPLING_PORT)(SAMPLING_PORT_NAME_TYPE, MESSAGE_SIZE_TYPE, PORT_DIRECTION_TYPE, SYSTEM_TIME_TYPE, \
                                    SAMPLING_PORT_ID_TYPE *, RETURN_CODE_TYPE *);                                      \
    void NAME(WRITE_SAMPLING_MESSAGE)(SAMPLING_PORT_ID_TYPE, MESSAGE_ADDR_TYPE, MESSAGE_SIZE_TYPE,                     \
                                      RETURN_CODE_TYPE *);                                                             \
    void NAME(READ_SAMPLING_MESSAGE)(SAMPLING_PORT_ID_TYPE, MESSAGE_ADDR_TYPE, MESSAGE_SIZE_TYPE *, VALIDITY_TYPE *,   \
                                     RETURN_CODE_TYPE *);                                                              \
    void NAME(GET_SAMPLING_PORT_ID)(SAMPLING_PORT_NAME_TYPE, SAMPLING_PORT_ID_TYPE *, RETURN_CODE_TYPE *);             \
    void NAME(GET_SAMPLING_PORT_STATUS)(SAMPLING_PORT_ID_TYPE, SAMPLING_PORT_STATUS_TYPE *, RETURN_CODE_TYPE *);       \
    void NAME(CREATE_QUEUING_PORT)(QUEUING_PORT_NAME_TYPE, MESSAGE_SIZE_TYPE, MESSAGE_RANGE_TYPE, PORT_DIRECTION_TYPE, \
                                   QUEUING_DISCIPLINE_TYPE, QUEUING_PORT_ID_TYPE *, RETURN_CODE_TYPE *);               \
    void NAME(SEND_QUEUING_MESSAGE)(QUEUING_PORT_ID_TYPE, MESSAGE_ADDR_TYPE, MESSAGE_SIZE_TYPE, SYSTEM_TIME_TYPE,      \
                                    RETURN_CODE_TYPE *);                                                               \
    void NAME(RECEIVE_QUEUING_MESSAGE)(QUEUING_PORT_ID_TYPE, SYSTEM_TIME_TYPE, MESSAGE_ADDR_TYPE, MESSAGE_SIZE_TYPE *, \
                                       RETURN_CODE_TYPE *);                                                            \
    void NAME(GET_QUEUING_PORT_ID)(QUEUING_PORT_NAME_TYPE, QUEUING_PORT_ID_TYPE *, RETURN_CODE_TYPE *);                \
    void NAME(GET_QUEUING_PORT_STATUS)(QUEUING_PORT_ID_TYPE, QUEUING_PORT_STATUS_TYPE *, RETURN_CODE_TYPE *);          \
    void NAME(CLEAR_QUEUING_PORT)(QUEUING_PORT_ID_TYPE, RETURN_CODE_TYPE *);                                           \
    void NAME(SET_PARTITION_MODE)(OPERATING_MODE_TYPE, RETURN_CODE_TYPE *)

#define APEX_RECORD_RECORDED(service) apex_record_##service
APEX_RECORD_SERVICES(APEX_RECORD_RECORDED);

#ifdef __cplusplus
}
#endif

#ifndef APEX_RECORD_NO_MACROS
#define CREATE_SAMPLING_PORT apex_record_CREATE_SAMPLING_PORT
#define WRITE_SAMPLING_MESSAGE apex_record_WRITE_SAMPLING_MESSAGE
#define READ_SAMPLING_MESSAGE apex_record_READ_SAMPLING_MESSAGE
#define GET_SAMPLING_PORT_ID apex_record_GET_SAMPLING_PORT_ID
#define GET_SAMPLING_PORT_STATUS apex_record_GET_SAMPLING_PORT_STATUS
#define CREATE_QUEUING_PORT apex_record_CREATE_QUEUING_PORT
#define SEND_QUEUING_MESSAGE apex_record_SEND_QUEUING_MESSAGE
#define RECEIVE_QUEUING_MESSAGE apex_record_RECEIVE_QUEUING_MESSAGE
#define GET_QUEUING_PORT_ID apex_record_GET_QUEUING_PORT_ID
#define GET_QUEUING_PORT_STATUS apex_record_GET_QUEUING_PORT_STATUS
#define CLEAR_QUEUING_PORT apex_record_CLEAR_QUEUING_PORT
#define SET_PARTITION_MODE apex_record_SET_PARTITION_MODE
#endif

#endif
