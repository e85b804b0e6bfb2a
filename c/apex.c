/* The services of apex.h: each makes one call of apex_ports.h while it holds a lock. */
#include "apex_host.h"

#include <pthread.h>
#include <string.h>
#include <time.h>

static pthread_mutex_t lock = PTHREAD_MUTEX_INITIALIZER;

/* Behind the lock: the module, the moment if the bench has set one, and the place for a message on its way out. */
static struct apex_handle module;
static bool is_moment_set;
static uint64_t set_moment;
static uint8_t message[APEX_MESSAGE_LIMIT];

/* No module has a partition of the greatest number. */
static _Thread_local uint32_t partition = UINT32_MAX;

static uint64_t moment(void) {
    if (is_moment_set) {
        return set_moment;
    }
    struct timespec now;
    clock_gettime(CLOCK_MONOTONIC, &now);
    return (uint64_t)now.tv_sec * 1000000000 + (uint64_t)now.tv_nsec;
}

/* A call of the calling thread's partition. */
static struct apex_made made_now(uint64_t at, uint32_t service, uint32_t id, uint32_t answer) {
    return (struct apex_made){.module = &module,
                              .call = {.service = service, .id = id},
                              .partition = partition,
                              .at = at,
                              .answer = answer};
}

/* Whether a service may be called now: the return code says so if it may not. */
static bool enters(const char *service, RETURN_CODE_TYPE *code) {
    return apex_process == NULL || apex_process->enter(service, code);
}

static bool may_wait(SYSTEM_TIME_TYPE time_out, RETURN_CODE_TYPE *code) {
    return apex_process == NULL || apex_process->may_wait(time_out, code);
}

/* After a call by which another process may have become ready. */
static void leaves(void) {
    if (apex_process != NULL) {
        apex_process->leave();
    }
}

/* Waits if the return code says that the call has to, and the thread is a process of the host. */
static void wait_where_needed(bool is_send, uint32_t id, SYSTEM_TIME_TYPE time_out, APEX_BYTE *place,
                              uint32_t *length, RETURN_CODE_TYPE *code) {
    if (apex_process != NULL && *code == TIMED_OUT) {
        *code = apex_process->wait(is_send, id, time_out, place, length);
    } else {
        leaves();
    }
}

/* The return code of an answer of apex_ports.h. */
static RETURN_CODE_TYPE return_code(uint32_t answer) {
    switch (answer) {
    case APEX_NOT_MADE:
        return INVALID_MODE;
    case APEX_NOT_OPEN:
    case APEX_NO_PARTITION:
    case APEX_NO_NAME:
        return INVALID_CONFIG;
    default:
        return (RETURN_CODE_TYPE)answer;
    }
}

/* The return code of a call with a time-out. Nothing happens while a call waits, so its time runs out at once. */
static RETURN_CODE_TYPE timed_return_code(uint32_t answer, SYSTEM_TIME_TYPE time_out) {
    return answer == NOT_AVAILABLE && time_out != 0 ? TIMED_OUT : return_code(answer);
}

/* Whether no place is null: the return code says so if one is. */
static bool are_there(RETURN_CODE_TYPE *code, const void *place, const void *other) {
    if (code != NULL && (place == NULL || other == NULL)) {
        *code = INVALID_PARAM;
    }
    return code != NULL && place != NULL && other != NULL;
}

static size_t name_length(const char *name) { return strnlen(name, MAX_NAME_LENGTH); }

/* A message of a negative length is asked for as one of length 0, and both are answered INVALID_PARAM. */
static size_t byte_count(MESSAGE_SIZE_TYPE length) { return length < 0 ? 0 : (size_t)length; }

/* Whether a fault that the bench injects meets a message, and what is answered then: the ports see nothing of it. */
static bool meets_fault(struct apex_made made, const APEX_BYTE *bytes, MESSAGE_SIZE_TYPE length, uint32_t *answer) {
    made.bytes = bytes;
    made.length = byte_count(length);
    const bool is_met = apex_fault != NULL && apex_fault(&made);
    *answer = made.answer;
    if (is_met && made.answer != NO_ERROR) {
        apex_forget_words();
    }
    return is_met;
}

void CREATE_SAMPLING_PORT(SAMPLING_PORT_NAME_TYPE SAMPLING_PORT_NAME, MESSAGE_SIZE_TYPE MAX_MESSAGE_SIZE,
                          PORT_DIRECTION_TYPE PORT_DIRECTION, SYSTEM_TIME_TYPE REFRESH_PERIOD,
                          SAMPLING_PORT_ID_TYPE *SAMPLING_PORT_ID, RETURN_CODE_TYPE *RETURN_CODE) {
    if (!are_there(RETURN_CODE, SAMPLING_PORT_NAME, SAMPLING_PORT_ID) || !enters(__func__, RETURN_CODE)) {
        return;
    }
    uint32_t id = 0;
    pthread_mutex_lock(&lock);
    const uint64_t now = moment();
    uint32_t answer = apex_create_sampling_port(
        &module, partition, now, (const uint8_t *)SAMPLING_PORT_NAME, name_length(SAMPLING_PORT_NAME),
        (uint32_t)MAX_MESSAGE_SIZE, (uint32_t)PORT_DIRECTION, (uint64_t)REFRESH_PERIOD, &id);
    struct apex_made made = made_now(now, APEX_CREATE_SAMPLING_PORT, 0, answer);
    made.call.size = (uint32_t)MAX_MESSAGE_SIZE;
    made.call.direction = (uint32_t)PORT_DIRECTION;
    made.call.refresh = (uint64_t)REFRESH_PERIOD;
    apex_note_named(made, SAMPLING_PORT_NAME, id);
    pthread_mutex_unlock(&lock);
    if (answer == NO_ERROR) {
        *SAMPLING_PORT_ID = (SAMPLING_PORT_ID_TYPE)id;
    }
    *RETURN_CODE = return_code(answer);
}

void WRITE_SAMPLING_MESSAGE(SAMPLING_PORT_ID_TYPE SAMPLING_PORT_ID, MESSAGE_ADDR_TYPE MESSAGE_ADDR,
                            MESSAGE_SIZE_TYPE LENGTH, RETURN_CODE_TYPE *RETURN_CODE) {
    if (!are_there(RETURN_CODE, MESSAGE_ADDR, MESSAGE_ADDR) || !enters(__func__, RETURN_CODE)) {
        return;
    }
    uint32_t id = (uint32_t)SAMPLING_PORT_ID;
    pthread_mutex_lock(&lock);
    uint64_t now = moment();
    uint32_t answer;
    if (!meets_fault(made_now(now, APEX_WRITE_SAMPLING_MESSAGE, id, 0), MESSAGE_ADDR, LENGTH, &answer)) {
        answer = apex_write_sampling_message(&module, partition, now, id, MESSAGE_ADDR, byte_count(LENGTH));
        apex_note_message(made_now(now, APEX_WRITE_SAMPLING_MESSAGE, id, answer), MESSAGE_ADDR, byte_count(LENGTH));
    }
    pthread_mutex_unlock(&lock);
    *RETURN_CODE = return_code(answer);
}

void READ_SAMPLING_MESSAGE(SAMPLING_PORT_ID_TYPE SAMPLING_PORT_ID, MESSAGE_ADDR_TYPE MESSAGE_ADDR,
                           MESSAGE_SIZE_TYPE *LENGTH, VALIDITY_TYPE *VALIDITY, RETURN_CODE_TYPE *RETURN_CODE) {
    if (!are_there(RETURN_CODE, MESSAGE_ADDR, LENGTH) || !are_there(RETURN_CODE, VALIDITY, VALIDITY) ||
        !enters(__func__, RETURN_CODE)) {
        return;
    }
    uint32_t length = 0, validity = INVALID;
    pthread_mutex_lock(&lock);
    const uint64_t now = moment();
    uint32_t answer = apex_read_sampling_message(&module, partition, now, (uint32_t)SAMPLING_PORT_ID, message,
                                                 sizeof message, &length, &validity);
    memcpy(MESSAGE_ADDR, message, length);
    apex_note_received(made_now(now, APEX_READ_SAMPLING_MESSAGE, (uint32_t)SAMPLING_PORT_ID, answer), message, length,
                       validity);
    pthread_mutex_unlock(&lock);
    *LENGTH = (MESSAGE_SIZE_TYPE)length;
    *VALIDITY = (VALIDITY_TYPE)validity;
    *RETURN_CODE = return_code(answer);
}

void GET_SAMPLING_PORT_ID(SAMPLING_PORT_NAME_TYPE SAMPLING_PORT_NAME, SAMPLING_PORT_ID_TYPE *SAMPLING_PORT_ID,
                          RETURN_CODE_TYPE *RETURN_CODE) {
    if (!are_there(RETURN_CODE, SAMPLING_PORT_NAME, SAMPLING_PORT_ID) || !enters(__func__, RETURN_CODE)) {
        return;
    }
    uint32_t id = 0;
    pthread_mutex_lock(&lock);
    const uint64_t now = moment();
    uint32_t answer = apex_get_sampling_port_id(&module, partition, now, (const uint8_t *)SAMPLING_PORT_NAME,
                                                name_length(SAMPLING_PORT_NAME), &id);
    apex_note_named(made_now(now, APEX_GET_SAMPLING_PORT_ID, 0, answer), SAMPLING_PORT_NAME, id);
    pthread_mutex_unlock(&lock);
    if (answer == NO_ERROR) {
        *SAMPLING_PORT_ID = (SAMPLING_PORT_ID_TYPE)id;
    }
    *RETURN_CODE = return_code(answer);
}

void GET_SAMPLING_PORT_STATUS(SAMPLING_PORT_ID_TYPE SAMPLING_PORT_ID, SAMPLING_PORT_STATUS_TYPE *SAMPLING_PORT_STATUS,
                              RETURN_CODE_TYPE *RETURN_CODE) {
    if (!are_there(RETURN_CODE, SAMPLING_PORT_STATUS, SAMPLING_PORT_STATUS) || !enters(__func__, RETURN_CODE)) {
        return;
    }
    struct apex_sampling_port_status status;
    pthread_mutex_lock(&lock);
    const uint64_t now = moment();
    uint32_t answer =
        apex_get_sampling_port_status(&module, partition, now, (uint32_t)SAMPLING_PORT_ID, &status);
    apex_note_status(made_now(now, APEX_GET_SAMPLING_PORT_STATUS, (uint32_t)SAMPLING_PORT_ID, answer), NULL, &status);
    pthread_mutex_unlock(&lock);
    if (answer == NO_ERROR) {
        SAMPLING_PORT_STATUS->REFRESH_PERIOD = (SYSTEM_TIME_TYPE)status.refresh;
        SAMPLING_PORT_STATUS->MAX_MESSAGE_SIZE = (MESSAGE_SIZE_TYPE)status.size;
        SAMPLING_PORT_STATUS->PORT_DIRECTION = (PORT_DIRECTION_TYPE)status.direction;
        SAMPLING_PORT_STATUS->LAST_MSG_VALIDITY = (VALIDITY_TYPE)status.last_validity;
    }
    *RETURN_CODE = return_code(answer);
}

void CREATE_QUEUING_PORT(QUEUING_PORT_NAME_TYPE QUEUING_PORT_NAME, MESSAGE_SIZE_TYPE MAX_MESSAGE_SIZE,
                         MESSAGE_RANGE_TYPE MAX_NB_MESSAGE, PORT_DIRECTION_TYPE PORT_DIRECTION,
                         QUEUING_DISCIPLINE_TYPE QUEUING_DISCIPLINE, QUEUING_PORT_ID_TYPE *QUEUING_PORT_ID,
                         RETURN_CODE_TYPE *RETURN_CODE) {
    if (!are_there(RETURN_CODE, QUEUING_PORT_NAME, QUEUING_PORT_ID) || !enters(__func__, RETURN_CODE)) {
        return;
    }
    uint32_t id = 0;
    pthread_mutex_lock(&lock);
    const uint64_t now = moment();
    uint32_t answer = apex_create_queuing_port(
        &module, partition, now, (const uint8_t *)QUEUING_PORT_NAME, name_length(QUEUING_PORT_NAME),
        (uint32_t)MAX_MESSAGE_SIZE, (uint32_t)MAX_NB_MESSAGE, (uint32_t)PORT_DIRECTION, (uint32_t)QUEUING_DISCIPLINE,
        &id);
    struct apex_made made = made_now(now, APEX_CREATE_QUEUING_PORT, 0, answer);
    made.call.size = (uint32_t)MAX_MESSAGE_SIZE;
    made.call.depth = (uint32_t)MAX_NB_MESSAGE;
    made.call.direction = (uint32_t)PORT_DIRECTION;
    made.call.discipline = (uint32_t)QUEUING_DISCIPLINE;
    apex_note_named(made, QUEUING_PORT_NAME, id);
    pthread_mutex_unlock(&lock);
    if (answer == NO_ERROR) {
        *QUEUING_PORT_ID = (QUEUING_PORT_ID_TYPE)id;
    }
    *RETURN_CODE = return_code(answer);
}

void SEND_QUEUING_MESSAGE(QUEUING_PORT_ID_TYPE QUEUING_PORT_ID, MESSAGE_ADDR_TYPE MESSAGE_ADDR,
                          MESSAGE_SIZE_TYPE LENGTH, SYSTEM_TIME_TYPE TIME_OUT, RETURN_CODE_TYPE *RETURN_CODE) {
    if (!are_there(RETURN_CODE, MESSAGE_ADDR, MESSAGE_ADDR) || !enters(__func__, RETURN_CODE) ||
        !may_wait(TIME_OUT, RETURN_CODE)) {
        return;
    }
    uint32_t id = (uint32_t)QUEUING_PORT_ID;
    pthread_mutex_lock(&lock);
    uint64_t now = moment();
    uint32_t answer;
    if (!meets_fault(made_now(now, APEX_SEND_QUEUING_MESSAGE, id, 0), MESSAGE_ADDR, LENGTH, &answer)) {
        answer = apex_send_queuing_message(&module, partition, now, id, MESSAGE_ADDR, byte_count(LENGTH));
        apex_note_message(made_now(now, APEX_SEND_QUEUING_MESSAGE, id, answer), MESSAGE_ADDR, byte_count(LENGTH));
    }
    pthread_mutex_unlock(&lock);
    *RETURN_CODE = timed_return_code(answer, TIME_OUT);
    uint32_t length = (uint32_t)LENGTH;
    wait_where_needed(true, id, TIME_OUT, MESSAGE_ADDR, &length, RETURN_CODE);
}

void RECEIVE_QUEUING_MESSAGE(QUEUING_PORT_ID_TYPE QUEUING_PORT_ID, SYSTEM_TIME_TYPE TIME_OUT,
                             MESSAGE_ADDR_TYPE MESSAGE_ADDR, MESSAGE_SIZE_TYPE *LENGTH,
                             RETURN_CODE_TYPE *RETURN_CODE) {
    if (!are_there(RETURN_CODE, MESSAGE_ADDR, LENGTH) || !enters(__func__, RETURN_CODE) ||
        !may_wait(TIME_OUT, RETURN_CODE)) {
        return;
    }
    uint32_t length = 0;
    pthread_mutex_lock(&lock);
    const uint64_t now = moment();
    uint32_t answer = apex_receive_queuing_message(&module, partition, now, (uint32_t)QUEUING_PORT_ID, message,
                                                   sizeof message, &length);
    apex_note_received(made_now(now, APEX_RECEIVE_QUEUING_MESSAGE, (uint32_t)QUEUING_PORT_ID, answer), message, length,
                       0);
    memcpy(MESSAGE_ADDR, message, length);
    pthread_mutex_unlock(&lock);
    *RETURN_CODE = timed_return_code(answer, TIME_OUT);
    wait_where_needed(false, (uint32_t)QUEUING_PORT_ID, TIME_OUT, MESSAGE_ADDR, &length, RETURN_CODE);
    *LENGTH = (MESSAGE_SIZE_TYPE)length;
}

void GET_QUEUING_PORT_ID(QUEUING_PORT_NAME_TYPE QUEUING_PORT_NAME, QUEUING_PORT_ID_TYPE *QUEUING_PORT_ID,
                         RETURN_CODE_TYPE *RETURN_CODE) {
    if (!are_there(RETURN_CODE, QUEUING_PORT_NAME, QUEUING_PORT_ID) || !enters(__func__, RETURN_CODE)) {
        return;
    }
    uint32_t id = 0;
    pthread_mutex_lock(&lock);
    const uint64_t now = moment();
    uint32_t answer = apex_get_queuing_port_id(&module, partition, now, (const uint8_t *)QUEUING_PORT_NAME,
                                               name_length(QUEUING_PORT_NAME), &id);
    apex_note_named(made_now(now, APEX_GET_QUEUING_PORT_ID, 0, answer), QUEUING_PORT_NAME, id);
    pthread_mutex_unlock(&lock);
    if (answer == NO_ERROR) {
        *QUEUING_PORT_ID = (QUEUING_PORT_ID_TYPE)id;
    }
    *RETURN_CODE = return_code(answer);
}

void GET_QUEUING_PORT_STATUS(QUEUING_PORT_ID_TYPE QUEUING_PORT_ID, QUEUING_PORT_STATUS_TYPE *QUEUING_PORT_STATUS,
                             RETURN_CODE_TYPE *RETURN_CODE) {
    if (!are_there(RETURN_CODE, QUEUING_PORT_STATUS, QUEUING_PORT_STATUS) || !enters(__func__, RETURN_CODE)) {
        return;
    }
    struct apex_queuing_port_status status;
    pthread_mutex_lock(&lock);
    const uint64_t now = moment();
    uint32_t answer = apex_get_queuing_port_status(&module, partition, now, (uint32_t)QUEUING_PORT_ID, &status);
    apex_note_status(made_now(now, APEX_GET_QUEUING_PORT_STATUS, (uint32_t)QUEUING_PORT_ID, answer), &status, NULL);
    const WAITING_RANGE_TYPE waiting =
        apex_host == NULL ? 0 : apex_host->waiting(&module, partition, (uint32_t)QUEUING_PORT_ID);
    pthread_mutex_unlock(&lock);
    if (answer == NO_ERROR) {
        QUEUING_PORT_STATUS->NB_MESSAGE = (MESSAGE_RANGE_TYPE)status.waiting;
        QUEUING_PORT_STATUS->MAX_NB_MESSAGE = (MESSAGE_RANGE_TYPE)status.depth;
        QUEUING_PORT_STATUS->MAX_MESSAGE_SIZE = (MESSAGE_SIZE_TYPE)status.size;
        QUEUING_PORT_STATUS->PORT_DIRECTION = (PORT_DIRECTION_TYPE)status.direction;
        QUEUING_PORT_STATUS->WAITING_PROCESSES = waiting;
    }
    *RETURN_CODE = return_code(answer);
}

void CLEAR_QUEUING_PORT(QUEUING_PORT_ID_TYPE QUEUING_PORT_ID, RETURN_CODE_TYPE *RETURN_CODE) {
    if (RETURN_CODE == NULL || !enters(__func__, RETURN_CODE)) {
        return;
    }
    pthread_mutex_lock(&lock);
    const uint64_t now = moment();
    uint32_t answer = apex_clear_queuing_port(&module, partition, now, (uint32_t)QUEUING_PORT_ID);
    const struct apex_made made = made_now(now, APEX_CLEAR_QUEUING_PORT, (uint32_t)QUEUING_PORT_ID, answer);
    apex_note(&made);
    pthread_mutex_unlock(&lock);
    *RETURN_CODE = return_code(answer);
    leaves();
}

void SET_PARTITION_MODE(OPERATING_MODE_TYPE OPERATING_MODE, RETURN_CODE_TYPE *RETURN_CODE) {
    if (RETURN_CODE == NULL || !enters(__func__, RETURN_CODE)) {
        return;
    }
    pthread_mutex_lock(&lock);
    const uint64_t now = moment();
    uint32_t answer = apex_set_partition_mode(&module, partition, now, (uint32_t)OPERATING_MODE);
    struct apex_made made = made_now(now, APEX_SET_PARTITION_MODE, 0, answer);
    made.call.mode = (uint32_t)OPERATING_MODE;
    apex_note(&made);
    pthread_mutex_unlock(&lock);
    *RETURN_CODE = return_code(answer);
    if (apex_process != NULL && answer == NO_ERROR) {
        apex_process->mode_set(OPERATING_MODE);
    }
}

uint32_t bench_open(const void *text, size_t length) {
    if (text == NULL) {
        return 1;
    }
    static uint8_t path[1];
    static char lines[16384];
    uint64_t path_length = 0, lines_length = 0;
    pthread_mutex_lock(&lock);
    uint32_t answer = apex_open_explained(&module, text, length, path, sizeof path, &path_length, (uint8_t *)lines,
                                          sizeof lines - 1, &lines_length);
    if (lines_length < sizeof lines) {
        lines[lines_length] = '\0';
        apex_tell_lines(lines);
    }
    pthread_mutex_unlock(&lock);
    return answer;
}

uint32_t bench_close(void) {
    pthread_mutex_lock(&lock);
    uint32_t answer = apex_close(&module);
    pthread_mutex_unlock(&lock);
    return answer;
}

void bench_set_partition(uint32_t number) { partition = number; }

void bench_set_moment(uint64_t set) {
    pthread_mutex_lock(&lock);
    is_moment_set = true;
    set_moment = set;
    pthread_mutex_unlock(&lock);
}

void bench_follow_clock(void) {
    pthread_mutex_lock(&lock);
    is_moment_set = false;
    pthread_mutex_unlock(&lock);
}

struct apex_handle *bench_take_handle(void) {
    pthread_mutex_lock(&lock);
    return &module;
}

void bench_give_handle_back(void) { pthread_mutex_unlock(&lock); }
