/* The services of c_stand_in.h. */
#include "c_stand_in.h"

STAND_IN_LOCAL struct stand_in_answer stand_in_answer;
STAND_IN_LOCAL struct stand_in_seen stand_in_seen;
STAND_IN_LOCAL SYSTEM_TIME_TYPE stand_in_time;

static struct stand_in_seen *see(const char *service, const void *place, const void *other) {
    static const struct stand_in_seen nothing = {0, {0, 0, 0, 0, 0}, {0, 0, 0, 0}};
    stand_in_seen = nothing;
    stand_in_seen.service = service;
    stand_in_seen.place[0] = place;
    stand_in_seen.place[1] = other;
    return &stand_in_seen;
}

static void answer(RETURN_CODE_TYPE *code) {
    if (stand_in_answer.meanwhile) {
        stand_in_answer.meanwhile();
    }
    if (code) {
        *code = (RETURN_CODE_TYPE)stand_in_answer.code;
    }
}

static void answer_id(APEX_INTEGER *id, RETURN_CODE_TYPE *code) {
    answer(code);
    if (id) {
        *id = stand_in_answer.id;
    }
}

static void answer_message(APEX_BYTE *message, MESSAGE_SIZE_TYPE *length, RETURN_CODE_TYPE *code) {
    answer(code);
    for (int64_t i = 0; stand_in_answer.message && i < stand_in_answer.length; i++) {
        message[i] = stand_in_answer.message[i];
    }
    if (length) {
        *length = stand_in_answer.length;
    }
}

void CREATE_SAMPLING_PORT(SAMPLING_PORT_NAME_TYPE name, MESSAGE_SIZE_TYPE size, PORT_DIRECTION_TYPE direction,
                          SYSTEM_TIME_TYPE refresh, SAMPLING_PORT_ID_TYPE *id, RETURN_CODE_TYPE *code) {
    struct stand_in_seen *seen = see(__func__, name, id);
    seen->place[2] = code;
    seen->value[0] = size;
    seen->value[1] = (int64_t)direction;
    seen->value[2] = refresh;
    answer_id(id, code);
}

void WRITE_SAMPLING_MESSAGE(SAMPLING_PORT_ID_TYPE id, MESSAGE_ADDR_TYPE message, MESSAGE_SIZE_TYPE length,
                            RETURN_CODE_TYPE *code) {
    struct stand_in_seen *seen = see(__func__, message, code);
    seen->value[0] = id;
    seen->value[1] = length;
    answer(code);
}

void READ_SAMPLING_MESSAGE(SAMPLING_PORT_ID_TYPE id, MESSAGE_ADDR_TYPE message, MESSAGE_SIZE_TYPE *length,
                           VALIDITY_TYPE *validity, RETURN_CODE_TYPE *code) {
    struct stand_in_seen *seen = see(__func__, message, length);
    seen->place[2] = validity;
    seen->place[3] = code;
    seen->value[0] = id;
    answer_message(message, length, code);
    if (validity) {
        *validity = (VALIDITY_TYPE)stand_in_answer.validity;
    }
}

void GET_SAMPLING_PORT_ID(SAMPLING_PORT_NAME_TYPE name, SAMPLING_PORT_ID_TYPE *id, RETURN_CODE_TYPE *code) {
    see(__func__, name, id)->place[2] = code;
    answer_id(id, code);
}

void GET_SAMPLING_PORT_STATUS(SAMPLING_PORT_ID_TYPE id, SAMPLING_PORT_STATUS_TYPE *status, RETURN_CODE_TYPE *code) {
    see(__func__, status, code)->value[0] = id;
    answer(code);
    if (status) {
        *status = stand_in_answer.sampling;
    }
}

void CREATE_QUEUING_PORT(QUEUING_PORT_NAME_TYPE name, MESSAGE_SIZE_TYPE size, MESSAGE_RANGE_TYPE depth,
                         PORT_DIRECTION_TYPE direction, QUEUING_DISCIPLINE_TYPE discipline, QUEUING_PORT_ID_TYPE *id,
                         RETURN_CODE_TYPE *code) {
    struct stand_in_seen *seen = see(__func__, name, id);
    seen->place[2] = code;
    seen->value[0] = size;
    seen->value[1] = depth;
    seen->value[2] = (int64_t)direction;
    seen->value[3] = (int64_t)discipline;
    answer_id(id, code);
}

void SEND_QUEUING_MESSAGE(QUEUING_PORT_ID_TYPE id, MESSAGE_ADDR_TYPE message, MESSAGE_SIZE_TYPE length,
                          SYSTEM_TIME_TYPE time_out, RETURN_CODE_TYPE *code) {
    struct stand_in_seen *seen = see(__func__, message, code);
    seen->value[0] = id;
    seen->value[1] = length;
    seen->value[2] = time_out;
    answer(code);
}

void RECEIVE_QUEUING_MESSAGE(QUEUING_PORT_ID_TYPE id, SYSTEM_TIME_TYPE time_out, MESSAGE_ADDR_TYPE message,
                             MESSAGE_SIZE_TYPE *length, RETURN_CODE_TYPE *code) {
    struct stand_in_seen *seen = see(__func__, message, length);
    seen->place[2] = code;
    seen->value[0] = id;
    seen->value[1] = time_out;
    answer_message(message, length, code);
}

void GET_QUEUING_PORT_ID(QUEUING_PORT_NAME_TYPE name, QUEUING_PORT_ID_TYPE *id, RETURN_CODE_TYPE *code) {
    see(__func__, name, id)->place[2] = code;
    answer_id(id, code);
}

void GET_QUEUING_PORT_STATUS(QUEUING_PORT_ID_TYPE id, QUEUING_PORT_STATUS_TYPE *status, RETURN_CODE_TYPE *code) {
    see(__func__, status, code)->value[0] = id;
    answer(code);
    if (status) {
        *status = stand_in_answer.queuing;
    }
}

void CLEAR_QUEUING_PORT(QUEUING_PORT_ID_TYPE id, RETURN_CODE_TYPE *code) {
    see(__func__, code, 0)->value[0] = id;
    answer(code);
}

void SET_PARTITION_MODE(OPERATING_MODE_TYPE mode, RETURN_CODE_TYPE *code) {
    see(__func__, code, 0)->value[0] = (int64_t)mode;
    answer(code);
}

void GET_TIME(SYSTEM_TIME_TYPE *time, RETURN_CODE_TYPE *code) {
    *time = stand_in_time;
    stand_in_time += stand_in_time < INT64_MAX;
    *code = NO_ERROR;
}
