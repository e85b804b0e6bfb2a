/* The host for processes, plain C outside of what is proved: buffers, blackboards, semaphores and
 * events of a partition. A process takes something from an object if it has some, or waits. */
#include "bench_host.h"

#include <stdlib.h>
#include <string.h>

enum bench_kind { BENCH_BUFFER, BENCH_BLACKBOARD, BENCH_SEMAPHORE, BENCH_EVENT, BENCH_KINDS };

struct bench_message {
    MESSAGE_SIZE_TYPE length;
    APEX_BYTE bytes[SYSTEM_LIMIT_MESSAGE_SIZE];
};

/* A buffer, blackboard, semaphore or event. */
struct bench_object {
    NAME_TYPE name;
    struct bench_queue takers, senders; /* no senders but of a buffer */
    APEX_INTEGER value;     /* the messages there, a semaphore's value, whether an event is UP */
    APEX_INTEGER limit;     /* of the value */
    MESSAGE_SIZE_TYPE size; /* of a message; 0 without any */
    APEX_INTEGER oldest;
    struct bench_message *messages;
};

/* Of each partition: the objects of each kind, an identifier less 1 being the place. */
enum { OBJECTS = 32 };
static struct bench_list {
    APEX_INTEGER count;
    struct bench_object object[OBJECTS];
} lists[BENCH_PARTITIONS][BENCH_KINDS];

/* Creating and finding. */

static struct bench_list *own_list(enum bench_kind kind) {
    return &lists[bench_own()->number][kind];
}

/* The identifier of the object with a name; 0 if there is none. */
static APEX_INTEGER id_of(enum bench_kind kind, const char *name) {
    APEX_INTEGER id = own_list(kind)->count;
    while (id > 0 && strncmp(own_list(kind)->object[id - 1].name, name, MAX_NAME_LENGTH) != 0) {
        id--;
    }
    return id;
}

/* Creates an object with the fields of another, which may be out of range. */
static void create(const char *service, enum bench_kind kind, const char *name,
                   struct bench_object made, bool is_in_range, APEX_INTEGER *place,
                   RETURN_CODE_TYPE *code) {
    if (bench_is_served(service, name == NULL ? NULL : place, code) &&
        bench_needs(own_list(kind)->count < OBJECTS, INVALID_CONFIG, code) &&
        bench_needs(id_of(kind, name) == 0, NO_ACTION, code) &&
        bench_needs(is_in_range && name[0] != '\0', INVALID_PARAM, code) &&
        bench_needs(bench_host.mode != NORMAL, INVALID_MODE, code) &&
        bench_needs(made.size == 0 ||
                        (made.messages = calloc((size_t)made.limit, sizeof *made.messages)) != NULL,
                    INVALID_CONFIG, code)) {
        memcpy(made.name, name, strnlen(name, MAX_NAME_LENGTH));
        own_list(kind)->object[own_list(kind)->count++] = made;
        *place = own_list(kind)->count;
    }
}

/* The services that find an object by its name. */
#define GET_ID(KIND)                                                                               \
    void GET_##KIND##_ID(KIND##_NAME_TYPE name, KIND##_ID_TYPE *id, RETURN_CODE_TYPE *code) {      \
        if (bench_is_served(__func__, name == NULL ? NULL : id, code) &&                           \
            bench_needs(id_of(BENCH_##KIND, name) != 0, INVALID_CONFIG, code)) {                   \
            *id = id_of(BENCH_##KIND, name);                                                       \
        }                                                                                          \
    }
GET_ID(BUFFER)
GET_ID(BLACKBOARD)
GET_ID(SEMAPHORE)
GET_ID(EVENT)

/* The object that a service is called for; null if the return code says why not. */
static struct bench_object *find(const char *service, enum bench_kind kind, APEX_INTEGER id,
                                 const void *place, RETURN_CODE_TYPE *code) {
    const bool is_there = bench_is_served(service, place, code) &&
                          bench_needs(id >= 1 && id <= own_list(kind)->count, INVALID_PARAM, code);
    return is_there ? &own_list(kind)->object[id - 1] : NULL;
}

void bench_end_objects(uint32_t partition) {
    for (int kind = 0; kind < BENCH_KINDS; kind++) {
        struct bench_list *list = &lists[partition][kind];
        while (list->count > 0) {
            free(list->object[--list->count].messages);
        }
    }
}

/* Messages. */

static bool is_message(const struct bench_object *object, MESSAGE_SIZE_TYPE length) {
    return length > 0 && length <= object->size;
}

/* The place of a message in a buffer, from the oldest on. */
static struct bench_message *message_at(struct bench_object *object, APEX_INTEGER place) {
    return &object->messages[(object->oldest + place) % object->limit];
}

static void put_message(struct bench_message *message, const APEX_BYTE *bytes,
                        MESSAGE_SIZE_TYPE length) {
    message->length = length;
    memcpy(message->bytes, bytes, (size_t)length);
}

/* Copies a message and its length to the places of a process that waits or calls for one. */
static MESSAGE_SIZE_TYPE get_message(const struct bench_message *message, APEX_BYTE *bytes) {
    memcpy(bytes, message->bytes, (size_t)message->length);
    return message->length;
}

/* Ends the wait of the first process that waits for an object, with a message if the object has
 * some; false if none waits. */
static bool serve_first(struct bench_object *object, const struct bench_message *message) {
    struct bench_process *taker = bench_first_at(&object->takers);
    if (taker == NULL) {
        return false;
    }
    if (message != NULL) {
        taker->wait.length = (uint32_t)get_message(message, taker->wait.message);
    }
    bench_serve(taker, NO_ERROR);
    return true;
}

/* The same for all that wait at a blackboard or an event. */
static void serve_all(struct bench_object *object) {
    while (serve_first(object, object->messages)) {
    }
    bench_yield();
}

/* Takes a buffer's oldest message; the first that waits with one takes its place. */
static MESSAGE_SIZE_TYPE take_oldest(struct bench_object *buffer, APEX_BYTE *place) {
    const MESSAGE_SIZE_TYPE length = get_message(message_at(buffer, 0), place);
    buffer->oldest = (buffer->oldest + 1) % buffer->limit;
    buffer->value--;
    struct bench_process *sender = bench_first_at(&buffer->senders);
    if (sender != NULL) {
        put_message(message_at(buffer, buffer->value++), sender->wait.message,
                    (MESSAGE_SIZE_TYPE)sender->wait.length);
        bench_serve(sender, NO_ERROR);
    }
    return length;
}

/* Takes what an object has for the caller, and copies a message to the caller's places. If the
 * object has nothing, the caller waits, and then gets what it waited for. */
static void take(const char *service, enum bench_kind kind, APEX_INTEGER id,
                 SYSTEM_TIME_TYPE time_out, APEX_BYTE *place, MESSAGE_SIZE_TYPE *length,
                 RETURN_CODE_TYPE *code) {
    const bool are_places = kind >= BENCH_SEMAPHORE || (place != NULL && length != NULL);
    struct bench_object *it = find(service, kind, id, are_places ? code : NULL, code);
    if (it == NULL || !bench_may_time_out(time_out, code)) {
        return;
    }
    MESSAGE_SIZE_TYPE taken = 0;
    if (it->value == 0 && bench_needs(time_out != 0, NOT_AVAILABLE, code)) {
        *code = bench_wait_at(&it->takers, time_out, (struct bench_wait){.message = place});
        taken = (MESSAGE_SIZE_TYPE)bench_self->wait.length;
    } else if (it->value > 0 && it->messages != NULL) {
        taken = kind == BENCH_BUFFER ? take_oldest(it, place) : get_message(it->messages, place);
    } else if (it->value > 0 && kind == BENCH_SEMAPHORE) {
        it->value--;
    }
    if (length != NULL) {
        *length = taken;
    }
    bench_yield(); /* if a sender was served */
}

static bool is_discipline(QUEUING_DISCIPLINE_TYPE discipline) {
    return discipline == FIFO || discipline == PRIORITY;
}

static bool is_size(MESSAGE_SIZE_TYPE size) {
    return size > 0 && size <= SYSTEM_LIMIT_MESSAGE_SIZE;
}

/* Buffers. */

void CREATE_BUFFER(BUFFER_NAME_TYPE name, MESSAGE_SIZE_TYPE size, MESSAGE_RANGE_TYPE depth,
                   QUEUING_DISCIPLINE_TYPE discipline, BUFFER_ID_TYPE *id, RETURN_CODE_TYPE *code) {
    const struct bench_object made = {
        .size = size, .limit = depth, .takers = {discipline}, .senders = {discipline}};
    const bool is_in_range = is_size(size) && depth > 0 &&
                             depth <= SYSTEM_LIMIT_NUMBER_OF_MESSAGES && is_discipline(discipline);
    create(__func__, BENCH_BUFFER, name, made, is_in_range, id, code);
}

void SEND_BUFFER(BUFFER_ID_TYPE id, MESSAGE_ADDR_TYPE bytes, MESSAGE_SIZE_TYPE length,
                 SYSTEM_TIME_TYPE time_out, RETURN_CODE_TYPE *code) {
    struct bench_object *buffer = find(__func__, BENCH_BUFFER, id, bytes, code);
    if (buffer == NULL || !bench_needs(is_message(buffer, length), INVALID_PARAM, code) ||
        !bench_may_time_out(time_out, code)) {
        return;
    }
    if (buffer->value < buffer->limit) {
        struct bench_message *message = message_at(buffer, buffer->value);
        put_message(message, bytes, length);
        buffer->value += !serve_first(buffer, message);
        bench_yield();
    } else if (bench_needs(time_out != 0, NOT_AVAILABLE, code)) {
        const struct bench_wait how = {.message = bytes, .length = (uint32_t)length};
        *code = bench_wait_at(&buffer->senders, time_out, how);
    }
}

void RECEIVE_BUFFER(BUFFER_ID_TYPE id, SYSTEM_TIME_TYPE time_out, MESSAGE_ADDR_TYPE bytes,
                    MESSAGE_SIZE_TYPE *length, RETURN_CODE_TYPE *code) {
    take(__func__, BENCH_BUFFER, id, time_out, bytes, length, code);
}

void GET_BUFFER_STATUS(BUFFER_ID_TYPE id, BUFFER_STATUS_TYPE *status, RETURN_CODE_TYPE *code) {
    const struct bench_object *it = find(__func__, BENCH_BUFFER, id, status, code);
    if (it != NULL) {
        status->NB_MESSAGE = it->value;
        status->MAX_NB_MESSAGE = it->limit;
        status->MAX_MESSAGE_SIZE = it->size;
        status->WAITING_PROCESSES = bench_count_at(&it->takers) + bench_count_at(&it->senders);
    }
}

/* Blackboards. */

void CREATE_BLACKBOARD(BLACKBOARD_NAME_TYPE name, MESSAGE_SIZE_TYPE size, BLACKBOARD_ID_TYPE *id,
                       RETURN_CODE_TYPE *code) {
    const struct bench_object made = {.size = size, .limit = 1};
    create(__func__, BENCH_BLACKBOARD, name, made, is_size(size), id, code);
}

void DISPLAY_BLACKBOARD(BLACKBOARD_ID_TYPE id, MESSAGE_ADDR_TYPE bytes, MESSAGE_SIZE_TYPE length,
                        RETURN_CODE_TYPE *code) {
    struct bench_object *board = find(__func__, BENCH_BLACKBOARD, id, bytes, code);
    if (board != NULL && bench_needs(is_message(board, length), INVALID_PARAM, code)) {
        put_message(board->messages, bytes, length);
        board->value = OCCUPIED;
        serve_all(board);
    }
}

void READ_BLACKBOARD(BLACKBOARD_ID_TYPE id, SYSTEM_TIME_TYPE time_out, MESSAGE_ADDR_TYPE bytes,
                     MESSAGE_SIZE_TYPE *length, RETURN_CODE_TYPE *code) {
    take(__func__, BENCH_BLACKBOARD, id, time_out, bytes, length, code);
}

void CLEAR_BLACKBOARD(BLACKBOARD_ID_TYPE id, RETURN_CODE_TYPE *code) {
    struct bench_object *board = find(__func__, BENCH_BLACKBOARD, id, code, code);
    if (board != NULL) {
        board->value = EMPTY;
    }
}

void GET_BLACKBOARD_STATUS(BLACKBOARD_ID_TYPE id, BLACKBOARD_STATUS_TYPE *status,
                           RETURN_CODE_TYPE *code) {
    const struct bench_object *it = find(__func__, BENCH_BLACKBOARD, id, status, code);
    if (it != NULL) {
        status->EMPTY_INDICATOR = (EMPTY_INDICATOR_TYPE)it->value;
        status->MAX_MESSAGE_SIZE = it->size;
        status->WAITING_PROCESSES = bench_count_at(&it->takers);
    }
}

/* Semaphores. */

void CREATE_SEMAPHORE(SEMAPHORE_NAME_TYPE name, SEMAPHORE_VALUE_TYPE value,
                      SEMAPHORE_VALUE_TYPE limit, QUEUING_DISCIPLINE_TYPE discipline,
                      SEMAPHORE_ID_TYPE *id, RETURN_CODE_TYPE *code) {
    const struct bench_object made = {.value = value, .limit = limit, .takers = {discipline}};
    const bool is_in_range =
        value >= 0 && value <= limit && limit <= MAX_SEMAPHORE_VALUE && is_discipline(discipline);
    create(__func__, BENCH_SEMAPHORE, name, made, is_in_range, id, code);
}

void WAIT_SEMAPHORE(SEMAPHORE_ID_TYPE id, SYSTEM_TIME_TYPE time_out, RETURN_CODE_TYPE *code) {
    take(__func__, BENCH_SEMAPHORE, id, time_out, NULL, NULL, code);
}

void SIGNAL_SEMAPHORE(SEMAPHORE_ID_TYPE id, RETURN_CODE_TYPE *code) {
    struct bench_object *semaphore = find(__func__, BENCH_SEMAPHORE, id, code, code);
    if (semaphore != NULL && bench_needs(semaphore->value < semaphore->limit, NO_ACTION, code)) {
        semaphore->value += !serve_first(semaphore, NULL);
        bench_yield();
    }
}

void GET_SEMAPHORE_STATUS(SEMAPHORE_ID_TYPE id, SEMAPHORE_STATUS_TYPE *status,
                          RETURN_CODE_TYPE *code) {
    const struct bench_object *it = find(__func__, BENCH_SEMAPHORE, id, status, code);
    if (it != NULL) {
        status->CURRENT_VALUE = it->value;
        status->MAXIMUM_VALUE = it->limit;
        status->WAITING_PROCESSES = bench_count_at(&it->takers);
    }
}

/* Events. */

void CREATE_EVENT(EVENT_NAME_TYPE name, EVENT_ID_TYPE *id, RETURN_CODE_TYPE *code) {
    const struct bench_object made = {.value = DOWN};
    create(__func__, BENCH_EVENT, name, made, true, id, code);
}

void SET_EVENT(EVENT_ID_TYPE id, RETURN_CODE_TYPE *code) {
    struct bench_object *event = find(__func__, BENCH_EVENT, id, code, code);
    if (event != NULL) {
        event->value = UP;
        serve_all(event);
    }
}

void RESET_EVENT(EVENT_ID_TYPE id, RETURN_CODE_TYPE *code) {
    struct bench_object *event = find(__func__, BENCH_EVENT, id, code, code);
    if (event != NULL) {
        event->value = DOWN;
    }
}

void WAIT_EVENT(EVENT_ID_TYPE id, SYSTEM_TIME_TYPE time_out, RETURN_CODE_TYPE *code) {
    take(__func__, BENCH_EVENT, id, time_out, NULL, NULL, code);
}

void GET_EVENT_STATUS(EVENT_ID_TYPE id, EVENT_STATUS_TYPE *status, RETURN_CODE_TYPE *code) {
    const struct bench_object *it = find(__func__, BENCH_EVENT, id, status, code);
    if (it != NULL) {
        status->EVENT_STATE = (EVENT_STATE_TYPE)it->value;
        status->WAITING_PROCESSES = bench_count_at(&it->takers);
    }
}
