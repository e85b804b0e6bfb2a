/* The functions of apex_ports.h that c_calls needs, over a bare ring of messages under one mutex. They check the length
 * and the room alone: no handle, partition, port, mode or direction. */
#include "../c/apex_ports.h"

#include <pthread.h>
#include <string.h>

enum { SIZE = 1024, DEPTH = 64 };
enum { NO_ERROR, NO_ACTION, NOT_AVAILABLE, INVALID_PARAM, INVALID_CONFIG };

struct message {
    uint32_t length;
    uint8_t bytes[SIZE];
};

static pthread_mutex_t lock = PTHREAD_MUTEX_INITIALIZER;
static uint32_t first, waiting;
static struct message messages[DEPTH];

uint32_t apex_open_explained(struct apex_handle *handle, const uint8_t *text, size_t text_length, uint8_t *path,
                             size_t path_room, uint64_t *path_length, uint8_t *lines, size_t lines_room,
                             uint64_t *lines_length) {
    (void)text, (void)text_length, (void)path, (void)path_room, (void)path_length;
    (void)lines, (void)lines_room, (void)lines_length;
    handle->ports = messages;
    handle->is_open = true;
    return 0;
}

uint32_t apex_close(struct apex_handle *handle) {
    memset(handle, 0, sizeof *handle);
    return 0;
}

uint32_t apex_create_queuing_port(struct apex_handle *handle, uint32_t partition, uint64_t at, const uint8_t *name,
                                  size_t name_length, uint32_t size, uint32_t depth, uint32_t direction,
                                  uint32_t discipline, uint32_t *id) {
    (void)handle, (void)partition, (void)at, (void)name, (void)name_length;
    (void)size, (void)depth, (void)direction, (void)discipline;
    *id = 1;
    return NO_ERROR;
}

uint32_t apex_send_queuing_message(struct apex_handle *handle, uint32_t partition, uint64_t at, uint32_t id,
                                   const uint8_t *message, size_t message_length) {
    uint32_t answer = NO_ERROR;
    (void)handle, (void)partition, (void)at, (void)id;
    pthread_mutex_lock(&lock);
    if (message_length > SIZE) {
        answer = INVALID_CONFIG;
    } else if (waiting == DEPTH) {
        answer = NOT_AVAILABLE;
    } else {
        struct message *place = &messages[(first + waiting) % DEPTH];
        place->length = (uint32_t)message_length;
        memcpy(place->bytes, message, message_length);
        waiting++;
    }
    pthread_mutex_unlock(&lock);
    return answer;
}

uint32_t apex_receive_queuing_message(struct apex_handle *handle, uint32_t partition, uint64_t at, uint32_t id,
                                      uint8_t *buffer, size_t buffer_length, uint32_t *message_length) {
    uint32_t answer = NO_ERROR;
    (void)handle, (void)partition, (void)at, (void)id;
    pthread_mutex_lock(&lock);
    const struct message *place = &messages[first];
    if (waiting == 0) {
        answer = NOT_AVAILABLE;
    } else if (place->length > buffer_length) {
        answer = APEX_SHORT_BUFFER;
    } else {
        memcpy(buffer, place->bytes, place->length);
        *message_length = place->length;
        first = (first + 1) % DEPTH;
        waiting--;
    }
    pthread_mutex_unlock(&lock);
    return answer;
}

uint32_t apex_get_queuing_port_status(struct apex_handle *handle, uint32_t partition, uint64_t at, uint32_t id,
                                      struct apex_queuing_port_status *status) {
    (void)handle, (void)at, (void)id;
    *status = (struct apex_queuing_port_status){waiting, DEPTH, SIZE, partition};
    return NO_ERROR;
}

uint32_t apex_set_partition_mode(struct apex_handle *handle, uint32_t partition, uint64_t at, uint32_t mode) {
    (void)handle, (void)partition, (void)at, (void)mode;
    return NO_ERROR;
}
