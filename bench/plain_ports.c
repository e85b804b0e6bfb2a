/* The functions of apex_ports.h that c_calls needs, in plain C for its own module: two partitions and one queuing
 * channel. The checks of each service, and their order, are those of docs/STANDARD.md. */
#include "../c/apex_ports.h"

#include <string.h>

enum { PARTITIONS = 2, PORTS = 1, NAME_LIMIT = 30, SIZE = 1024, DEPTH = 64 };
enum { NO_ERROR, NO_ACTION, NOT_AVAILABLE, INVALID_PARAM, INVALID_CONFIG, INVALID_MODE };
enum { IDLE, COLD_START, WARM_START, NORMAL };
enum { SOURCE, DESTINATION };

struct message {
    uint32_t length;
    uint8_t bytes[APEX_MESSAGE_LIMIT];
};

struct channel {
    uint32_t size, depth, first, waiting;
    uint64_t accepted, received, cleared;
    struct message messages[DEPTH];
};

struct port {
    const char *name;
    bool is_queuing, is_created;
    uint32_t direction;
    struct channel *channel;
};

struct partition {
    uint32_t mode, ports;
    uint64_t calls;
    struct port port[PORTS];
};

static struct module {
    uint32_t partitions;
    struct partition partition[PARTITIONS];
    struct channel channel;
} module;

uint32_t apex_open(struct apex_handle *handle, const uint8_t *text, size_t text_length) {
    (void)text, (void)text_length;
    if (handle->is_open) {
        return APEX_ALREADY_OPEN;
    }
    memset(&module, 0, sizeof module);
    module.partitions = PARTITIONS;
    module.channel.size = SIZE;
    module.channel.depth = DEPTH;
    for (uint32_t p = 0; p < PARTITIONS; p++) {
        struct partition *partition = &module.partition[p];
        partition->mode = COLD_START;
        partition->ports = PORTS;
        partition->port[0] = (struct port){p == 0 ? "NAV_OUT" : "NAV_IN", true, false, p, &module.channel};
    }
    handle->ports = &module;
    handle->is_open = true;
    return 0;
}

uint32_t apex_close(struct apex_handle *handle) {
    if (!handle->is_open) {
        return APEX_NOT_OPEN;
    }
    memset(handle, 0, sizeof *handle);
    return 0;
}

/* (the one configuration of c_calls is not refused) */
uint32_t apex_open_explained(struct apex_handle *handle, const uint8_t *text, size_t text_length, uint8_t *path,
                             size_t path_room, uint64_t *path_length, uint8_t *lines, size_t lines_room,
                             uint64_t *lines_length) {
    (void)path, (void)path_room, (void)path_length, (void)lines, (void)lines_room, (void)lines_length;
    return apex_open(handle, text, text_length);
}

static void count(uint64_t *number) { *number += *number < UINT64_MAX; }

/* Begins a call: the partition that makes it, or none if the answer is refused already. */
static struct partition *begin(struct apex_handle *handle, uint32_t number, uint32_t *answer) {
    if (!handle->is_open) {
        *answer = APEX_NOT_OPEN;
        return NULL;
    }
    struct module *ports = handle->ports;
    if (number >= ports->partitions) {
        *answer = APEX_NO_PARTITION;
        return NULL;
    }
    struct partition *partition = &ports->partition[number];
    count(&partition->calls);
    if (partition->mode == IDLE) {
        *answer = APEX_NOT_MADE;
        return NULL;
    }
    return partition;
}

/* The partition's queuing port of the identifier, or none. */
static struct port *find(struct partition *partition, uint32_t id) {
    if (id == 0 || id > partition->ports) {
        return NULL;
    }
    struct port *port = &partition->port[id - 1];
    return port->is_queuing && port->is_created ? port : NULL;
}

uint32_t apex_create_queuing_port(struct apex_handle *handle, uint32_t partition, uint64_t at, const uint8_t *name,
                                  size_t name_length, uint32_t size, uint32_t depth, uint32_t direction,
                                  uint32_t discipline, uint32_t *id) {
    uint32_t answer;
    (void)at;
    if (name_length == 0 || name_length > NAME_LIMIT) {
        return APEX_NO_NAME;
    }
    struct partition *caller = begin(handle, partition, &answer);
    if (caller == NULL) {
        return answer;
    }
    for (uint32_t i = 0; i < caller->ports; i++) {
        struct port *port = &caller->port[i];
        if (strlen(port->name) != name_length || memcmp(port->name, name, name_length) != 0 || !port->is_queuing) {
            continue;
        }
        if (port->is_created) {
            return NO_ACTION;
        }
        if (size != port->channel->size || depth != port->channel->depth || direction != port->direction ||
            discipline > 1) {
            return INVALID_CONFIG;
        }
        if (caller->mode == NORMAL) {
            return INVALID_MODE;
        }
        port->is_created = true;
        *id = i + 1;
        return NO_ERROR;
    }
    return INVALID_CONFIG;
}

uint32_t apex_send_queuing_message(struct apex_handle *handle, uint32_t partition, uint64_t at, uint32_t id,
                                   const uint8_t *message, size_t message_length) {
    uint32_t answer;
    (void)at;
    struct partition *caller = begin(handle, partition, &answer);
    if (caller == NULL) {
        return answer;
    }
    struct port *port = find(caller, id);
    if (port == NULL || message_length == 0) {
        return INVALID_PARAM;
    }
    struct channel *channel = port->channel;
    if (message_length > channel->size) {
        return INVALID_CONFIG;
    }
    if (port->direction != SOURCE) {
        return INVALID_MODE;
    }
    if (channel->waiting == channel->depth) {
        return NOT_AVAILABLE;
    }
    struct message *place = &channel->messages[(channel->first + channel->waiting) % DEPTH];
    place->length = (uint32_t)message_length;
    memcpy(place->bytes, message, message_length);
    channel->waiting++;
    count(&channel->accepted);
    return NO_ERROR;
}

uint32_t apex_receive_queuing_message(struct apex_handle *handle, uint32_t partition, uint64_t at, uint32_t id,
                                      uint8_t *buffer, size_t buffer_length, uint32_t *message_length) {
    uint32_t answer;
    (void)at;
    if (buffer_length < APEX_MESSAGE_LIMIT) {
        return APEX_SHORT_BUFFER;
    }
    struct partition *caller = begin(handle, partition, &answer);
    if (caller == NULL) {
        return answer;
    }
    struct port *port = find(caller, id);
    if (port == NULL) {
        return INVALID_PARAM;
    }
    struct channel *channel = port->channel;
    if (port->direction != DESTINATION) {
        return INVALID_MODE;
    }
    if (channel->waiting == 0) {
        return NOT_AVAILABLE;
    }
    const struct message *place = &channel->messages[channel->first];
    memcpy(buffer, place->bytes, place->length);
    *message_length = place->length;
    channel->first = (channel->first + 1) % DEPTH;
    channel->waiting--;
    count(&channel->received);
    return NO_ERROR;
}

uint32_t apex_get_queuing_port_status(struct apex_handle *handle, uint32_t partition, uint64_t at, uint32_t id,
                                      struct apex_queuing_port_status *status) {
    uint32_t answer;
    (void)at;
    struct partition *caller = begin(handle, partition, &answer);
    if (caller == NULL) {
        return answer;
    }
    const struct port *port = find(caller, id);
    if (port == NULL) {
        return INVALID_PARAM;
    }
    const struct channel *channel = port->channel;
    *status = (struct apex_queuing_port_status){channel->waiting, channel->depth, channel->size, port->direction};
    return NO_ERROR;
}

uint32_t apex_set_partition_mode(struct apex_handle *handle, uint32_t partition, uint64_t at, uint32_t mode) {
    uint32_t answer;
    (void)at;
    struct partition *caller = begin(handle, partition, &answer);
    if (caller == NULL) {
        return answer;
    }
    if (mode > NORMAL) {
        return INVALID_PARAM;
    }
    if (mode == NORMAL && caller->mode == NORMAL) {
        return NO_ACTION;
    }
    if (mode == WARM_START && caller->mode == COLD_START) {
        return INVALID_MODE;
    }
    for (uint32_t i = 0; i < caller->ports && (mode == COLD_START || mode == WARM_START); i++) {
        caller->port[i].is_created = false;
    }
    caller->mode = mode;
    return NO_ERROR;
}
