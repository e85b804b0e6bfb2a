/* c_hostile CONFIG CALLS: random calls of apex_ports.h on handles that are open, closed or were never opened, with
 * wrong partitions, channels, identifiers, names and lengths. Whatever is refused has its own answer and changes
 * neither a count nor a place; whatever isn't adds one call to its partition. Prints how many calls were of each
 * kind. */
#include "../c/apex_ports.h"
#include "c_test.h"

enum { HANDLES = 4, PARTITIONS = 8, PORTS = 8, SERVED = 0, REFUSED = 1, DONE = 2, FILL = 0xa5 };

/* The kinds of ports, and numbers of the standard. */
enum { SAMPLING = 0, QUEUING = 1, IDLE = 0, NORMAL = 3, INVALID_PARAM = 3, INVALID_CONFIG = 4 };

static struct apex_handle handles[HANDLES];
static bool is_open[HANDLES];
static uint64_t calls[HANDLES][PARTITIONS];

/* What the calls of each partition made of it: whether it is in IDLE, and which ports of either kind are created, by
 * their identifiers. */
static struct {
    bool is_idle, has_port[2][PORTS];
} states[HANDLES][PARTITIONS];
static uint32_t partitions;
static uint8_t config[65536];
static size_t config_length;
static unsigned long kinds[3];

static uint32_t any_number(void) {
    static const uint32_t edges[] = {0, 1, 2, 3, 4, 31, 32, 33, 64, 1u << 31, UINT32_MAX};
    return any(3) == 0 ? edges[any(sizeof edges / sizeof *edges)] : (uint32_t)any(4);
}

static size_t any_length(void) {
    static const size_t edges[] = {0, 1, 2, 3, 4, 4, 1023, 1024, 1024, 1025, 70000};
    return edges[any(sizeof edges / sizeof *edges)];
}

/* A block of just the bytes that are asked for, one at least, so that the sanitizer sees each step beyond. */
static uint8_t *any_bytes(size_t length) {
    uint8_t *bytes = malloc(length > 0 ? length : 1);
    expect(bytes != NULL, "memory for a buffer");
    memset(bytes, FILL, length);
    return bytes;
}

static uint8_t *any_name(size_t *length) {
    static const char *const names[] = {"NAV_OUT", "NAV_IN",  "SPD_IN", "SPD_OUT", "PLAN_OUT",
                                        "SPEED_IN", "NO_PORT", "",       "A.B",     "caf\xc3\xa9",
                                        "ABCDEFGHIJKLMNOPQRSTUVWXYZ01234"};
    const char *name = names[any(sizeof names / sizeof *names)];
    *length = strlen(name);
    uint8_t *bytes = any_bytes(*length);
    memcpy(bytes, name, *length);
    return bytes;
}

static bool is_name(const uint8_t *bytes, size_t length) {
    for (size_t i = 0; i < length; i++) {
        bool is_letter = (bytes[i] | 32) >= 'a' && (bytes[i] | 32) <= 'z';
        if (!is_letter && !(bytes[i] >= '0' && bytes[i] <= '9') && bytes[i] != '_') {
            return false;
        }
    }
    return length >= 1 && length <= 30;
}

/* All that a call may be given, and all that it may write. */
struct given {
    uint32_t handle, partition, id, numbers[4];
    uint64_t at, refresh;
    uint8_t *name, *bytes;
    size_t name_length, length;
};

struct places {
    uint32_t number, validity;
    struct apex_sampling_port_status sampling;
    struct apex_queuing_port_status queuing;
};

static uint32_t make_call(unsigned service, const struct given *g, struct places *to) {
    struct apex_handle *h = &handles[g->handle];
    const uint32_t p = g->partition, *n = g->numbers;
    switch (service) {
    case 0:
        return apex_create_sampling_port(h, p, g->at, g->name, g->name_length, n[0], n[1], g->refresh, &to->number);
    case 1:
        return apex_create_queuing_port(h, p, g->at, g->name, g->name_length, n[0], n[1], n[2], n[3], &to->number);
    case 2:
        return apex_get_sampling_port_id(h, p, g->at, g->name, g->name_length, &to->number);
    case 3:
        return apex_get_queuing_port_id(h, p, g->at, g->name, g->name_length, &to->number);
    case 4:
        return apex_write_sampling_message(h, p, g->at, g->id, g->bytes, g->length);
    case 5:
        return apex_send_queuing_message(h, p, g->at, g->id, g->bytes, g->length);
    case 6:
        return apex_read_sampling_message(h, p, g->at, g->id, g->bytes, g->length, &to->number, &to->validity);
    case 7:
        return apex_receive_queuing_message(h, p, g->at, g->id, g->bytes, g->length, &to->number);
    case 8:
        return apex_get_sampling_port_status(h, p, g->at, g->id, &to->sampling);
    case 9:
        return apex_get_queuing_port_status(h, p, g->at, g->id, &to->queuing);
    case 10:
        return apex_clear_queuing_port(h, p, g->at, g->id);
    default:
        return apex_set_partition_mode(h, p, g->at, n[0]);
    }
}

/* The most bytes that a message at the port may have; 0 if there is no such port. */
static size_t room_at(const struct given *g) {
    struct apex_configured_port port;
    struct apex_configured_channel channel = {0, 0, false};
    if (apex_port_configuration(&handles[g->handle], g->partition, g->id, &port) == 0) {
        apex_channel_configuration(&handles[g->handle], port.channel, &channel);
    }
    return channel.size;
}

/* What the call is refused with, or 0. */
static uint32_t refusal(unsigned service, const struct given *g) {
    if (service < 4 && !is_name(g->name, g->name_length)) {
        return APEX_NO_NAME;
    }
    if (!is_open[g->handle] || g->partition >= partitions) {
        return !is_open[g->handle] ? APEX_NOT_OPEN : APEX_NO_PARTITION;
    }
    return (service == 6 || service == 7) && g->length < room_at(g) ? APEX_SHORT_BUFFER : 0;
}

/* The right parameters of a port of the examples' configurations, so that some calls do their work. */
static void give_right_numbers(struct given *g) {
    const bool is_out = g->name_length > 4 && memcmp(g->name + g->name_length - 4, "_OUT", 4) == 0;
    const uint32_t direction = is_out ? 0 : 1;
    g->numbers[0] = 4;
    g->numbers[1] = 2;
    g->numbers[2] = direction;
    g->numbers[3] = 0;
    if (memcmp(g->name, "SP", g->name_length < 2 ? g->name_length : 2) == 0) {
        g->numbers[1] = direction;
    }
    g->refresh = 50;
}

static struct given any_given(void) {
    struct given g = {.handle = (uint32_t)any(HANDLES), .partition = any_number(), .id = any_number()};
    g.at = any(5) == 0 ? UINT64_MAX : any(1000);
    g.name = any_name(&g.name_length);
    g.length = any_length();
    g.bytes = any_bytes(g.length);
    if (any(4) == 0) {
        for (int i = 0; i < 4; i++) {
            g.numbers[i] = any_number();
        }
        g.refresh = any(100);
    } else {
        give_right_numbers(&g);
        g.partition = (uint32_t)any(3);
        g.id = 1 + (uint32_t)any(2);
        g.handle = 0;
    }
    return g;
}

/* Whether the counts of all partitions are those of the calls that were served. */
static bool are_counted(uint32_t handle) {
    for (uint32_t p = 0; p < partitions; p++) {
        uint64_t count = 7;
        uint32_t answer = apex_call_count(&handles[handle], p, &count);
        if (is_open[handle] ? answer != 0 || count != calls[handle][p] : answer != APEX_NOT_OPEN || count != 7) {
            return false;
        }
    }
    return true;
}

static bool are_filled(const uint8_t *bytes, size_t from, size_t length) {
    for (size_t i = from; i < length; i++) {
        if (bytes[i] != FILL) {
            return false;
        }
    }
    return true;
}

/* The answer of the reply table to a message that is longer than any channel's. */
static uint32_t answer_to_longer(unsigned service, const struct given *g) {
    const bool *has_port = states[g->handle][g->partition].has_port[service == 4 ? SAMPLING : QUEUING];
    if (states[g->handle][g->partition].is_idle) {
        return APEX_NOT_MADE;
    }
    return g->id < PORTS && has_port[g->id] ? INVALID_CONFIG : INVALID_PARAM;
}

/* An accepted creation or mode. */
static void follow(unsigned service, const struct given *g, uint32_t id) {
    if (service < 2) {
        expect(id > 0 && id < PORTS, "the configuration has few ports");
        states[g->handle][g->partition].has_port[service == 0 ? SAMPLING : QUEUING][id] = true;
    } else if (service == 11 && g->numbers[0] < NORMAL) {
        memset(&states[g->handle][g->partition], 0, sizeof states[0][0]);
        states[g->handle][g->partition].is_idle = g->numbers[0] == IDLE;
    }
}

static void call_service(void) {
    const unsigned service = any(100) == 0 ? 11 : (unsigned)any(11);
    struct given g = any_given();
    if (service == 11 && any(9) != 0) {
        g.numbers[0] = 1 + (uint32_t)any(3);
    }
    struct places before, after;
    memset(&before, FILL, sizeof before);
    memcpy(&after, &before, sizeof after);
    const uint32_t refused = refusal(service, &g);
    const uint32_t answer = make_call(service, &g, &after);
    if (refused == 0) {
        calls[g.handle][g.partition]++;
        expect(answer <= APEX_NOT_MADE && answer != 6, "a call that is served answers a return code or 'not made'");
        expect((service != 4 && service != 5) || g.length <= APEX_MESSAGE_LIMIT ||
                   answer == answer_to_longer(service, &g),
               "a message that is longer than any channel's has the answer of the reply table");
        if (answer == 0) {
            follow(service, &g, after.number);
        }
    } else {
        expect(answer == refused, "a call that is refused has its own answer");
    }
    kinds[refused == 0 ? SERVED : REFUSED]++;
    kinds[DONE] += answer == 0;
    if (answer != 0) {
        expect(memcmp(&before, &after, sizeof after) == 0, "a place stays as it was where the answer isn't 0");
    }
    const bool is_message = answer == 0 && (service == 6 || service == 7);
    expect(!is_message || after.number <= APEX_MESSAGE_LIMIT, "a message's length is within the limit");
    expect(are_filled(g.bytes, is_message ? after.number : 0, g.length), "no byte is written behind the message");
    expect(are_counted(g.handle), "the count of calls grows by the calls that are served alone");
    free(g.name);
    free(g.bytes);
}

static void call_reader(void) {
    const uint32_t handle = (uint32_t)any(HANDLES), channel = any_number();
    const size_t length = any_length();
    uint8_t *buffer = any_bytes(length);
    uint64_t count = 7, at = 7;
    uint32_t number = 7;
    uint32_t (*const counts[])(struct apex_handle *, uint32_t, uint64_t *) = {
        apex_accepted_count, apex_received_count, apex_cleared_count, apex_waiting_count};
    uint32_t answer = counts[any(4)](&handles[handle], channel, &count);
    expect(answer == (is_open[handle] ? answer : APEX_NOT_OPEN), "a count of a handle that isn't open");
    expect(answer == 0 || answer == APEX_NO_CHANNEL || !is_open[handle], "a reader's answer");
    expect(answer == 0 || count == 7, "a count stays as it was where the answer isn't 0");
    answer = apex_last_sample(&handles[handle], channel, buffer, length, &number, &at);
    expect((answer == APEX_SHORT_BUFFER) == (length < APEX_MESSAGE_LIMIT), "a buffer for a sample");
    expect(answer == 0 || (number == 7 && at == 7), "places stay as they were without a sample");
    expect(are_filled(buffer, answer == 0 ? number : 0, length), "no byte is written behind the sample");
    number = 7;
    answer = apex_partition_mode(&handles[handle], channel, &number);
    expect(answer == (!is_open[handle] ? APEX_NOT_OPEN : channel < partitions ? 0 : APEX_NO_PARTITION), "a mode");
    expect(answer == 0 ? number <= 3 : number == 7, "a mode's place");
    expect(are_counted(handle), "readers add nothing");
    kinds[answer == 0 ? SERVED : REFUSED]++;
    free(buffer);
}

/* Creates the ports of the examples' configurations. */
static void create_ports(uint32_t handle) {
    static const char *const names[] = {"NAV_OUT", "NAV_IN", "SPD_OUT", "SPD_IN"};
    for (uint32_t p = 0; p < partitions; p++) {
        for (uint32_t i = 0; i < 4; i++) {
            uint32_t id;
            const uint8_t *name = (const uint8_t *)names[i];
            const struct given g = {.handle = handle, .partition = p};
            if (apex_create_queuing_port(&handles[handle], p, 0, name, strlen(names[i]), 4, 2, i % 2, 0, &id) == 0) {
                follow(1, &g, id);
            }
            if (apex_create_sampling_port(&handles[handle], p, 0, name, strlen(names[i]), 4, i % 2, 50, &id) == 0) {
                follow(0, &g, id);
            }
            calls[handle][p] += 2;
        }
    }
}

/* Opens with the configuration or a beginning of it, or closes. The last handle is left alone: it was never opened. */
static void open_or_close(void) {
    const uint32_t handle = (uint32_t)any(HANDLES - 1);
    const bool was_open = is_open[handle];
    if (any(8) == 0) {
        expect(apex_close(&handles[handle]) == (was_open ? 0 : APEX_NOT_OPEN), "closing");
        is_open[handle] = false;
    } else {
        const size_t length = any(3) == 0 ? any(config_length) : config_length;
        uint8_t *text = any_bytes(length);
        memcpy(text, config, length);
        const uint32_t answer = apex_open(&handles[handle], text, length);
        expect(!was_open || answer == APEX_ALREADY_OPEN, "opening twice");
        expect(was_open || answer <= 10, "opening");
        expect(length < config_length || was_open || answer == 0, "opening with the configuration");
        if (answer == 0) {
            /* (a beginning of the text may be a configuration, of fewer partitions) */
            is_open[handle] = length == config_length;
            memset(calls[handle], 0, sizeof calls[handle]);
            memset(states[handle], 0, sizeof states[handle]);
            expect(is_open[handle] ? are_counted(handle) : apex_close(&handles[handle]) == 0, "what was opened");
        }
        if (answer == 0 && is_open[handle]) {
            create_ports(handle);
        }
        kinds[answer == 0 ? SERVED : REFUSED]++;
        free(text);
    }
}

int main(int count, char **words) {
    expect(count == 3, "usage: c_hostile CONFIG CALLS");
    config_length = read_config(words[1], config, sizeof config);
    expect(apex_open(&handles[0], config, config_length) == 0, "the configuration is opened");
    is_open[0] = true;
    uint32_t mode;
    while (apex_partition_mode(&handles[0], partitions, &mode) == 0) {
        partitions++;
    }
    expect(partitions <= PARTITIONS, "the configuration is small");
    create_ports(0);
    for (long i = atol(words[2]); i > 0; i--) {
        const uint64_t kind = any(40);
        kind == 0 ? open_or_close() : kind < 4 ? call_reader() : call_service();
    }
    for (uint32_t handle = 0; handle < HANDLES; handle++) {
        expect(apex_close(&handles[handle]) == (is_open[handle] ? 0 : APEX_NOT_OPEN), "closing at the end");
    }
    printf("%lu served, %lu of them with NO_ERROR, %lu refused\n", kinds[SERVED], kinds[DONE], kinds[REFUSED]);
    return 0;
}
