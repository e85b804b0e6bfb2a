/* c_readers CONFIG: prints what the readers of apex_ports.h say of a configuration, a line for each partition, port
 * and channel. Then each of them is asked with handles that are open, closed or were never opened, and with numbers,
 * identifiers, names and buffers that are right and wrong: each answer by the rules of docs/C.md, and each place left
 * as it was if the answer isn't 0. */
#include "../c/apex_ports.h"
#include "c_test.h"

enum { FILL = 0xa5, HANDLES = 3, OPEN = 0, ASKED = 50000 };

static struct apex_handle handles[HANDLES];
static uint8_t config[65536];
static uint32_t partitions, channels;

/* What a reader is asked. */
struct asked {
    struct apex_handle *handle;
    uint32_t partition, channel, id;
    uint64_t index;
    const uint8_t *name;
    size_t name_length, length;
    uint8_t *buffer;
};

/* The places of a reader's answer. */
struct places {
    uint32_t number;
    struct apex_configured_port port;
    struct apex_configured_channel channel;
};

static uint32_t partition_count(const struct asked *a, struct places *to) {
    return apex_partition_count(a->handle, &to->number);
}
static uint32_t channel_count(const struct asked *a, struct places *to) {
    return apex_channel_count(a->handle, &to->number);
}
static uint32_t port_count(const struct asked *a, struct places *to) {
    return apex_port_count(a->handle, a->partition, &to->number);
}
static uint32_t port_configuration(const struct asked *a, struct places *to) {
    return apex_port_configuration(a->handle, a->partition, a->id, &to->port);
}
static uint32_t channel_configuration(const struct asked *a, struct places *to) {
    return apex_channel_configuration(a->handle, a->channel, &to->channel);
}
static uint32_t partition_name(const struct asked *a, struct places *to) {
    return apex_partition_name(a->handle, a->partition, a->buffer, a->length, &to->number);
}
static uint32_t port_name(const struct asked *a, struct places *to) {
    return apex_port_name(a->handle, a->partition, a->id, a->buffer, a->length, &to->number);
}
static uint32_t channel_name(const struct asked *a, struct places *to) {
    return apex_channel_name(a->handle, a->channel, a->buffer, a->length, &to->number);
}
static uint32_t find_partition(const struct asked *a, struct places *to) {
    return apex_find_partition(a->handle, a->name, a->name_length, &to->number);
}
static uint32_t find_port(const struct asked *a, struct places *to) {
    return apex_find_port(a->handle, a->partition, a->name, a->name_length, &to->number);
}
static uint32_t find_channel(const struct asked *a, struct places *to) {
    return apex_find_channel(a->handle, a->name, a->name_length, &to->number);
}
static uint32_t waiting_message(const struct asked *a, struct places *to) {
    return apex_waiting_message(a->handle, a->channel, a->index, a->buffer, a->length, &to->number);
}

typedef uint32_t ask(const struct asked *a, struct places *to);

/* Each reader, with what it takes: the most bytes that it puts into a buffer, a partition, a channel, an identifier;
 * of those that take a name, the reader that gives the name back; and what is answered where none of these is at fault
 * and nothing is found. */
static const struct reader {
    const char *word;
    ask *ask;
    size_t limit;
    bool takes_partition, takes_channel, takes_id;
    ask *name_of;
    uint32_t not_found;
} readers[] = {
    {"partition_count", partition_count, 0, false, false, false, NULL, 0},
    {"channel_count", channel_count, 0, false, false, false, NULL, 0},
    {"port_count", port_count, 0, true, false, false, NULL, 0},
    {"port_configuration", port_configuration, 0, true, false, true, NULL, 0},
    {"channel_configuration", channel_configuration, 0, false, true, false, NULL, 0},
    {"partition_name", partition_name, APEX_NAME_LIMIT, true, false, false, NULL, 0},
    {"port_name", port_name, APEX_NAME_LIMIT, true, false, true, NULL, 0},
    {"channel_name", channel_name, APEX_NAME_LIMIT, false, true, false, NULL, 0},
    {"find_partition", find_partition, 0, false, false, false, partition_name, APEX_UNKNOWN_NAME},
    {"find_port", find_port, 0, true, false, false, port_name, APEX_UNKNOWN_NAME},
    {"find_channel", find_channel, 0, false, false, false, channel_name, APEX_UNKNOWN_NAME},
    {"waiting_message", waiting_message, APEX_MESSAGE_LIMIT, false, true, false, NULL, APEX_NO_MESSAGE},
};

static bool is_name(const uint8_t *bytes, size_t length) {
    for (size_t i = 0; i < length; i++) {
        const bool is_letter = (bytes[i] | 32) >= 'a' && (bytes[i] | 32) <= 'z';
        if (!is_letter && !(bytes[i] >= '0' && bytes[i] <= '9') && bytes[i] != '_') {
            return false;
        }
    }
    return length >= 1 && length <= APEX_NAME_LIMIT;
}

static uint32_t ports_of(uint32_t partition) {
    uint32_t count = 0;
    expect(apex_port_count(&handles[OPEN], partition, &count) == 0, "a partition's ports");
    return count;
}

/* The first rule of docs/C.md by which the reader has to refuse, or 0. */
static uint32_t refusal(const struct reader *reader, const struct asked *a) {
    if (a->length < reader->limit) {
        return APEX_SHORT_BUFFER;
    }
    if (reader->name_of != NULL && !is_name(a->name, a->name_length)) {
        return APEX_NO_NAME;
    }
    if (a->handle != &handles[OPEN]) {
        return APEX_NOT_OPEN;
    }
    if (reader->takes_partition && a->partition >= partitions) {
        return APEX_NO_PARTITION;
    }
    if (reader->takes_channel && a->channel >= channels) {
        return APEX_NO_CHANNEL;
    }
    return reader->takes_id && (a->id == 0 || a->id > ports_of(a->partition)) ? APEX_NO_PORT : 0;
}

/* What was found by a name has that name. */
static void check_found(const struct reader *reader, const struct asked *a, uint32_t number) {
    uint8_t name[APEX_NAME_LIMIT];
    struct places to;
    struct asked back = {a->handle, reader->takes_partition ? a->partition : number, number, number, 0, NULL, 0,
                         sizeof name, name};
    expect(reader->name_of(&back, &to) == 0, "the name of what is found");
    expect(to.number == a->name_length && memcmp(name, a->name, to.number) == 0, "what is found has the name");
}

/* Asks, and sees that the answer is the one of the rules, and that places and buffer stay if it isn't 0. */
static bool check(const struct reader *reader, const struct asked *a) {
    struct places before, after;
    memset(&before, FILL, sizeof before);
    memcpy(&after, &before, sizeof after);
    memset(a->buffer, FILL, a->length);
    const uint32_t refused = refusal(reader, a), answer = reader->ask(a, &after);
    expect(answer == refused || (refused == 0 && answer == reader->not_found), reader->word);
    const size_t written = answer == 0 && reader->limit > 0 ? after.number : 0;
    expect(written <= reader->limit, "the length of what is in the buffer");
    for (size_t i = written; i < a->length; i++) {
        expect(a->buffer[i] == FILL, "no byte is written after the answer");
    }
    expect(answer == 0 || memcmp(&before, &after, sizeof after) == 0, "places are unchanged if there is no answer");
    if (answer == 0 && reader->name_of != NULL) {
        check_found(reader, a, after.number);
    }
    return answer == 0;
}

/* A block of just the bytes that are asked for, one at least, so that the sanitizer sees each step beyond. */
static uint8_t *memory(size_t length) {
    uint8_t *bytes = malloc(length > 0 ? length : 1);
    expect(bytes != NULL, "memory");
    return bytes;
}

/* Each reader with any of these. */
static void ask_all(void) {
    static const char *const names[] = {"", "A", "AB", "OUT", "NAV", "nav", "A.B", "caf\xc3\xa9", "OUT_2", "OUT_",
                                        "NAV_23456789012345678901234567", "NAV_234567890123456789012345678"};
    static const uint32_t numbers[] = {0, 1, 2, 3, 4, 5, 31, 32, 1u << 31, UINT32_MAX};
    static const size_t lengths[] = {0, 1, 29, 30, 31, 1023, 1024, 1025};
    for (size_t r = 0; r < sizeof readers / sizeof *readers; r++) {
        unsigned long answers = 0;
        for (size_t i = 0; i < ASKED; i++) {
            const uint64_t pick = any(1u << 30);
            const char *name = names[pick % 12];
            const uint32_t number = numbers[pick / 12 % 10], other = numbers[pick / 120 % 10];
            const size_t length = lengths[pick / 1200 % 8];
            struct apex_handle *const handle = &handles[pick / 9600 % HANDLES];
            uint8_t *const text = memory(strlen(name)), *const buffer = memory(length);
            memcpy(text, name, strlen(name));
            answers += check(&readers[r], &(struct asked){handle, number, number, other, other, text, strlen(name), length,
                                                       buffer});
            free(text);
            free(buffer);
        }
        expect(answers > 0 && answers < ASKED, "some of the questions have an answer");
    }
}

/* Prints the name that a reader gives, and gives its length. */
static uint32_t print_name(ask *ask, const struct asked *a) {
    struct places to;
    expect(ask(a, &to) == 0, "a name");
    printf("%.*s", (int)to.number, (const char *)a->buffer);
    return to.number;
}

static const char *kind_word(bool is_queuing) { return is_queuing ? "queuing" : "sampling"; }

static void print_ports(struct apex_handle *handle, uint32_t partition) {
    uint8_t name[APEX_NAME_LIMIT];
    for (uint32_t id = 1; id <= ports_of(partition); id++) {
        struct apex_configured_port port;
        uint32_t found = 0;
        printf("port %u ", id);
        const uint32_t length = print_name(port_name, &(struct asked){handle, partition, 0, id, 0, NULL, 0, sizeof name,
                                                                      name});
        expect(apex_find_port(handle, partition, name, length, &found) == 0 && found == id, "a port by its name");
        expect(apex_port_configuration(handle, partition, id, &port) == 0, "a port");
        printf(" %s %s channel %u refresh %llu\n", kind_word(port.is_queuing),
               port.direction == 0 ? "SOURCE" : "DESTINATION", port.channel, (unsigned long long)port.refresh);
    }
}

static void print_all(struct apex_handle *handle) {
    uint8_t name[APEX_NAME_LIMIT];
    uint32_t found = 0;
    printf("%u partitions, %u channels\n", partitions, channels);
    for (uint32_t p = 0; p < partitions; p++) {
        printf("partition %u ", p);
        const uint32_t length = print_name(partition_name, &(struct asked){handle, p, 0, 0, 0, NULL, 0, sizeof name,
                                                                           name});
        expect(apex_find_partition(handle, name, length, &found) == 0 && found == p, "a partition by its name");
        printf(", %u ports\n", ports_of(p));
        print_ports(handle, p);
    }
    for (uint32_t c = 0; c < channels; c++) {
        struct apex_configured_channel channel;
        printf("channel %u ", c);
        const uint32_t length = print_name(channel_name, &(struct asked){handle, 0, c, 0, 0, NULL, 0, sizeof name,
                                                                         name});
        expect(apex_find_channel(handle, name, length, &found) == 0 && found == c, "a channel by its name");
        expect(apex_channel_configuration(handle, c, &channel) == 0, "a channel");
        printf(" %s size %u depth %u\n", kind_word(channel.is_queuing), channel.size, channel.depth);
    }
}

/* The messages that wait on channel NAV of c_readers.toml are those that are wanted, and no more. */
static void check_waiting(struct apex_handle *handle, const size_t *lengths, size_t count) {
    uint8_t buffer[APEX_MESSAGE_LIMIT];
    for (uint64_t i = 0; i < count + 2; i++) {
        uint32_t length = 7;
        const uint32_t answer = apex_waiting_message(handle, 2, i, buffer, sizeof buffer, &length);
        expect(answer == (i < count ? 0 : APEX_NO_MESSAGE), "a waiting message");
        expect(i >= count ? length == 7 : length == lengths[i], "the length of a waiting message");
        for (uint32_t b = 0; i < count && b < length; b++) {
            expect(buffer[b] == (uint8_t)length, "the bytes of a waiting message");
        }
    }
}

/* Messages of three lengths, each byte of which is the length's last, wait in their order until they are received. */
static void send_and_receive(struct apex_handle *handle) {
    static const size_t lengths[] = {1024, 1, 3};
    uint8_t bytes[APEX_MESSAGE_LIMIT];
    uint32_t out, in, length;
    expect(apex_create_queuing_port(handle, 0, 0, (const uint8_t *)"OUT", 3, 1024, 3, 0, 0, &out) == 0, "the source");
    expect(apex_create_queuing_port(handle, 2, 0, (const uint8_t *)"QRSTUVWXYZ_qrstuvwxyz_98765432", 30, 1024, 3, 1, 0,
                                    &in) == 0, "the destination");
    for (size_t i = 0; i < 3; i++) {
        memset(bytes, (int)(uint8_t)lengths[i], lengths[i]);
        check_waiting(handle, lengths, i);
        expect(apex_send_queuing_message(handle, 0, 0, out, bytes, lengths[i]) == 0, "a message is sent");
    }
    check_waiting(handle, lengths, 3);
    ask_all();
    for (size_t i = 1; i <= 3; i++) {
        expect(apex_receive_queuing_message(handle, 2, 0, in, bytes, sizeof bytes, &length) == 0, "a message comes");
        check_waiting(handle, lengths + i, 3 - i);
    }
}

int main(int count, char **words) {
    expect(count == 2, "usage: c_readers CONFIG");
    const size_t length = read_config(words[1], config, sizeof config);
    expect(apex_open(&handles[1], config, length) == 0 && apex_close(&handles[1]) == 0, "a handle that was open");
    expect(apex_open(&handles[OPEN], config, length) == 0, "the configuration is opened");
    expect(apex_partition_count(&handles[OPEN], &partitions) == 0, "the count of partitions");
    expect(apex_channel_count(&handles[OPEN], &channels) == 0, "the count of channels");
    print_all(&handles[OPEN]);
    send_and_receive(&handles[OPEN]);
    expect(apex_close(&handles[OPEN]) == 0, "closing");
    return 0;
}
