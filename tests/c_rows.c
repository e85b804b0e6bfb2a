/* c_rows CONFIG CALLS: asks of random calls which row they get and what its words are, makes them by their exports, and
 * asks again if they were refused. The row has to be one of the answer's return code, and to be the same afterwards;
 * asking changes neither a count nor a place that it has nothing for. A judge is given each call with its reply, and at
 * times with another. Prints how many rows there were.
 * c_rows CONFIG: prints the answer, the path of the fault's first place, and the lines of a configuration. */
#include "../c/apex_ports.h"
#include "c_test.h"

enum { ROWS = 31, SERVICES = 12, PARTITIONS = 3, WORDS = 256, FILL = 0xa5, NAMES = 6 };

/* What a call of each row answers. */
static const uint32_t codes[ROWS] = {7, 4, 1, 4, 4, 4, 4, 4, 5, 4, 3, 3, 4, 5, 5, 2, 2, 1, 3, 1, 5};

static struct apex_handle module;
static struct apex_judge judged;
static uint8_t config[65536];
static size_t config_length;
static unsigned long rows[ROWS], departures, longer;

/* The message of the last reply, and the places of the last departure. */
static uint8_t received[APEX_MESSAGE_LIMIT], standard[APEX_MESSAGE_LIMIT], said[WORDS];
static uint32_t received_length;
static struct apex_departure departure;

/* A call with all that it is asked with. */
struct asked {
    struct apex_call call;
    uint32_t partition;
    uint64_t at;
    uint8_t bytes[APEX_MESSAGE_LIMIT + 1];
    size_t length;
};

static bool takes_name(uint32_t service) { return service == 0 || service == 3 || service == 5 || service == 8; }

static void give_bytes(struct asked *it) {
    static const char *const names[NAMES] = {"NAV_OUT", "NAV_IN", "SPD_OUT", "SPD_IN", "NO_PORT", "A.B"};
    static const size_t lengths[] = {0, 1, 4, 4, 4, 5, APEX_MESSAGE_LIMIT, APEX_MESSAGE_LIMIT + 1};
    memset(it->bytes, 1, sizeof it->bytes);
    it->length = lengths[any(sizeof lengths / sizeof *lengths)];
    if (takes_name(it->call.service)) {
        const char *name = names[any(NAMES)];
        it->length = strlen(name);
        memcpy(it->bytes, name, it->length);
    }
}

/* Opens the module and its judge, at the first call; or both stay closed. */
static void begin(void) {
    apex_close(&module);
    apex_judge_close(&judged);
    if (any(10) != 0) {
        expect(apex_open(&module, config, config_length) == 0, "the configuration is opened");
        expect(apex_judge_open(&judged, config, config_length) == 0, "and judged");
        expect(apex_judge_open(&judged, config, config_length) == APEX_ALREADY_OPEN, "and no second time");
    }
}

/* The right number, mostly. */
static uint32_t about(uint32_t right) { return any(6) == 0 ? right + 1 : right; }

static void give(struct asked *it) {
    memset(it, 0, sizeof *it);
    it->partition = (uint32_t)any(PARTITIONS + (any(20) == 0));
    it->at = any(100);
    it->call.service = (uint32_t)any(SERVICES + (any(20) == 0));
    if (it->call.service == 11 && any(3) != 0) {
        it->call.service = 6;
    }
    give_bytes(it);
    it->call.refresh = about(50);
    it->call.id = (uint32_t)any(4);
    it->call.size = about(4);
    it->call.depth = about(2);
    it->call.direction = (uint32_t)any(2);
    it->call.discipline = (uint32_t)any(3);
    it->call.mode = any(50) == 0 ? 0 : 1 + (uint32_t)any(4);
}

/* Makes the call, and gives its reply, whose message is in `received`. */
static struct apex_reply make(const struct asked *it) {
    struct apex_sampling_port_status sampling = {0, 0, 0, 0};
    struct apex_queuing_port_status queuing = {0, 0, 0, 0};
    struct apex_reply reply = {0, 0, 0, 0, 0, 0, 0, 0};
    const struct apex_call *c = &it->call;
    const uint32_t p = it->partition;
    received_length = 0;
    switch (c->service) {
    case APEX_CREATE_SAMPLING_PORT:
        reply.code = apex_create_sampling_port(&module, p, it->at, it->bytes, it->length, c->size, c->direction,
                                               c->refresh, &reply.id);
        break;
    case APEX_WRITE_SAMPLING_MESSAGE:
        reply.code = apex_write_sampling_message(&module, p, it->at, c->id, it->bytes, it->length);
        break;
    case APEX_READ_SAMPLING_MESSAGE:
        reply.code = apex_read_sampling_message(&module, p, it->at, c->id, received, sizeof received,
                                                &received_length, &reply.validity);
        break;
    case APEX_GET_SAMPLING_PORT_ID:
        reply.code = apex_get_sampling_port_id(&module, p, it->at, it->bytes, it->length, &reply.id);
        break;
    case APEX_GET_SAMPLING_PORT_STATUS:
        reply.code = apex_get_sampling_port_status(&module, p, it->at, c->id, &sampling);
        break;
    case APEX_CREATE_QUEUING_PORT:
        reply.code = apex_create_queuing_port(&module, p, it->at, it->bytes, it->length, c->size, c->depth,
                                              c->direction, c->discipline, &reply.id);
        break;
    case APEX_SEND_QUEUING_MESSAGE:
        reply.code = apex_send_queuing_message(&module, p, it->at, c->id, it->bytes, it->length);
        break;
    case APEX_RECEIVE_QUEUING_MESSAGE:
        reply.code = apex_receive_queuing_message(&module, p, it->at, c->id, received, sizeof received,
                                                  &received_length);
        break;
    case APEX_GET_QUEUING_PORT_ID:
        reply.code = apex_get_queuing_port_id(&module, p, it->at, it->bytes, it->length, &reply.id);
        break;
    case APEX_GET_QUEUING_PORT_STATUS:
        reply.code = apex_get_queuing_port_status(&module, p, it->at, c->id, &queuing);
        break;
    case APEX_CLEAR_QUEUING_PORT:
        reply.code = apex_clear_queuing_port(&module, p, it->at, c->id);
        break;
    default:
        reply.code = apex_set_partition_mode(&module, p, it->at, c->mode);
    }
    reply.refresh = sampling.refresh;
    reply.waiting = queuing.waiting;
    reply.depth = queuing.depth;
    reply.size = sampling.size + queuing.size;
    reply.direction = sampling.direction + queuing.direction;
    reply.validity += sampling.last_validity;
    return reply;
}

/* Judges the call with a reply; what it answers. The places are filled before, and `said` has the words. */
static uint32_t judge(const struct asked *it, const struct apex_reply *reply) {
    memset(&departure, FILL, sizeof departure);
    memset(standard, FILL, sizeof standard);
    memset(said, FILL, sizeof said);
    return apex_judge_call(&judged, it->partition, it->at, &it->call, it->bytes, it->length, reply, received,
                           received_length, &departure, standard, sizeof standard, said, sizeof said);
}

static bool all_filled(const void *bytes, size_t length) {
    const uint8_t *each = bytes;
    while (length > 0 && each[length - 1] == FILL) {
        length--;
    }
    return length == 0;
}

static bool same_reply(const struct apex_reply *a, const struct apex_reply *b) {
    return a->refresh == b->refresh && a->code == b->code && a->id == b->id && a->waiting == b->waiting &&
           a->depth == b->depth && a->size == b->size && a->direction == b->direction && a->validity == b->validity;
}

/* The reply that a call got is the standard's. At times another code is judged: then the departure has the reply, the row
 * and the words, and all begins anew, since the judge may believe what was logged. */
static void judge_reply(const struct asked *it, const struct apex_reply *reply, uint32_t row, const uint8_t *words,
                        uint64_t length) {
    if (any(1000) != 0) {
        expect(judge(it, reply) == 0, "the judge has the same reply");
        expect(all_filled(&departure, sizeof departure) && all_filled(standard, sizeof standard) &&
               all_filled(said, WORDS), "a reply that is the standard's leaves the places as they were");
        return;
    }
    struct apex_reply other = {0, (reply->code + 1) % 8, 0, 0, 0, 0, 0, 0};
    expect(judge(it, &other) == APEX_DEPARTS, "another code departs");
    expect(departure.row == row && same_reply(&departure.standard, reply), "the departure has the row and the reply");
    expect(departure.message_length == received_length && memcmp(standard, received, received_length) == 0 &&
           all_filled(standard + received_length, sizeof standard - received_length), "and the message");
    expect(departure.words_length == length && memcmp(said, words, WORDS) == 0, "and the words");
    departures++;
    begin();
}

/* A call with a message of more bytes than a log has: no judge takes it. */
static bool is_longer(const struct asked *it) {
    return (it->call.service == 1 || it->call.service == 6) && it->length > APEX_MESSAGE_LIMIT;
}

/* What is asked, or judged, is no call, or no partition's: the number that says so, or 0. */
static uint32_t refusal(const struct asked *it, bool is_judged) {
    const uint32_t service = it->call.service;
    if (service >= SERVICES) {
        return APEX_NO_SERVICE;
    }
    if (takes_name(service) && memchr(it->bytes, '.', it->length) != NULL) {
        return APEX_NO_NAME;
    }
    if (is_judged && is_longer(it)) {
        return APEX_TOO_LONG;
    }
    return !module.is_open ? APEX_NOT_OPEN : it->partition >= PARTITIONS ? APEX_NO_PARTITION : 0;
}

/* Asks for the row and the words; the answer. If there are words, they are asked for in too short a buffer too. */
static uint32_t ask(const struct asked *it, uint32_t *row, uint8_t *words, uint64_t *length) {
    struct apex_handle *h = &module;
    const uint32_t p = it->partition;
    const uint32_t answer = apex_call_row(h, p, it->at, &it->call, it->bytes, it->length, row);
    memset(words, FILL, WORDS);
    expect(apex_call_words(h, p, it->at, &it->call, it->bytes, it->length, words, WORDS, length) == answer,
           "the words have the answer of the row");
    for (size_t i = answer == 0 ? (size_t)*length : 0; i < WORDS; i++) {
        expect(words[i] == FILL, "no byte is written behind the words");
    }
    if (answer == 0 && *length > 0) {
        const size_t room = (size_t)any(*length);
        uint8_t *buffer = malloc(room > 0 ? room : 1);
        uint64_t needed = 0;
        expect(buffer != NULL, "memory for a buffer");
        memset(buffer, FILL, room);
        expect(apex_call_words(h, p, it->at, &it->call, it->bytes, it->length, buffer, room, &needed) ==
                       APEX_SHORT_BUFFER && needed == *length, "a short buffer gets the length of the words");
        for (size_t i = 0; i < room; i++) {
            expect(buffer[i] == FILL, "a short buffer stays as it was");
        }
        free(buffer);
    }
    return answer;
}

/* A longer message than any channel's is refused as such where its partition may call and has the port. */
static void expect_longer(uint32_t row, const uint8_t *words, uint64_t length) {
    static const char wanted[] = "message of 1025 bytes, channel ";
    expect(row == APEX_ROW_IN_IDLE || row == APEX_ROW_NO_SUCH_PORT || row == APEX_ROW_MESSAGE_TOO_LONG,
           "a longer message is not sent");
    expect(row != APEX_ROW_MESSAGE_TOO_LONG ||
               (length > strlen(wanted) && memcmp(words, wanted, strlen(wanted)) == 0),
           "the words have the length of the message");
    longer += row == APEX_ROW_MESSAGE_TOO_LONG;
}

static void ask_and_make(void) {
    static struct asked it;
    uint8_t words[WORDS], again[WORDS];
    uint64_t length = 77, length_again = 77, count = 0, count_after = 0;
    uint32_t row = 77, row_again = 77;
    give(&it);
    apex_call_count(&module, it.partition, &count);
    const uint32_t refused = refusal(&it, false), answer = ask(&it, &row, words, &length);
    apex_call_count(&module, it.partition, &count_after);
    expect(answer == refused && count == count_after, "asking has its own answers, and makes no call");
    if (refused != 0) {
        const struct apex_reply none = {0, 0, 0, 0, 0, 0, 0, 0};
        received_length = 0;
        expect(row == 77 && length == 77, "the places stay as they were where there is no row");
        expect(judge(&it, &none) == refusal(&it, true), "what is no call is not judged");
        return;
    }
    const struct apex_reply reply = make(&it);
    const uint32_t code = reply.code;
    expect(row < ROWS && code == codes[row], "the row is one of the return code");
    expect((code == 0) == (length == 0) && length <= WORDS, "what is refused has words, and nothing else");
    rows[row]++;
    if (code != 0) {
        ask(&it, &row_again, again, &length_again);
        expect(row_again == row && length_again == length && memcmp(words, again, WORDS) == 0,
               "a call that was refused has the row and the words that it had before");
    }
    if (is_longer(&it)) {
        expect_longer(row, words, length);
        expect(judge(&it, &reply) == APEX_TOO_LONG, "no log has a call with such a message");
        return;
    }
    judge_reply(&it, &reply, row, words, length);
}

/* What is no reply, and a short buffer, is not judged, and the judge stays as it was. */
static void refuse_replies(void) {
    struct apex_call call = {0, APEX_GET_QUEUING_PORT_STATUS, 1, 0, 0, 0, 0, 0};
    struct apex_reply reply = {0, 0, 0, 0, 0, 0, 2, 0};
    static uint8_t much[APEX_MESSAGE_LIMIT + 1];
#define JUDGE(length, room) \
    apex_judge_call(&judged, 0, 0, &call, much, 0, &reply, much, length, &departure, standard, room, said, WORDS)
    apex_judge_close(&judged);
    expect(apex_judge_close(&judged) == APEX_NOT_OPEN, "a closed judge is closed");
    expect(apex_judge_open(&judged, much, 1) == 1, "what is no configuration has no judge");
    expect(apex_judge_open(&judged, config, config_length) == 0, "the judge is opened");
    expect(JUDGE(0, sizeof standard) == APEX_NO_REPLY, "there is no direction 2");
    reply.code = 8;
    expect(JUDGE(0, sizeof standard) == APEX_NO_REPLY, "there is no code 8");
    call.service = APEX_READ_SAMPLING_MESSAGE;
    reply.code = 0;
    reply.validity = 2;
    expect(JUDGE(0, sizeof standard) == APEX_NO_REPLY, "there is no validity 2");
    reply.validity = 1;
    expect(JUDGE(sizeof much, sizeof standard) == APEX_TOO_LONG, "no message is as long");
    expect(JUDGE(0, sizeof standard - 1) == APEX_SHORT_BUFFER, "the standard's message may be longer");
    reply.code = 3;
    expect(JUDGE(0, sizeof standard) == 0, "no port is created, and nothing was noted");
#undef JUDGE
}

static void ask_at_random(long calls) {
    for (; calls > 0; calls--) {
        if (calls % 1000 == 0) {
            begin();
        }
        ask_and_make();
    }
    unsigned long kinds = 0, all = 0;
    for (int row = 0; row < ROWS; row++) {
        kinds += rows[row] > 0;
        all += rows[row];
    }
    expect(kinds == ROWS, "each row was there");
    expect(departures > 0 && longer > 0, "a reply departed, and a message was too long");
    printf("%lu calls had %lu rows\n", all, kinds);
    refuse_replies();
    apex_close(&module);
    apex_judge_close(&judged);
}

/* Opening with words puts the same path and lines as asking for each, and opens what isn't refused. */
static void expect_explained(uint32_t answer, const uint8_t *path, uint64_t path_length, const uint8_t *lines,
                             uint64_t lines_length) {
    static uint8_t same_path[256], same_lines[65536];
    uint64_t length = 0, all = 0;
    expect(apex_open_explained(&module, config, config_length, same_path, sizeof same_path, &length, same_lines,
                               sizeof same_lines, &all) == answer,
           "opening with words answers as opening does");
    expect(length == path_length && memcmp(same_path, path, length) == 0, "and puts the same path");
    expect(all == lines_length && memcmp(same_lines, lines, all) == 0, "and the same lines");
    expect(apex_close(&module) == (answer == 0 ? 0 : 8), "and opens what is not refused");
}

/* Prints what a configuration is refused with; a buffer that is too short for it stays as it was. */
static void print_fault(void) {
    static uint8_t path[256], lines[65536];
    uint8_t byte = FILL;
    uint64_t path_length = 0, lines_length = 0, needed = 0;
    const uint32_t answer = apex_configuration_fault(config, config_length, path, sizeof path, &path_length);
    expect(apex_configuration_mistakes(config, config_length, lines, sizeof lines, &lines_length) == answer,
           "both tell the fault");
    expect(apex_open(&module, config, config_length) == answer && apex_close(&module) == (answer == 0 ? 0 : 8),
           "an opening has the same answer");
    expect(apex_configuration_fault(config, config_length, &byte, 1, &needed) == answer && needed == path_length &&
               byte == FILL, "a short buffer stays as it was");
    expect_explained(answer, path, path_length, lines, lines_length);
    printf("%u\n%.*s\n%.*s", (unsigned)answer, (int)path_length, (const char *)path, (int)lines_length,
           (const char *)lines);
}

int main(int count, char **words) {
    expect(count == 2 || count == 3, "usage: c_rows CONFIG [CALLS]");
    config_length = read_config(words[1], config, sizeof config);
    if (count == 3) {
        ask_at_random(atol(words[2]));
    } else {
        print_fault();
    }
    return 0;
}
