/* replay CONFIG TRACE: replays a trace through the C interface, and prints the report that `apexports replay` prints
 * (docs/FORMATS.md). A faulty trace has the status 1, and then nothing is printed. */
#define _POSIX_C_SOURCE 200809L

#include "../apex_ports.h"
#include "words.h"

#include <stdio.h>
#include <stdlib.h>
#include <string.h>

enum { FILE_LIMIT = 16777216, WORD_LIMIT = 8 };

static struct apex_handle handle;
static FILE *report;

/* The call in hand. */
static uint32_t partition;
static uint64_t at;

static void print_message(const uint8_t *bytes, uint64_t length) {
    fputs(length == 0 ? " -" : " ", report);
    for (uint64_t i = 0; i < length; i++) {
        fprintf(report, "%02x", bytes[i]);
    }
}

/* Prints an answer; whether it is one of a service, and not of a word that the interface refuses. */
static bool print_answer(uint32_t answer) {
    static const char *const words[] = {"NO_ERROR",       "NO_ACTION",    "NOT_AVAILABLE", "INVALID_PARAM",
                                        "INVALID_CONFIG", "INVALID_MODE", "TIMED_OUT",     "not made"};
    if (answer > APEX_NOT_MADE) {
        return false;
    }
    fputs(words[answer], report);
    return true;
}

static bool print_id(uint32_t answer, uint32_t id) {
    bool is_printed = print_answer(answer);
    if (answer == 0) {
        fprintf(report, " id %u", id);
    }
    return is_printed;
}

static bool print_received(uint32_t answer, const struct message *message) {
    bool is_printed = print_answer(answer);
    if (answer == 0) {
        fputs(" message", report);
        print_message(message->bytes, message->length);
    }
    return is_printed;
}

static const char *direction_word(uint32_t direction) { return direction == 0 ? "SOURCE" : "DESTINATION"; }

static const char *validity_word(uint32_t validity) { return validity == 0 ? "INVALID" : "VALID"; }

static const uint8_t *bytes_of(const char *word) { return (const uint8_t *)word; }

/* The calls. Each reads its arguments, makes the call and prints the reply; whether the arguments are right. */

static bool create_sampling(char **words) {
    uint32_t numbers[2], id = 0;
    uint64_t refresh;
    if (!read_numbers(words + 1, 2, numbers) || !read_number(words[3], INT64_MAX, &refresh)) {
        return false;
    }
    uint32_t answer = apex_create_sampling_port(&handle, partition, at, bytes_of(words[0]), strlen(words[0]),
                                                numbers[0], numbers[1], refresh, &id);
    return print_id(answer, id);
}

static bool write_sample(char **words) {
    struct message message;
    uint32_t id;
    if (!read_numbers(words, 1, &id) || !read_message(words[1], &message)) {
        return false;
    }
    return print_answer(
        apex_write_sampling_message(&handle, partition, at, id, message.bytes, message.length));
}

static bool read_sample(char **words) {
    struct message message;
    uint32_t id, validity = 0;
    if (!read_numbers(words, 1, &id)) {
        return false;
    }
    uint32_t answer = apex_read_sampling_message(&handle, partition, at, id, message.bytes, sizeof message.bytes,
                                                 &message.length, &validity);
    bool is_printed = print_received(answer, &message);
    if (answer == 0) {
        fprintf(report, " %s", validity_word(validity));
    }
    return is_printed;
}

static bool sampling_id(char **words) {
    uint32_t id = 0;
    uint32_t answer =
        apex_get_sampling_port_id(&handle, partition, at, bytes_of(words[0]), strlen(words[0]), &id);
    return print_id(answer, id);
}

static bool sampling_status(char **words) {
    struct apex_sampling_port_status status;
    uint32_t id;
    if (!read_numbers(words, 1, &id)) {
        return false;
    }
    uint32_t answer = apex_get_sampling_port_status(&handle, partition, at, id, &status);
    bool is_printed = print_answer(answer);
    if (answer == 0) {
        fprintf(report, " refresh %llu size %u %s last %s", (unsigned long long)status.refresh, status.size,
                direction_word(status.direction), validity_word(status.last_validity));
    }
    return is_printed;
}

static bool create_queuing(char **words) {
    uint32_t numbers[4], id = 0;
    if (!read_numbers(words + 1, 4, numbers)) {
        return false;
    }
    uint32_t answer = apex_create_queuing_port(&handle, partition, at, bytes_of(words[0]), strlen(words[0]),
                                               numbers[0], numbers[1], numbers[2], numbers[3], &id);
    return print_id(answer, id);
}

static bool send_message(char **words) {
    struct message message;
    uint32_t id;
    if (!read_numbers(words, 1, &id) || !read_message(words[1], &message)) {
        return false;
    }
    return print_answer(
        apex_send_queuing_message(&handle, partition, at, id, message.bytes, message.length));
}

static bool receive_message(char **words) {
    struct message message;
    uint32_t id;
    if (!read_numbers(words, 1, &id)) {
        return false;
    }
    uint32_t answer = apex_receive_queuing_message(&handle, partition, at, id, message.bytes, sizeof message.bytes,
                                                   &message.length);
    return print_received(answer, &message);
}

static bool queuing_id(char **words) {
    uint32_t id = 0;
    uint32_t answer =
        apex_get_queuing_port_id(&handle, partition, at, bytes_of(words[0]), strlen(words[0]), &id);
    return print_id(answer, id);
}

static bool queuing_status(char **words) {
    struct apex_queuing_port_status status;
    uint32_t id;
    if (!read_numbers(words, 1, &id)) {
        return false;
    }
    uint32_t answer = apex_get_queuing_port_status(&handle, partition, at, id, &status);
    bool is_printed = print_answer(answer);
    if (answer == 0) {
        fprintf(report, " waiting %u depth %u size %u %s processes 0", status.waiting, status.depth, status.size,
                direction_word(status.direction));
    }
    return is_printed;
}

static bool clear_messages(char **words) {
    uint32_t id;
    return read_numbers(words, 1, &id) && print_answer(apex_clear_queuing_port(&handle, partition, at, id));
}

static bool set_mode(char **words) {
    uint32_t mode;
    return read_numbers(words, 1, &mode) && print_answer(apex_set_partition_mode(&handle, partition, at, mode));
}

static const struct call {
    const char *word;
    size_t arguments;
    bool (*make)(char **words);
} calls[] = {
    {"create-sampling", 4, create_sampling}, {"write", 2, write_sample},
    {"read", 1, read_sample},                {"sampling-id", 1, sampling_id},
    {"sampling-status", 1, sampling_status}, {"create-queuing", 5, create_queuing},
    {"send", 2, send_message},               {"receive", 1, receive_message},
    {"queuing-id", 1, queuing_id},           {"queuing-status", 1, queuing_status},
    {"clear", 1, clear_messages},            {"mode", 1, set_mode},
};

/* Cuts a line into words, one more than a call takes at most. */
static size_t cut(char *line, char **words) {
    size_t count = 0;
    for (char *word = strtok(line, " \t"); word != NULL && count < WORD_LIMIT + 1; word = strtok(NULL, " \t")) {
        words[count++] = word;
    }
    return count;
}

static bool find_partition(const char *word) {
    return apex_find_partition(&handle, bytes_of(word), strlen(word), &partition) == 0;
}

static const struct call *find_call(const char *word) {
    for (size_t i = 0; i < sizeof calls / sizeof *calls; i++) {
        if (strcmp(calls[i].word, word) == 0) {
            return &calls[i];
        }
    }
    return NULL;
}

/* Serves a line of the trace; whether it is right. */
static bool serve(char *line, uint64_t *number) {
    char *words[WORD_LIMIT + 1];
    for (const char *byte = line; *byte != '\0'; byte++) {
        if ((unsigned char)*byte > 0x7f) {
            return false;
        }
    }
    size_t count = cut(line, words);
    if (count == 0 || *words[0] == '#') {
        return true;
    }
    if (count < 3 || !read_number(words[0], INT64_MAX, &at) || !find_partition(words[1])) {
        return false;
    }
    const struct call *call = find_call(words[2]);
    if (call == NULL || count != 3 + call->arguments) {
        return false;
    }
    fprintf(report, "%llu %llu %s %s ", (unsigned long long)++*number, (unsigned long long)at, words[1], words[2]);
    bool is_served = call->make(words + 3);
    fputc('\n', report);
    return is_served;
}

/* Serves each line; the number of the first faulty one, or 0. */
static uint64_t serve_lines(char *text, size_t length) {
    uint64_t number = 0, line_number = 0;
    char *line = text;
    while (line < text + length) {
        char *feed = memchr(line, '\n', (size_t)(text + length - line));
        char *end = feed == NULL ? text + length : feed;
        char *rest = end + 1;
        line_number++;
        if (feed != NULL && end > line && end[-1] == '\r') {
            end--;
        }
        *end = '\0';
        if (strlen(line) != (size_t)(end - line) || !serve(line, &number)) {
            return line_number;
        }
        line = rest;
    }
    return 0;
}

static void print_name(const char *kind, const uint8_t *name, uint32_t length) {
    fprintf(report, "%s %.*s", kind, (int)length, (const char *)name);
}

static void print_partition(uint32_t p) {
    static const char *const words[] = {"IDLE", "COLD_START", "WARM_START", "NORMAL"};
    uint8_t name[APEX_NAME_LIMIT];
    uint32_t length = 0, mode = 0;
    uint64_t count = 0;
    apex_partition_name(&handle, p, name, sizeof name, &length);
    apex_partition_mode(&handle, p, &mode);
    apex_call_count(&handle, p, &count);
    print_name("partition", name, length);
    fprintf(report, " mode %s calls %llu\n", words[mode], (unsigned long long)count);
}

static void print_queue(uint32_t c) {
    struct message message;
    uint64_t sent = 0, received = 0, cleared = 0, waiting = 0;
    apex_accepted_count(&handle, c, &sent);
    apex_received_count(&handle, c, &received);
    apex_cleared_count(&handle, c, &cleared);
    apex_waiting_count(&handle, c, &waiting);
    fprintf(report, " accepted %llu received %llu", (unsigned long long)sent, (unsigned long long)received);
    if (cleared > 0) {
        fprintf(report, " cleared %llu", (unsigned long long)cleared);
    }
    fprintf(report, " waiting %llu", (unsigned long long)waiting);
    for (uint64_t i = 0; apex_waiting_message(&handle, c, i, message.bytes, sizeof message.bytes, &message.length) == 0;
         i++) {
        print_message(message.bytes, message.length);
    }
    fputc('\n', report);
}

static void print_sample(uint32_t c) {
    struct message message;
    uint64_t written = 0;
    if (apex_last_sample(&handle, c, message.bytes, sizeof message.bytes, &message.length, &written) == 0) {
        print_message(message.bytes, message.length);
        fprintf(report, " at %llu\n", (unsigned long long)written);
    } else {
        fputs(" empty\n", report);
    }
}

static void print_channel(uint32_t c) {
    struct apex_configured_channel channel = {0, 0, false};
    uint8_t name[APEX_NAME_LIMIT];
    uint32_t length = 0;
    apex_channel_name(&handle, c, name, sizeof name, &length);
    apex_channel_configuration(&handle, c, &channel);
    print_name(channel.is_queuing ? "queuing" : "sampling", name, length);
    if (channel.is_queuing) {
        print_queue(c);
    } else {
        print_sample(c);
    }
}

static void print_totals(void) {
    uint32_t partitions = 0, channels = 0;
    apex_partition_count(&handle, &partitions);
    apex_channel_count(&handle, &channels);
    for (uint32_t p = 0; p < partitions; p++) {
        print_partition(p);
    }
    for (uint32_t c = 0; c < channels; c++) {
        print_channel(c);
    }
}

/* Reads a file into a place with room for two bytes more than a file may have; whether it can be read. */
static bool read_file(const char *path, char *text, size_t *length) {
    FILE *file = fopen(path, "rb");
    if (file == NULL) {
        return false;
    }
    *length = fread(text, 1, FILE_LIMIT + 1, file);
    bool is_read = !ferror(file) && *length <= FILE_LIMIT;
    fclose(file);
    return is_read;
}

/* Opens the ports and serves the trace; whether both texts are right. */
static bool replay(const char *config, size_t config_length, char *trace, size_t trace_length) {
    uint32_t fault = apex_open(&handle, (const uint8_t *)config, config_length);
    if (fault != 0) {
        fprintf(stderr, "config fault %u\n", fault);
        return false;
    }
    uint64_t faulty_line = serve_lines(trace, trace_length);
    if (faulty_line != 0) {
        fprintf(stderr, "trace line %llu\n", (unsigned long long)faulty_line);
    } else {
        print_totals();
    }
    return apex_close(&handle) == 0 && faulty_line == 0;
}

int main(int count, char **words) {
    static char config[FILE_LIMIT + 2], trace[FILE_LIMIT + 2];
    size_t config_length, trace_length, report_length;
    char *text;
    if (count != 3 || !read_file(words[1], config, &config_length) || !read_file(words[2], trace, &trace_length)) {
        fprintf(stderr, "usage: replay CONFIG TRACE\n");
        return 2;
    }
    report = open_memstream(&text, &report_length);
    if (report == NULL) {
        return 3;
    }
    bool is_served = replay(config, config_length, trace, trace_length);
    bool is_kept = fclose(report) == 0;
    bool is_written =
        is_kept && is_served && fwrite(text, 1, report_length, stdout) == report_length && fflush(stdout) == 0;
    free(text);
    return is_written ? 0 : is_served ? 3 : 1;
}
