/* The calls of a bench as texts, plain C outside of what is proved: the report that `apexports
 * replay` prints, and a log that `dekarino judge` reads. The forms are those of docs/FORMATS.md. */
#include "apex_host.h"

#include <inttypes.h>
#include <stdlib.h>
#include <string.h>

/* The calls that are kept, a line of a log each. */
static FILE *kept;
static char *kept_text;
static size_t kept_length;

static const char *const answer_words[] = {"NO_ERROR",      "NO_ACTION",      "NOT_AVAILABLE",
                                           "INVALID_PARAM", "INVALID_CONFIG", "INVALID_MODE",
                                           "TIMED_OUT",     "not made"};
static const char *const call_words[] = {
    "create-sampling", "write",          "read",  "sampling-id",
    "sampling-status", "create-queuing", "send",  "receive",
    "queuing-id",      "queuing-status", "clear", "mode"};
static const char *const direction_words[] = {"SOURCE", "DESTINATION"};
static const char *const validity_words[] = {"INVALID", "VALID"};
static const char *const mode_words[] = {"IDLE", "COLD_START", "WARM_START", "NORMAL"};

static void print_bytes(FILE *file, const uint8_t *bytes, uint64_t length) {
    fputs(length == 0 ? " -" : " ", file);
    for (uint64_t i = 0; i < length; i++) {
        fprintf(file, "%02x", bytes[i]);
    }
}

/* Prints the name of a partition or of a channel, by the function that has it. */
static void print_name(FILE *file, struct apex_handle *module, uint32_t number,
                       uint32_t (*read)(struct apex_handle *, uint32_t, uint8_t *, size_t,
                                        uint32_t *)) {
    uint8_t name[APEX_NAME_LIMIT];
    uint32_t length = 0;
    read(module, number, name, sizeof name, &length);
    fprintf(file, "%.*s", (int)length, (const char *)name);
}

/* Whether a call is made with a message of more bytes than a text has. The ports refuse each. */
static bool is_too_long(const struct apex_made *made) { return made->length > APEX_MESSAGE_LIMIT; }

static void print_arguments(FILE *file, const struct apex_made *made) {
    const struct apex_call *call = &made->call;
    if (apex_has_name(call->service)) {
        fprintf(file, " %.*s", (int)made->length, (const char *)made->bytes);
    } else {
        fprintf(file, " %u", call->service == APEX_SET_PARTITION_MODE ? call->mode : call->id);
    }
    if (call->service == APEX_CREATE_SAMPLING_PORT) {
        fprintf(file, " %u %u %" PRIu64, call->size, call->direction, call->refresh);
    } else if (call->service == APEX_CREATE_QUEUING_PORT) {
        fprintf(file, " %u %u %u %u", call->size, call->depth, call->direction, call->discipline);
    } else if (call->service == APEX_SEND_QUEUING_MESSAGE ||
               call->service == APEX_WRITE_SAMPLING_MESSAGE) {
        if (is_too_long(made)) {
            fprintf(file, " length %zu", made->length);
        } else {
            print_bytes(file, made->bytes, made->length);
        }
    }
}

/* What an accepted call gave. */
static void print_given(FILE *file, const struct apex_made *made) {
    if (made->id != 0) {
        fprintf(file, " id %u", made->id);
    }
    if (made->message != NULL) {
        fputs(" message", file);
        print_bytes(file, made->message, made->message_length);
    }
    if (made->call.service == APEX_READ_SAMPLING_MESSAGE) {
        fprintf(file, " %s", validity_words[made->validity]);
    }
    if (made->queuing != NULL) {
        fprintf(file, " waiting %u depth %u size %u %s processes 0", made->queuing->waiting,
                made->queuing->depth, made->queuing->size,
                direction_words[made->queuing->direction]);
    }
    if (made->sampling != NULL) {
        fprintf(file, " refresh %" PRIu64 " size %u %s last %s", made->sampling->refresh,
                made->sampling->size, direction_words[made->sampling->direction],
                validity_words[made->sampling->last_validity]);
    }
}

static void keep(const struct apex_made *made) {
    if (made->call.refresh > INT64_MAX || made->at > INT64_MAX || is_too_long(made)) {
        fputs("# ", kept); /* no text has such a number or message: a log has it as a comment */
    }
    fprintf(kept, "%" PRIu64 " ", made->at);
    print_name(kept, made->module, made->partition, apex_partition_name);
    fprintf(kept, " %s", call_words[made->call.service]);
    print_arguments(kept, made);
    fprintf(kept, " -> %s", answer_words[made->answer]);
    if (made->answer == NO_ERROR) {
        print_given(kept, made);
    }
    fputc('\n', kept);
}

void apex_keep_comment(const struct apex_made *made, uint32_t channel, const char *what) {
    if (kept != NULL) {
        fprintf(kept, "## %" PRIu64 " ", made->at);
        print_name(kept, made->module, made->partition, apex_partition_name);
        fputs(", channel ", kept);
        print_name(kept, made->module, channel, apex_channel_name);
        fprintf(kept, ": %s:", what);
        print_bytes(kept, made->bytes, made->length);
        fputc('\n', kept);
    }
}

bool bench_keep_calls(bool is_wanted) {
    bench_take_handle();
    if (kept != NULL) {
        fclose(kept);
        free(kept_text);
    }
    kept = is_wanted ? open_memstream(&kept_text, &kept_length) : NULL;
    apex_keep = kept == NULL ? NULL : keep;
    const bool is_so = (kept != NULL) == is_wanted;
    bench_give_handle_back();
    return is_so;
}

/* Whether the kept calls are all there as a text. */
static bool is_kept(void) { return kept != NULL && fflush(kept) == 0 && !ferror(kept); }

bool bench_log(FILE *file) {
    bench_take_handle();
    const bool is_written = is_kept() && fwrite(kept_text, 1, kept_length, file) == kept_length;
    bench_give_handle_back();
    return is_written;
}

/* The lines of calls, which leave out the arguments of a log's line. */
static void print_calls(FILE *file) {
    unsigned long long number = 0;
    for (const char *line = kept_text, *end; line < kept_text + kept_length; line = end + 1) {
        end = strchr(line, '\n');
        if (strncmp(line, "##", 2) == 0) {
            continue;
        }
        const char *after = line += *line == '#' ? 2 : 0;
        for (int word = 0; word < 3; word++) {
            after += strcspn(after, " ") + 1;
        }
        const char *answer = strstr(after, "-> ") + 3;
        fprintf(file, "%llu %.*s %.*s\n", ++number, (int)(after - 1 - line), line,
                (int)(end - answer), answer);
    }
}

static void print_partition(struct apex_handle *module, uint32_t p, FILE *file) {
    uint32_t mode = 0;
    uint64_t count = 0;
    apex_partition_mode(module, p, &mode);
    apex_call_count(module, p, &count);
    fputs("partition ", file);
    print_name(file, module, p, apex_partition_name);
    fprintf(file, " mode %s calls %" PRIu64 "\n", mode_words[mode], count);
}

static void print_queue(struct apex_handle *module, uint32_t c, FILE *file) {
    uint8_t message[APEX_MESSAGE_LIMIT];
    uint32_t length = 0;
    uint64_t accepted = 0, received = 0, cleared = 0, waiting = 0;
    apex_accepted_count(module, c, &accepted);
    apex_received_count(module, c, &received);
    apex_cleared_count(module, c, &cleared);
    apex_waiting_count(module, c, &waiting);
    fprintf(file, " accepted %" PRIu64 " received %" PRIu64, accepted, received);
    if (cleared > 0) {
        fprintf(file, " cleared %" PRIu64, cleared);
    }
    fprintf(file, " waiting %" PRIu64, waiting);
    for (uint64_t i = 0; i < waiting; i++) {
        apex_waiting_message(module, c, i, message, sizeof message, &length);
        print_bytes(file, message, length);
    }
}

static void print_channel(struct apex_handle *module, uint32_t c, FILE *file) {
    struct apex_configured_channel channel = {0, 0, false};
    uint8_t message[APEX_MESSAGE_LIMIT];
    uint32_t length = 0;
    uint64_t at = 0;
    apex_channel_configuration(module, c, &channel);
    fputs(channel.is_queuing ? "queuing " : "sampling ", file);
    print_name(file, module, c, apex_channel_name);
    if (channel.is_queuing) {
        print_queue(module, c, file);
    } else if (apex_last_sample(module, c, message, sizeof message, &length, &at) == 0) {
        print_bytes(file, message, length);
        fprintf(file, " at %" PRIu64, at);
    } else {
        fputs(" empty", file);
    }
    fputc('\n', file);
}

bool bench_report(FILE *file) {
    uint32_t partitions = 0, channels = 0;
    struct apex_handle *module = bench_take_handle();
    const bool is_open = apex_partition_count(module, &partitions) == 0 &&
                         apex_channel_count(module, &channels) == 0;
    if (is_open && is_kept()) {
        print_calls(file);
    }
    for (uint32_t p = 0; p < partitions; p++) {
        print_partition(module, p, file);
    }
    for (uint32_t c = 0; c < channels; c++) {
        print_channel(module, c, file);
    }
    bench_give_handle_back();
    return is_open && !ferror(file);
}
