/* The host for processes, plain C outside of what is proved: faults that a bench injects. A message
 * that a fault meets is no call of the ports, and a comment in the log. */
#include "bench_host.h"

#include <stdlib.h>
#include <string.h>

enum { FAULTS = 64 };

static struct {
    struct bench_fault how;
    uint64_t met; /* the messages that were sent in its time */
} faults[FAULTS];
static unsigned fault_count;

/* The messages that are delayed, in the order in which they were sent. */
struct delayed {
    struct delayed *next;
    SYSTEM_TIME_TYPE due;
    struct apex_made made;
    uint8_t bytes[APEX_MESSAGE_LIMIT];
};
static struct delayed *delayed;

static bool delay_message(const struct apex_made *made, SYSTEM_TIME_TYPE due) {
    struct delayed *it = calloc(1, sizeof *it), **end = &delayed;
    if (it == NULL) {
        return false;
    }
    it->due = due;
    it->made = *made;
    it->made.bytes = memcpy(it->bytes, made->bytes, made->length);
    while (*end != NULL) {
        end = &(*end)->next;
    }
    *end = it;
    return true;
}

static bool is_in_time(unsigned i, uint32_t channel, SYSTEM_TIME_TYPE at) {
    const struct bench_fault *how = &faults[i].how;
    return how->channel == channel && at >= how->from && (how->until == 0 || at < how->until);
}

/* Whether a fault meets the next message of a channel. */
static bool is_met_next(unsigned i, uint32_t channel, SYSTEM_TIME_TYPE at) {
    const struct bench_fault *how = &faults[i].how;
    const uint64_t number = faults[i].met + 1, from = how->first == 0 ? 1 : how->first;
    return is_in_time(i, channel, at) && number >= from &&
           (how->count == 0 || number - from < how->count);
}

bool bench_is_held_full(uint32_t channel) {
    bool is_full = false;
    for (unsigned i = 0; i < fault_count; i++) {
        is_full |= faults[i].how.kind == BENCH_FULL && is_met_next(i, channel, bench_host.now);
    }
    return is_full;
}

static bool meet(struct apex_made *made) {
    static const char *const words[] = {"dropped by the bench", "delayed by the bench",
                                        "held full by the bench"};
    const SYSTEM_TIME_TYPE at = (SYSTEM_TIME_TYPE)made->at;
    struct apex_configured_port port;
    uint32_t row;
    if (made->length == 0 || made->length > APEX_MESSAGE_LIMIT ||
        apex_port_configuration(made->module, made->partition, made->call.id, &port) != 0 ||
        apex_call_row(made->module, made->partition, made->at, &made->call, made->bytes,
                      made->length, &row) != 0 ||
        (row != APEX_ROW_SENT && row != APEX_ROW_WRITTEN)) {
        return false;
    }
    const struct bench_fault *first = NULL;
    for (unsigned i = 0; i < fault_count; i++) {
        if (first == NULL && is_met_next(i, port.channel, at)) {
            first = &faults[i].how;
        }
        faults[i].met += is_in_time(i, port.channel, at);
    }
    if (first == NULL || (first->kind == BENCH_DELAY && !delay_message(made, at + first->delay))) {
        return false;
    }
    made->answer = first->kind == BENCH_FULL ? NOT_AVAILABLE : NO_ERROR;
    apex_keep_comment(made, port.channel, words[first->kind]);
    return true;
}

/* Makes the call of a message that was delayed, as its partition, which has had its answer. */
static void make_now(struct apex_made *made) {
    const bool is_send = made->call.service == APEX_SEND_QUEUING_MESSAGE;
    struct apex_configured_port port = {.channel = 0};
    made->at = (uint64_t)bench_host.now;
    made->answer = (is_send ? apex_send_queuing_message : apex_write_sampling_message)(
        made->module, made->partition, made->at, made->call.id, made->bytes, made->length);
    if (made->answer != NO_ERROR) {
        apex_port_configuration(made->module, made->partition, made->call.id, &port);
        apex_keep_comment(made, port.channel,
                          "delayed by the bench, and lost, since the next call is refused");
    }
    apex_note(made);
}

void bench_make_delayed(void) {
    struct apex_handle *module = bench_take_handle();
    for (struct delayed **it = &delayed; *it != NULL;) {
        struct delayed *due = *it;
        if (due->due > bench_host.now) {
            it = &due->next;
        } else {
            make_now(&due->made);
            *it = due->next;
            free(due);
        }
    }
    for (unsigned i = 0; i < fault_count; i++) {
        bench_grant(module, faults[i].how.channel); /* room that a fault held until now */
    }
    bench_give_handle_back();
}

void bench_end_faults(void) {
    while (delayed != NULL) {
        struct delayed *next = delayed->next;
        free(delayed);
        delayed = next;
    }
    fault_count = 0;
    apex_fault = NULL;
}

static bool is_fault(const struct bench_fault *fault) {
    return fault != NULL && fault->kind <= BENCH_FULL && fault->from >= 0 && fault->until >= 0 &&
           fault->delay >= 0 && bench_is_sum(INT64_MAX / 2, fault->delay) &&
           (fault->kind == BENCH_DELAY) == (fault->delay > 0);
}

static bool has_channel(const struct bench_fault *fault) {
    struct apex_configured_channel shown;
    const bool is_there =
        apex_channel_configuration(bench_take_handle(), fault->channel, &shown) == 0;
    bench_give_handle_back();
    return is_there && (fault->kind != BENCH_FULL || shown.is_queuing);
}

bool bench_add_fault(const struct bench_fault *fault) {
    const bool is_so =
        bench_expects(bench_self == NULL && apex_host != NULL && fault_count < FAULTS, __func__,
                      "called by a process, or no partition was added, or there are 64") &&
        bench_expects(is_fault(fault), __func__, "it is no fault, or its moments aren't") &&
        bench_expects(has_channel(fault), __func__,
                      "the module isn't open, or lacks the channel, or it has no queue");
    if (is_so) {
        faults[fault_count].how = *fault;
        faults[fault_count++].met = 0;
        apex_fault = meet;
    }
    return is_so;
}
