/* The host for processes, plain C outside of what is proved: errors, and what is done with them. */
#include "bench_host.h"

#include <stdio.h>
#include <string.h>

/* Sets the mode of a partition for it, as the health monitor does. */
static bool set_mode(const struct bench_host_partition *partition, OPERATING_MODE_TYPE mode) {
    struct apex_made made = {.module = bench_take_handle(), .partition = partition->number};
    made.call.service = APEX_SET_PARTITION_MODE;
    made.call.mode = mode;
    made.at = (uint64_t)bench_host.now;
    made.answer = apex_set_partition_mode(made.module, made.partition, made.at, mode);
    apex_note(&made);
    bench_give_handle_back();
    return made.answer == NO_ERROR;
}

/* Does what the bench has named for errors that no handler takes. */
static void act(struct bench_process *failed, const char *service, const APEX_BYTE *message,
                int32_t length) {
    static const char *const words[] = {"IGNORE", "IDLE", "COLD_START", "WARM_START"};
    static const OPERATING_MODE_TYPE modes[] = {NORMAL, IDLE, COLD_START, WARM_START};
    struct bench_host_partition *partition = failed->partition;
    const enum bench_action action = partition->on_error;
    char what[64];
    snprintf(what, sizeof what, "no error handler takes it: %s%s", words[action],
             length > 0 ? ": " : "");
    bench_tell(failed, service, what, message, length);
    if (action == BENCH_IGNORE) {
        return;
    }
    /* (a partition that is in COLD_START can't be set to WARM_START) */
    partition->is_by_monitor =
        set_mode(partition, modes[action]) || set_mode(partition, COLD_START);
    if (bench_self != NULL) {
        bench_end_self();
    }
}

static void start_handler(struct bench_host_partition *partition) {
    struct bench_process *handler = &partition->process[BENCH_HANDLER];
    partition->handler_start = bench_host.turns;
    handler->is_started = true;
    bench_make_ready(handler, bench_host.now);
}

void bench_raise(struct bench_process *failed, const char *service, ERROR_CODE_TYPE code,
                 const APEX_BYTE *message, int32_t length) {
    struct bench_host_partition *partition = failed->partition;
    struct bench_process *handler = &partition->process[BENCH_HANDLER];
    if (!partition->has_handler || !partition->is_normal || failed == handler) {
        act(failed, service, message, length);
        return;
    }
    failed->error_order = ++bench_host.turns;
    failed->error = (ERROR_STATUS_TYPE){.ERROR_CODE = code, .LENGTH = length};
    failed->error.FAILED_PROCESS_ID = failed->id;
    failed->error.FAILED_ADDRESS = failed->attributes.ENTRY_POINT;
    if (length > 0) {
        memcpy(failed->error.MESSAGE, message, (size_t)length);
    }
    if (!handler->is_started) {
        start_handler(partition);
    }
}

void bench_restart_handler(struct bench_host_partition *partition) {
    BENCH_EACH(each, partition) {
        if (partition->has_handler && each->error_order > partition->handler_start) {
            start_handler(partition);
            return;
        }
    }
}

void CREATE_ERROR_HANDLER(SYSTEM_ADDRESS_TYPE entry, STACK_SIZE_TYPE stack,
                          RETURN_CODE_TYPE *code) {
    if (bench_is_served(__func__, code, code) &&
        bench_needs(!bench_own()->has_handler, NO_ACTION, code) &&
        bench_needs(entry != NULL && stack > 0 && stack <= MAX_STACK_SIZE, INVALID_CONFIG, code) &&
        bench_needs(bench_host.mode != NORMAL, INVALID_MODE, code)) {
        bench_own()->has_handler = true;
        bench_own()->process[BENCH_HANDLER] = (struct bench_process){
            .partition = bench_self->partition,
            .id = BENCH_HANDLER,
            .attributes = {.ENTRY_POINT = entry, .STACK_SIZE = stack, .NAME = "error handler"},
            .deadline = BENCH_NEVER,
        };
    }
}

static int64_t raised_at(const struct bench_process *process) {
    return process->error_order > 0 ? process->error_order : BENCH_NEVER;
}

void GET_ERROR_STATUS(ERROR_STATUS_TYPE *status, RETURN_CODE_TYPE *code) {
    if (bench_is_served(__func__, status, code) &&
        bench_needs(bench_self->id == BENCH_HANDLER, INVALID_CONFIG, code) &&
        bench_needs(bench_least(bench_own(), raised_at) != NULL, NO_ACTION, code)) {
        struct bench_process *first = bench_least(bench_own(), raised_at);
        *status = first->error;
        first->error_order = 0;
    }
}

static bool is_length(int32_t length) { return length >= 0 && length <= MAX_ERROR_MESSAGE_SIZE; }

/* What goes to the health monitor elsewhere is said as a line. */
void REPORT_APPLICATION_MESSAGE(MESSAGE_ADDR_TYPE bytes, MESSAGE_SIZE_TYPE length,
                                RETURN_CODE_TYPE *code) {
    if (bench_is_served(__func__, bytes, code) &&
        bench_needs(is_length(length), INVALID_PARAM, code)) {
        bench_tell(bench_self, __func__, "", bytes, length);
    }
}

void RAISE_APPLICATION_ERROR(ERROR_CODE_TYPE error, MESSAGE_ADDR_TYPE bytes,
                             ERROR_MESSAGE_SIZE_TYPE length, RETURN_CODE_TYPE *code) {
    if (bench_is_served(__func__, bytes, code) &&
        bench_needs(is_length(length) && error == APPLICATION_ERROR, INVALID_PARAM, code)) {
        bench_raise(bench_self, __func__, APPLICATION_ERROR, bytes, length);
        bench_yield();
    }
}
