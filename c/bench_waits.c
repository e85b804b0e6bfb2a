/* The host for processes, plain C outside of what is proved: waiting, at a port, an object of the
 * partition or for RESUME; and what apex.c asks. A call of the ports that has to wait was answered
 * NOT_AVAILABLE by them; it is made again when it can succeed. */
#include "bench_host.h"

#include <string.h>

static bool is_granted_at(const struct bench_process *process, const struct bench_queue *queue) {
    return process->is_started && process->wait.at == queue && process->wait.granted != 0;
}

bool bench_waits_at(const struct bench_process *process, const struct bench_queue *queue) {
    const struct bench_wait *wait = &process->wait;
    return process->is_started && wait->at == queue && wait->granted == 0 &&
           wait->deadline >= bench_host.now;
}

static bool is_served_before(const struct bench_wait *one, const struct bench_wait *other) {
    return one->at->discipline == PRIORITY && one->priority != other->priority
               ? one->priority > other->priority
               : one->order < other->order;
}

/* The number of processes that wait at a queue in such a way, and the first, null without any. */
static WAITING_RANGE_TYPE look_at(const struct bench_queue *queue,
                                  bool (*is_there)(const struct bench_process *process,
                                                   const struct bench_queue *queue),
                                  struct bench_process **first) {
    WAITING_RANGE_TYPE count = 0;
    *first = NULL;
    for (uint32_t p = 0; p < BENCH_PARTITIONS; p++) {
        BENCH_EACH(it, &bench_host.partition[p]) {
            if (is_there(it, queue)) {
                *first =
                    *first == NULL || is_served_before(&it->wait, &(*first)->wait) ? it : *first;
                count++;
            }
        }
    }
    return count;
}

struct bench_process *bench_first_at(const struct bench_queue *queue) {
    struct bench_process *first;
    look_at(queue, bench_waits_at, &first);
    return first;
}

WAITING_RANGE_TYPE bench_count_at(const struct bench_queue *queue) {
    struct bench_process *first;
    return look_at(queue, bench_waits_at, &first);
}

void bench_serve(struct bench_process *process, RETURN_CODE_TYPE code) {
    process->wait.at = NULL;
    process->wait.code = code;
    bench_make_ready(process, bench_host.now);
}

RETURN_CODE_TYPE bench_wait_at(const struct bench_queue *queue, SYSTEM_TIME_TYPE time_out,
                               struct bench_wait how) {
    struct bench_wait *wait = &bench_self->wait;
    *wait = how;
    wait->at = queue;
    wait->deadline = time_out == INFINITE_TIME_VALUE ? BENCH_NEVER : bench_host.now + time_out;
    wait->priority = bench_self->priority;
    wait->order = ++bench_host.turns;
    wait->code = TIMED_OUT;
    bench_self->ready = wait->deadline;
    bench_self->turn = 0;
    bench_give_turn_back();
    wait->at = NULL;
    return wait->code;
}

/* Waiting at a port. */

/* The queue at a partition's queuing port, and its channel; null if there is none. */
static struct bench_queue *find_queue(struct apex_handle *module, uint32_t partition, uint32_t id,
                                      uint32_t *channel) {
    struct apex_configured_port shown;
    if (apex_port_configuration(module, partition, id, &shown) != 0 || !shown.is_queuing) {
        return NULL;
    }
    *channel = shown.channel;
    return &bench_host.channel[shown.channel][shown.direction == SOURCE];
}

void bench_grant(struct apex_handle *module, uint32_t channel) {
    struct apex_configured_channel shown;
    struct bench_process *it;
    uint64_t waiting = 0;
    if (apex_channel_configuration(module, channel, &shown) != 0 ||
        apex_waiting_count(module, channel, &waiting) != 0) {
        return;
    }
    for (int is_send = 0; is_send < 2; is_send++) {
        const struct bench_queue *queue = &bench_host.channel[channel][is_send];
        int64_t left = is_send ? (int64_t)shown.depth - (int64_t)waiting : (int64_t)waiting;
        left -= look_at(queue, is_granted_at, &it);
        left = is_send && bench_is_held_full(channel) ? 0 : left;
        for (; left > 0 && (it = bench_first_at(queue)) != NULL; left--) {
            it->wait.granted = ++bench_host.turns;
            bench_make_ready(it, bench_host.now);
        }
    }
}

static void follow(const struct apex_made *made) {
    const uint32_t service = made->call.service;
    uint32_t channel;
    if (made->answer != NO_ERROR) {
        return;
    }
    if (service == APEX_SET_PARTITION_MODE) {
        bench_host.partition[made->partition].must_restart |= made->call.mode != NORMAL;
    }
    struct bench_queue *queue =
        find_queue(made->module, made->partition, made->id ? made->id : made->call.id, &channel);
    if (queue != NULL && service == APEX_CREATE_QUEUING_PORT) {
        queue->discipline = (QUEUING_DISCIPLINE_TYPE)made->call.discipline;
    } else if (queue != NULL &&
               (service == APEX_SEND_QUEUING_MESSAGE || service == APEX_RECEIVE_QUEUING_MESSAGE ||
                service == APEX_CLEAR_QUEUING_PORT)) {
        bench_grant(made->module, channel);
    }
}

/* Makes the call of a process that is granted, as its partition. */
static void try_again(struct bench_process *it) {
    static uint8_t message[APEX_MESSAGE_LIMIT];
    struct bench_wait *wait = &it->wait;
    struct apex_made again = {.module = bench_take_handle(), .call = {.id = wait->id}};
    again.call.service = wait->is_send ? APEX_SEND_QUEUING_MESSAGE : APEX_RECEIVE_QUEUING_MESSAGE;
    again.partition = it->partition->number;
    again.at = (uint64_t)bench_host.now;
    again.bytes = wait->message;
    again.length = wait->length;
    const bool is_met = wait->is_send && apex_fault != NULL && apex_fault(&again);
    if (wait->is_send && !is_met) {
        again.answer = apex_send_queuing_message(again.module, again.partition, again.at, wait->id,
                                                 wait->message, wait->length);
    } else if (!wait->is_send) {
        again.message = message;
        again.answer =
            apex_receive_queuing_message(again.module, again.partition, again.at, wait->id, message,
                                         sizeof message, &again.message_length);
        memcpy(wait->message, message, again.message_length);
        wait->length = again.message_length;
    }
    wait->granted = 0;
    if (again.answer == NOT_AVAILABLE) { /* taken by the bench meanwhile */
        it->ready = wait->deadline;
        it->turn = 0;
    } else {
        wait->at = NULL;
        wait->code = again.answer <= TIMED_OUT ? (RETURN_CODE_TYPE)again.answer : INVALID_CONFIG;
    }
    if (!is_met) {
        apex_note(&again);
    }
    bench_give_handle_back();
}

static int64_t since_granted(const struct bench_process *process) {
    const bool is_granted = process->wait.at != NULL && is_granted_at(process, process->wait.at);
    return is_granted ? process->wait.granted : BENCH_NEVER;
}

void bench_settle(struct bench_host_partition *partition) {
    struct bench_process *it;
    while ((it = bench_least(partition, since_granted)) != NULL) {
        try_again(it);
    }
}

/* What apex.c asks. */

static RETURN_CODE_TYPE wait_at(bool is_send, uint32_t id, SYSTEM_TIME_TYPE time_out,
                                APEX_BYTE *message, uint32_t *length) {
    const struct bench_wait how = {
        .is_send = is_send, .id = id, .message = message, .length = *length};
    uint32_t channel;
    const struct bench_queue *queue =
        find_queue(bench_take_handle(), bench_own()->number, id, &channel);
    bench_give_handle_back();
    const RETURN_CODE_TYPE code = bench_wait_at(queue, time_out, how);
    *length = bench_self->wait.length;
    return code;
}

static WAITING_RANGE_TYPE waiting(struct apex_handle *module, uint32_t partition, uint32_t id) {
    uint32_t channel;
    const struct bench_queue *queue = find_queue(module, partition, id, &channel);
    return queue == NULL ? 0 : bench_count_at(queue);
}

static void leave(void) {
    if (bench_self->id != BENCH_MAIN) {
        bench_settle(bench_own());
        bench_yield();
    }
}

/* A change of the mode doesn't come back to the process that made it: another partition mode is
 * another start. The main process waits from NORMAL on. */
static void mode_set(OPERATING_MODE_TYPE mode) {
    if (bench_self->id == BENCH_MAIN && mode == NORMAL) {
        bench_self->ready = BENCH_NEVER;
        bench_give_turn_back();
    }
    bench_end_self();
}

const struct apex_host bench_hooks = {follow, waiting};
const struct apex_process bench_process_hooks = {bench_enter, bench_may_time_out, wait_at, leave,
                                                 mode_set};
