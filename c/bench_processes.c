/* The host for processes, plain C outside of what is proved: the services of processes, of time and
 * of a partition. The first requirement of a service that isn't met gives its return code. */
#include "bench_host.h"

#include <string.h>

struct bench_host_partition *bench_own(void) {
    return bench_self->partition;
}

bool bench_needs(bool is_so, RETURN_CODE_TYPE otherwise, RETURN_CODE_TYPE *code) {
    *code = is_so ? NO_ERROR : otherwise;
    return is_so;
}

bool bench_is_served(const char *service, const void *place, RETURN_CODE_TYPE *code) {
    return code != NULL && bench_needs(place != NULL, INVALID_PARAM, code) &&
           bench_needs(bench_self != NULL, INVALID_CONFIG, code) && bench_enter(service, code) &&
           bench_needs(bench_host.is_open, INVALID_CONFIG, code) &&
           bench_needs(bench_host.mode != IDLE, INVALID_MODE, code);
}

/* Whether the caller is a process that was created: no main process and no error handler. */
static bool is_created(void) {
    return bench_self->id != BENCH_MAIN && bench_self->id != BENCH_HANDLER;
}

static bool can_wait(void) { return is_created() && bench_own()->lock_level == 0; }

bool bench_is_sum(SYSTEM_TIME_TYPE one, SYSTEM_TIME_TYPE other) {
    return other < 0 || one <= INT64_MAX - other;
}

static bool is_time_out(SYSTEM_TIME_TYPE time) {
    return time >= INFINITE_TIME_VALUE && bench_is_sum(bench_host.now, time);
}

bool bench_may_time_out(SYSTEM_TIME_TYPE time_out, RETURN_CODE_TYPE *code) {
    return bench_needs(is_time_out(time_out), INVALID_PARAM, code) &&
           bench_needs(time_out == 0 || can_wait(), INVALID_MODE, code);
}

bool bench_is_periodic(const struct bench_process *process) {
    return process->attributes.PERIOD != INFINITE_TIME_VALUE;
}

/* The process of the caller's partition that a service is called for; null if the return code says
 * why not. */
static struct bench_process *find_served(const char *service, PROCESS_ID_TYPE id, const void *place,
                                         RETURN_CODE_TYPE *code) {
    const bool is_there = bench_is_served(service, place, code) &&
                          bench_needs(id >= 1 && id <= bench_own()->processes, INVALID_PARAM, code);
    return is_there ? &bench_own()->process[id] : NULL;
}

/* The same, for a process other than the caller. */
static struct bench_process *find_other(const char *service, PROCESS_ID_TYPE id,
                                        RETURN_CODE_TYPE *code) {
    struct bench_process *it = find_served(service, id, code, code);
    return it != NULL && bench_needs(it != bench_self, INVALID_PARAM, code) ? it : NULL;
}

/* Making processes. */

static bool is_time(SYSTEM_TIME_TYPE time) { return time > 0 || time == INFINITE_TIME_VALUE; }

static bool is_priority(PRIORITY_TYPE priority) {
    return priority >= MIN_PRIORITY_VALUE && priority <= MAX_PRIORITY_VALUE;
}

static bool are_in_range(const PROCESS_ATTRIBUTE_TYPE *a) {
    return a->STACK_SIZE > 0 && a->STACK_SIZE <= MAX_STACK_SIZE && is_priority(a->BASE_PRIORITY) &&
           is_time(a->PERIOD) && is_time(a->TIME_CAPACITY) &&
           (a->PERIOD == INFINITE_TIME_VALUE || a->TIME_CAPACITY <= a->PERIOD) &&
           (a->DEADLINE == SOFT || a->DEADLINE == HARD) && a->ENTRY_POINT != NULL &&
           a->NAME[0] != '\0';
}

/* The process with a name in the caller's partition; null if there is none. */
static struct bench_process *find_named(const char *name) {
    BENCH_EACH(each, bench_own()) {
        if (strncmp(each->attributes.NAME, name, MAX_NAME_LENGTH) == 0) {
            return each;
        }
    }
    return NULL;
}

void CREATE_PROCESS(PROCESS_ATTRIBUTE_TYPE *a, PROCESS_ID_TYPE *id, RETURN_CODE_TYPE *code) {
    if (bench_is_served(__func__, a == NULL ? NULL : id, code) &&
        bench_needs(bench_own()->processes < MAX_NUMBER_OF_PROCESSES, INVALID_CONFIG, code) &&
        bench_needs(find_named(a->NAME) == NULL, NO_ACTION, code) &&
        bench_needs(are_in_range(a), INVALID_PARAM, code) &&
        bench_needs(bench_host.mode != NORMAL, INVALID_MODE, code) &&
        bench_needs(a->PERIOD == INFINITE_TIME_VALUE || a->PERIOD % bench_own()->how.period == 0,
                    INVALID_CONFIG, code)) {
        struct bench_process *made = &bench_own()->process[++bench_own()->processes];
        *made = (struct bench_process){.partition = bench_self->partition, .attributes = *a};
        made->priority = a->BASE_PRIORITY;
        *id = made->id = bench_own()->processes;
    }
}

/* Starting and ending. */

/* Whether a process can be released first after a delay. */
static bool can_start(const struct bench_process *process, SYSTEM_TIME_TYPE delay) {
    const SYSTEM_TIME_TYPE first = bench_first_release(process);
    return bench_is_sum(first, delay) &&
           bench_is_sum(first + delay, process->attributes.TIME_CAPACITY);
}

static void start(const char *service, PROCESS_ID_TYPE id, SYSTEM_TIME_TYPE delay,
                  RETURN_CODE_TYPE *code) {
    struct bench_process *process = find_served(service, id, code, code);
    if (process != NULL && bench_needs(!process->is_started, NO_ACTION, code) &&
        bench_needs(delay >= 0 &&
                        (!bench_is_periodic(process) || delay < process->attributes.PERIOD),
                    INVALID_PARAM, code) &&
        bench_needs(can_start(process, delay), INVALID_CONFIG, code)) {
        process->is_started = true;
        process->priority = process->attributes.BASE_PRIORITY;
        process->delay = delay;
        process->ready = BENCH_NEVER;
        if (bench_host.mode == NORMAL) {
            bench_release(process, bench_first_release(process) + delay);
            bench_yield();
        }
    }
}

void START(PROCESS_ID_TYPE id, RETURN_CODE_TYPE *code) { start(__func__, id, 0, code); }

void DELAYED_START(PROCESS_ID_TYPE id, SYSTEM_TIME_TYPE delay, RETURN_CODE_TYPE *code) {
    start(__func__, id, delay, code);
}

void STOP_SELF(void) {
    RETURN_CODE_TYPE none;
    if (bench_expects(bench_self != NULL && bench_self->id != BENCH_MAIN, __func__,
                      "called by no process; nothing is done") &&
        bench_enter(__func__, &none)) {
        bench_end_self();
    }
}

void STOP(PROCESS_ID_TYPE id, RETURN_CODE_TYPE *code) {
    struct bench_process *process = find_other(__func__, id, code);
    if (process != NULL && bench_needs(process->is_started, NO_ACTION, code)) {
        bench_stop(process);
    }
}

/* Suspending. */

/* The queue of processes that have suspended themselves. */
static const struct bench_queue suspended = {FIFO};

static bool can_be_suspended(const struct bench_process *process) {
    const bool has_locked = bench_own()->lock_level > 0 && bench_own()->locker == process;
    return process->is_started && !bench_is_periodic(process) && !has_locked;
}

static bool is_suspended(const struct bench_process *process) {
    return process->is_suspended || bench_waits_at(process, &suspended);
}

/* The process to suspend or resume, which is suspended or not; null if the return code says why
 * not. */
static struct bench_process *find_suspended(const char *service, PROCESS_ID_TYPE id, bool is_so,
                                            RETURN_CODE_TYPE *code) {
    struct bench_process *it = find_other(service, id, code);
    const bool is_it = it != NULL && bench_needs(can_be_suspended(it), INVALID_MODE, code) &&
                       bench_needs(is_suspended(it) == is_so, NO_ACTION, code);
    return is_it ? it : NULL;
}

void SUSPEND(PROCESS_ID_TYPE id, RETURN_CODE_TYPE *code) {
    struct bench_process *process = find_suspended(__func__, id, false, code);
    if (process != NULL) {
        process->is_suspended = true;
    }
}

void RESUME(PROCESS_ID_TYPE id, RETURN_CODE_TYPE *code) {
    struct bench_process *process = find_suspended(__func__, id, true, code);
    if (process == NULL) {
        return;
    }
    process->is_suspended = false;
    if (bench_waits_at(process, &suspended)) {
        bench_serve(process, NO_ERROR);
    } else if (process->ready <= bench_host.now) {
        bench_make_ready(process, bench_host.now);
    }
    bench_yield();
}

void SUSPEND_SELF(SYSTEM_TIME_TYPE time_out, RETURN_CODE_TYPE *code) {
    if (bench_is_served(__func__, code, code) && bench_needs(can_wait(), INVALID_MODE, code) &&
        bench_needs(is_time_out(time_out), INVALID_PARAM, code) &&
        bench_needs(!bench_is_periodic(bench_self), INVALID_MODE, code) && time_out != 0) {
        *code = bench_wait_at(&suspended, time_out, (struct bench_wait){.length = 0});
    }
}

/* Priorities and preemption. */

void SET_PRIORITY(PROCESS_ID_TYPE id, PRIORITY_TYPE priority, RETURN_CODE_TYPE *code) {
    struct bench_process *process = find_served(__func__, id, code, code);
    if (process != NULL && bench_needs(is_priority(priority), INVALID_PARAM, code) &&
        bench_needs(process->is_started, INVALID_MODE, code)) {
        process->priority = priority;
        if (bench_runs_at(process) <= bench_host.now) {
            bench_make_ready(process, bench_host.now);
        }
        bench_yield();
    }
}

/* Whether preemption may be locked or unlocked now. */
static bool may_lock(void) { return bench_host.mode == NORMAL && bench_self->id != BENCH_HANDLER; }

void LOCK_PREEMPTION(LOCK_LEVEL_TYPE *level, RETURN_CODE_TYPE *code) {
    if (bench_is_served(__func__, level, code) && bench_needs(may_lock(), NO_ACTION, code) &&
        bench_needs(bench_own()->lock_level < MAX_LOCK_LEVEL, INVALID_CONFIG, code)) {
        bench_own()->locker = bench_self;
        *level = ++bench_own()->lock_level;
    }
}

void UNLOCK_PREEMPTION(LOCK_LEVEL_TYPE *level, RETURN_CODE_TYPE *code) {
    if (bench_is_served(__func__, level, code) &&
        bench_needs(may_lock() && bench_own()->lock_level > MIN_LOCK_LEVEL, NO_ACTION, code)) {
        *level = --bench_own()->lock_level;
        bench_yield();
    }
}

/* Questions about processes and the partition. */

void GET_MY_ID(PROCESS_ID_TYPE *id, RETURN_CODE_TYPE *code) {
    if (bench_is_served(__func__, id, code) && bench_needs(is_created(), INVALID_MODE, code)) {
        *id = bench_self->id;
    }
}

void GET_PROCESS_ID(PROCESS_NAME_TYPE name, PROCESS_ID_TYPE *id, RETURN_CODE_TYPE *code) {
    if (bench_is_served(__func__, name == NULL ? NULL : id, code) &&
        bench_needs(find_named(name) != NULL, INVALID_CONFIG, code)) {
        *id = find_named(name)->id;
    }
}

static PROCESS_STATE_TYPE state_of(const struct bench_process *process) {
    return !process->is_started                       ? DORMANT
           : process == bench_self                    ? RUNNING
           : bench_runs_at(process) <= bench_host.now ? READY
                                                      : WAITING;
}

void GET_PROCESS_STATUS(PROCESS_ID_TYPE id, PROCESS_STATUS_TYPE *status, RETURN_CODE_TYPE *code) {
    const struct bench_process *process = find_served(__func__, id, status, code);
    if (process != NULL) {
        const bool has_deadline =
            process->is_started && bench_host.mode == NORMAL && process->deadline != BENCH_NEVER;
        status->DEADLINE_TIME = has_deadline ? process->deadline : INFINITE_TIME_VALUE;
        status->CURRENT_PRIORITY = process->priority;
        status->PROCESS_STATE = state_of(process);
        status->ATTRIBUTES = process->attributes;
    }
}

void GET_PARTITION_STATUS(PARTITION_STATUS_TYPE *status, RETURN_CODE_TYPE *code) {
    if (bench_is_served(__func__, status, code)) {
        status->PERIOD = bench_own()->how.period;
        status->DURATION = bench_own()->how.duration;
        status->IDENTIFIER = (PARTITION_ID_TYPE)bench_own()->number;
        status->LOCK_LEVEL = bench_own()->lock_level;
        status->OPERATING_MODE = bench_host.mode;
        status->START_CONDITION = bench_own()->condition;
    }
}

/* Time. */

void TIMED_WAIT(SYSTEM_TIME_TYPE delay, RETURN_CODE_TYPE *code) {
    if (bench_is_served(__func__, code, code) && bench_needs(can_wait(), INVALID_MODE, code) &&
        bench_needs(delay >= 0 && is_time_out(delay), INVALID_PARAM, code)) {
        bench_self->zero_delays += delay == 0;
        bench_make_ready(bench_self, bench_host.now + delay);
        bench_give_turn_back();
    }
}

/* Whether there is a moment at which a periodic process is released next, with its deadline. */
static bool has_next_release(const struct bench_process *process) {
    const PROCESS_ATTRIBUTE_TYPE *a = &process->attributes;
    return bench_is_sum(process->release, a->PERIOD) &&
           bench_is_sum(process->release + a->PERIOD, a->TIME_CAPACITY);
}

void PERIODIC_WAIT(RETURN_CODE_TYPE *code) {
    if (bench_is_served(__func__, code, code) &&
        bench_needs(can_wait() && bench_is_periodic(bench_self), INVALID_MODE, code) &&
        bench_needs(has_next_release(bench_self), INVALID_CONFIG, code)) {
        bench_release(bench_self, bench_self->release + bench_self->attributes.PERIOD);
        bench_give_turn_back();
    }
}

void GET_TIME(SYSTEM_TIME_TYPE *time, RETURN_CODE_TYPE *code) {
    if (bench_is_served(__func__, time, code)) {
        *time = bench_host.now;
    }
}

void REPLENISH(SYSTEM_TIME_TYPE budget, RETURN_CODE_TYPE *code) {
    const bool is_endless = budget == INFINITE_TIME_VALUE;
    if (bench_is_served(__func__, code, code) &&
        bench_needs(is_time_out(budget), INVALID_PARAM, code) &&
        bench_needs(is_created() && bench_self->deadline != BENCH_NEVER, NO_ACTION, code) &&
        bench_needs(!bench_is_periodic(bench_self) ||
                        (!is_endless && bench_host.now + budget <=
                                            bench_self->release + bench_self->attributes.PERIOD),
                    INVALID_MODE, code)) {
        bench_self->deadline = is_endless ? BENCH_NEVER : bench_host.now + budget;
        bench_self->is_late = false;
    }
}
