/* The host for processes, plain C outside of what is proved: windows, and who runs when. */
#include "bench_host.h"

#include <string.h>

enum { DELAY_LIMIT = 1000 };

bool bench_find_mode(uint32_t partition, OPERATING_MODE_TYPE *mode) {
    uint32_t number = IDLE;
    struct apex_handle *handle = bench_take_handle();
    const bool is_there = apex_partition_mode(handle, partition, &number) == NO_ERROR;
    bench_give_handle_back();
    *mode = (OPERATING_MODE_TYPE)number;
    return is_there;
}

/* When a process is ready. */

SYSTEM_TIME_TYPE bench_runs_at(const struct bench_process *process) {
    return process->is_started && !process->is_suspended ? process->ready : BENCH_NEVER;
}

void bench_make_ready(struct bench_process *process, SYSTEM_TIME_TYPE moment) {
    const bool is_later = moment > bench_host.now;
    process->ready = is_later ? moment : bench_host.now;
    process->turn = is_later ? 0 : ++bench_host.turns;
}

SYSTEM_TIME_TYPE bench_first_release(const struct bench_process *process) {
    return bench_is_periodic(process) ? process->partition->next : bench_host.now;
}

void bench_release(struct bench_process *process, SYSTEM_TIME_TYPE moment) {
    const SYSTEM_TIME_TYPE capacity = process->attributes.TIME_CAPACITY;
    process->release = moment;
    process->deadline = capacity == INFINITE_TIME_VALUE ? BENCH_NEVER : moment + capacity;
    process->is_late = false;
    bench_make_ready(process, moment);
}

static SYSTEM_TIME_TYPE from_now(SYSTEM_TIME_TYPE moment) {
    return moment > bench_host.now ? moment : bench_host.now;
}

/* Whether a process runs before another: first what is ready by now, then by priority, then what
 * was ready first. */
static bool is_before(const struct bench_process *one, const struct bench_process *other) {
    const SYSTEM_TIME_TYPE mine = bench_runs_at(one), others = bench_runs_at(other);
    if (from_now(mine) != from_now(others)) {
        return mine < others;
    }
    if (one->priority != other->priority) {
        return one->priority > other->priority;
    }
    return mine != others ? mine < others : one->turn < other->turn;
}

/* The process that runs next; null if none runs by itself. */
static struct bench_process *next_process(struct bench_host_partition *partition) {
    struct bench_process *main_process = &partition->process[BENCH_MAIN];
    struct bench_process *handler = &partition->process[BENCH_HANDLER], *first = NULL;
    if (!partition->is_normal || bench_runs_at(main_process) != BENCH_NEVER) {
        return bench_runs_at(main_process) != BENCH_NEVER ? main_process : NULL;
    }
    if (handler->is_started || partition->lock_level > 0) {
        return handler->is_started ? handler : partition->locker;
    }
    BENCH_EACH(each, partition) {
        if (bench_runs_at(each) != BENCH_NEVER && (first == NULL || is_before(each, first))) {
            first = each;
        }
    }
    return first;
}

struct bench_process *bench_least(struct bench_host_partition *partition,
                                  int64_t (*key)(const struct bench_process *process)) {
    struct bench_process *least = NULL;
    BENCH_EACH(each, partition) {
        if (key(each) != BENCH_NEVER && (least == NULL || key(each) < key(least))) {
            least = each;
        }
    }
    return least;
}

/* Deadlines. */

static int64_t late_from(const struct bench_process *process) {
    return process->is_started && !process->is_late ? process->deadline : BENCH_NEVER;
}

/* The process whose deadline passes first, before a moment; null if there is none. */
static struct bench_process *first_late(struct bench_host_partition *partition,
                                        SYSTEM_TIME_TYPE moment) {
    struct bench_process *first = partition->is_normal ? bench_least(partition, late_from) : NULL;
    return first != NULL && first->deadline < moment ? first : NULL;
}

void bench_yield(void) {
    if (bench_host.now >= bench_host.window_end || next_process(bench_own()) != bench_self ||
        first_late(bench_own(), bench_host.now) != NULL) {
        bench_give_turn_back();
    }
}

/* A deadline is missed from the next nanosecond on. */
static void miss_deadline(struct bench_process *process) {
    bench_go_on_to(from_now(process->deadline + 1));
    process->is_late = true;
    bench_raise(process, "TIME_CAPACITY", DEADLINE_MISSED, NULL, 0);
}

/* Modes. */

/* Ends the processes of a partition. */
static void end_partition(struct bench_host_partition *partition) {
    for (PROCESS_ID_TYPE id = BENCH_MAIN; id <= BENCH_HANDLER; id++) {
        bench_stop(&partition->process[id]);
    }
    bench_end_objects(partition->number);
    partition->processes = 0;
    partition->has_handler = false;
}

/* Does what a change of the partition's mode asks for; false if it can't. */
static bool follow_mode(struct bench_host_partition *partition) {
    OPERATING_MODE_TYPE mode;
    if (!bench_expects(bench_find_mode(partition->number, &mode), "bench_run_frame",
                       "the module is closed")) {
        return false;
    }
    if (partition->must_restart && partition->has_main_run) {
        end_partition(partition);
        partition->condition = partition->is_by_monitor ? HM_PARTITION_RESTART : PARTITION_RESTART;
        partition->has_main_run = partition->is_normal = partition->is_by_monitor = false;
        if (!bench_reload(partition)) {
            return false;
        }
    }
    partition->must_restart = false;
    if (mode == NORMAL && !partition->is_normal) {
        BENCH_EACH(each, partition) {
            if (each->is_started) {
                bench_release(each, bench_first_release(each) + each->delay);
            }
        }
    }
    partition->is_normal = mode == NORMAL;
    partition->has_main_run |= mode == IDLE;
    return true;
}

/* Windows. */

static void start_main(struct bench_host_partition *partition) {
    struct bench_process *main_process = &partition->process[BENCH_MAIN];
    partition->has_main_run = true;
    bench_stop(main_process);
    *main_process = (struct bench_process){.partition = partition, .is_started = true};
    main_process->id = BENCH_MAIN;
    main_process->attributes.ENTRY_POINT = partition->how.entry;
    bench_name(main_process->attributes.NAME, "main");
}

static void begin_window(struct bench_host_partition *partition) {
    bench_host.window_end = partition->next + partition->how.duration;
    partition->next += partition->how.period;
    BENCH_EACH(each, partition) {
        each->zero_delays = 0;
    }
    bench_make_delayed();
    bench_settle(partition);
    if (!partition->has_main_run) {
        start_main(partition);
    }
}

/* A process that was ready by now and gave its turn too often goes on in the next window. */
static bool is_too_often(struct bench_host_partition *partition, struct bench_process *process) {
    if (process->zero_delays < DELAY_LIMIT) {
        return false;
    }
    bench_tell(process, "TIMED_WAIT", "1000 delays of 0 in one window: it goes on with the next",
               NULL, 0);
    process->ready = partition->next;
    process->turn = 0;
    return true;
}

/* Runs a window: every process that is ready before its end. */
static bool run_window(struct bench_host_partition *partition) {
    bench_go_on_to(partition->next);
    if (!follow_mode(partition)) {
        return false;
    }
    begin_window(partition);
    for (;;) {
        struct bench_process *process = next_process(partition);
        const SYSTEM_TIME_TYPE at =
            process == NULL ? BENCH_NEVER : from_now(bench_runs_at(process));
        const SYSTEM_TIME_TYPE before = at < bench_host.window_end ? at : bench_host.window_end - 1;
        struct bench_process *late = first_late(partition, before);
        if (bench_host.now >= bench_host.window_end ||
            (late == NULL && at >= bench_host.window_end)) {
            return true;
        }
        if (late != NULL) {
            miss_deadline(late);
        } else if (!is_too_often(partition, process)) {
            bench_go_on_to(at);
            if (!bench_give_turn(process) || bench_host.has_failed) {
                return false;
            }
            if (process->id == BENCH_HANDLER && !process->is_started) {
                bench_restart_handler(partition);
            }
        }
        if (!follow_mode(partition)) {
            return false;
        }
    }
}

/* The bench's calls. */

static bool is_added(uint32_t partition) {
    return partition < BENCH_PARTITIONS && bench_host.partition[partition].how.entry != NULL;
}

static bool overlap(const struct bench_partition *one, const struct bench_partition *other) {
    SYSTEM_TIME_TYPE divisor = one->period, rest = other->period;
    while (rest != 0) {
        const SYSTEM_TIME_TYPE last = divisor % rest;
        divisor = rest;
        rest = last;
    }
    const SYSTEM_TIME_TYPE apart = ((other->offset - one->offset) % divisor + divisor) % divisor;
    return apart < one->duration || divisor - apart < other->duration;
}

static bool is_in_period(const struct bench_partition *how) {
    return how->offset >= 0 && how->duration > 0 && how->duration <= how->period &&
           how->offset <= how->period - how->duration;
}

static bool is_apart(const struct bench_partition *how) {
    for (uint32_t p = 0; p < BENCH_PARTITIONS; p++) {
        if (is_added(p) && overlap(&bench_host.partition[p].how, how)) {
            return false;
        }
    }
    return true;
}

bool bench_add_partition(uint32_t partition, const struct bench_partition *how) {
    OPERATING_MODE_TYPE mode;
    const bool is_new =
        bench_expects(bench_self == NULL, __func__, "called by a process") &&
        bench_expects(!bench_host.has_begun, __func__, "frames have begun") &&
        bench_expects(partition < BENCH_PARTITIONS && bench_find_mode(partition, &mode), __func__,
                      "the module isn't open, or lacks the partition") &&
        bench_expects(how != NULL && how->entry != NULL && !is_added(partition), __func__,
                      "there is no entry, or the partition was added before") &&
        bench_expects(is_in_period(how), __func__, "the window doesn't lie within one period") &&
        bench_expects(is_apart(how), __func__, "windows of two partitions overlap");
    if (is_new) {
        bench_host.partition[partition].number = partition;
        bench_host.partition[partition].how = *how;
        bench_host.partition[partition].next = how->offset;
        apex_host = &bench_hooks;
        bench_go_on_to(0);
    }
    return is_new;
}

bool bench_on_error(uint32_t partition, enum bench_action action) {
    const bool is_so = bench_expects(
        bench_self == NULL && is_added(partition) && action <= BENCH_WARM_START, __func__,
        "called by a process, or the partition wasn't added, or it is no action");
    if (is_so) {
        bench_host.partition[partition].on_error = action;
    }
    return is_so;
}

/* The partition whose window begins next, before the moment; null if there is none. */
static struct bench_host_partition *next_window(SYSTEM_TIME_TYPE before) {
    struct bench_host_partition *next = NULL;
    for (uint32_t p = 0; p < BENCH_PARTITIONS; p++) {
        if (is_added(p) && bench_host.partition[p].next < before) {
            next = &bench_host.partition[p];
            before = next->next;
        }
    }
    return next;
}

static bool is_frame(SYSTEM_TIME_TYPE length) {
    bool is_multiple = length > 0 && length <= (INT64_MAX - bench_host.now) / 2, is_any = false;
    for (uint32_t p = 0; p < BENCH_PARTITIONS; p++) {
        is_any |= is_added(p);
        is_multiple &= !is_added(p) || length % bench_host.partition[p].how.period == 0;
    }
    return is_any && is_multiple;
}

bool bench_run_frame(SYSTEM_TIME_TYPE length) {
    if (!bench_expects(bench_self == NULL, __func__, "called by a process") ||
        !bench_expects(!bench_host.has_failed, __func__, "an earlier frame has failed") ||
        !bench_expects(is_frame(length), __func__,
                       "no partition was added, or the length is no multiple of each period")) {
        return false;
    }
    const SYSTEM_TIME_TYPE end = bench_host.now + length;
    struct bench_host_partition *next;
    bench_host.has_begun = true;
    while ((next = next_window(end)) != NULL) {
        if (!run_window(next)) {
            bench_host.has_failed = true;
            return false;
        }
    }
    bench_go_on_to(end);
    return true;
}

void bench_end_processes(void) {
    if (!bench_expects(bench_self == NULL, __func__, "called by a process; nothing is done")) {
        return;
    }
    for (uint32_t p = 0; p < BENCH_PARTITIONS; p++) {
        end_partition(&bench_host.partition[p]);
        bench_unload(&bench_host.partition[p]);
    }
    bench_end_faults();
    memset(&bench_host, 0, sizeof bench_host);
    apex_host = NULL;
    bench_set_moment(0);
}
