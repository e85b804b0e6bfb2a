/* The host for processes, plain C outside of what is proved: one thread at a time has the turn, the
 * bench's own or that of a process. */
#include "bench_host.h"

#include <errno.h>
#include <stdio.h>
#include <time.h>

enum { STACK_BESIDE = 0x100000, SERVICE_LIMIT = 1000000, TURN_LIMIT = 100000 };

struct bench_host bench_host;
_Thread_local struct bench_process *bench_self;
static _Thread_local bool is_ending;

static pthread_mutex_t turn_lock = PTHREAD_MUTEX_INITIALIZER;
static pthread_cond_t bench_has_turn;
static pthread_once_t turn_once = PTHREAD_ONCE_INIT;
static struct bench_process *running; /* null while the bench has the turn */
static SYSTEM_TIME_TYPE service_time;
static unsigned watch_seconds = 10;

void bench_service_time(SYSTEM_TIME_TYPE nanoseconds) {
    service_time = nanoseconds < 0 ? 0 : nanoseconds;
}

void bench_watch(unsigned seconds) { watch_seconds = seconds; }

void bench_go_on_to(SYSTEM_TIME_TYPE moment) {
    if (moment != bench_host.now) {
        bench_host.turns_at_moment = 0;
    }
    bench_host.now = moment;
    bench_set_moment((uint64_t)moment);
}

bool bench_expects(bool is_so, const char *function, const char *why) {
    char line[640];
    if (!is_so) {
        snprintf(line, sizeof line, "%s: %s", function, why);
        apex_tell(line);
    }
    return is_so;
}

void bench_tell(const struct bench_process *process, const char *service, const char *what,
                const APEX_BYTE *message, int32_t length) {
    char line[1024];
    int end = snprintf(line, sizeof line / 2, "%s: partition %u, process %.*s, at %lld ns: %s",
                       service, (unsigned)process->partition->number, MAX_NAME_LENGTH,
                       process->attributes.NAME, (long long)bench_host.now, what);
    for (int32_t i = 0; i < length && end + 5 < (int)sizeof line; i++) {
        const bool is_plain = message[i] >= ' ' && message[i] <= '~' && message[i] != '\\';
        end += snprintf(line + end, sizeof line - (size_t)end, is_plain ? "%c" : "\\x%02x",
                        (unsigned)message[i]);
    }
    apex_tell(line);
}

/* Counting services. */

/* Takes the time of a service, as far as the window has it. The rest of a process is for its next
 * window. */
static void take_time(void) {
    const SYSTEM_TIME_TYPE left = bench_host.window_end - bench_host.now;
    pthread_mutex_lock(&turn_lock);
    bench_go_on_to(bench_host.now + (service_time < left ? service_time : left));
    pthread_mutex_unlock(&turn_lock);
    bench_yield();
}

bool bench_enter(const char *service, RETURN_CODE_TYPE *code) {
    if (!bench_needs(!is_ending, INVALID_MODE, code)) {
        return false;
    }
    pthread_mutex_lock(&turn_lock);
    bench_host.service = service;
    const unsigned long count = ++bench_host.services;
    pthread_mutex_unlock(&turn_lock);
    if (service_time > 0) {
        take_time();
    } else if (count > SERVICE_LIMIT) {
        bench_tell(bench_self, service, "1000000 services without a wait", NULL, 0);
        bench_host.has_failed = true;
        bench_give_turn_back(); /* for good */
    }
    bench_host.is_open = bench_find_mode(bench_self->partition->number, &bench_host.mode);
    if (bench_self->id != BENCH_MAIN && bench_host.mode != NORMAL) {
        bench_end_self();
    }
    return true;
}

/* The turn, from the bench to a process and back. */

static void start_condition(void) {
    pthread_condattr_t how;
    pthread_condattr_init(&how);
    pthread_condattr_setclock(&how, CLOCK_MONOTONIC);
    pthread_cond_init(&bench_has_turn, &how);
    pthread_condattr_destroy(&how);
}

/* Ends the thread at its present point. What its functions hold isn't freed, as when a process of a
 * target is stopped. */
static _Noreturn void leave_thread(void) {
    is_ending = true;
    longjmp(bench_self->start, 1);
}

/* Makes a process DORMANT. It takes its lock of preemption with it. */
static void make_dormant(struct bench_process *process) {
    process->is_started = process->is_suspended = false;
    process->error_order = 0;
    process->wait.at = NULL;
    if (process->partition != NULL && process->partition->locker == process) {
        process->partition->lock_level = 0;
        process->partition->locker = NULL;
    }
}

_Noreturn void bench_end_self(void) {
    make_dormant(bench_self);
    leave_thread();
}

static void pass_turn_to_bench(void) {
    pthread_mutex_lock(&turn_lock);
    if (running == bench_self) {
        running = NULL;
        pthread_cond_signal(&bench_has_turn);
    }
    pthread_mutex_unlock(&turn_lock);
}

static void wait_for_turn(void) {
    pthread_mutex_lock(&turn_lock);
    while (running != bench_self && !bench_self->must_end) {
        pthread_cond_wait(&bench_self->has_turn, &turn_lock);
    }
    const bool must_end = bench_self->must_end;
    pthread_mutex_unlock(&turn_lock);
    if (must_end) {
        leave_thread();
    }
}

void bench_give_turn_back(void) {
    pass_turn_to_bench();
    wait_for_turn();
}

static void *run_process(void *process) {
    bench_self = process;
    apex_process = &bench_process_hooks;
    bench_set_partition(bench_self->partition->number);
    if (setjmp(bench_self->start) == 0) {
        wait_for_turn();
        bench_self->attributes.ENTRY_POINT();
        if (bench_self->id != BENCH_MAIN) {
            bench_tell(bench_self, "STOP_SELF",
                       "not called, but the entry point returned: it is as if called", NULL, 0);
        }
        bench_end_self();
    }
    pass_turn_to_bench();
    return NULL;
}

static bool start_thread(struct bench_process *process) {
    pthread_attr_t how;
    pthread_once(&turn_once, start_condition);
    process->must_end = false;
    if (pthread_cond_init(&process->has_turn, NULL) != 0 || pthread_attr_init(&how) != 0) {
        return false;
    }
    pthread_attr_setstacksize(&how, STACK_BESIDE + (process->attributes.STACK_SIZE | 0xffff) + 1);
    process->has_thread = pthread_create(&process->thread, &how, run_process, process) == 0;
    pthread_attr_destroy(&how);
    return process->has_thread;
}

static void join_thread(struct bench_process *process) {
    pthread_join(process->thread, NULL);
    pthread_cond_destroy(&process->has_turn);
    process->has_thread = false;
}

/* Waits for the end of a process's turn, and says once if it calls no service for long. */
static void watch_turn(const struct bench_process *process) {
    bool is_watched = watch_seconds > 0;
    unsigned long seen = 0;
    unsigned idle = 0; /* seconds without a service */
    while (running != NULL) {
        struct timespec until;
        clock_gettime(CLOCK_MONOTONIC, &until);
        until.tv_sec++;
        if (!is_watched) {
            pthread_cond_wait(&bench_has_turn, &turn_lock);
        } else if (pthread_cond_timedwait(&bench_has_turn, &turn_lock, &until) == ETIMEDOUT) {
            idle = bench_host.services == seen ? idle + 1 : 0;
            seen = bench_host.services;
        }
        if (running != NULL && is_watched && idle == watch_seconds) {
            char what[96];
            snprintf(what, sizeof what, "it runs for %u s without a service behind this one", idle);
            bench_tell(process, bench_host.service, what, NULL, 0);
            is_watched = false;
        }
    }
}

bool bench_give_turn(struct bench_process *process) {
    if (!bench_expects(process->has_thread || start_thread(process), "bench_run_frame",
                       "a thread cannot be had")) {
        return false;
    }
    pthread_mutex_lock(&turn_lock);
    bench_host.services = 0;
    bench_host.service = "bench_run_frame";
    running = process;
    pthread_cond_signal(&process->has_turn);
    watch_turn(process);
    pthread_mutex_unlock(&turn_lock);
    if (!process->is_started) {
        join_thread(process);
    }
    if (++bench_host.turns_at_moment > TURN_LIMIT) {
        bench_tell(process, bench_host.service, "100000 turns at one moment", NULL, 0);
        bench_host.has_failed = true;
    }
    return true;
}

void bench_stop(struct bench_process *process) {
    make_dormant(process);
    if (process->has_thread) {
        pthread_mutex_lock(&turn_lock);
        process->must_end = true;
        pthread_cond_signal(&process->has_turn);
        pthread_mutex_unlock(&turn_lock);
        join_thread(process);
    }
}
