/* For benches, and outside of what is proved: what the files bench_*.c share. One thread runs at a
 * time, a process's or the bench's: it has the turn, and only it uses these data meanwhile. */
#ifndef BENCH_HOST_H
#define BENCH_HOST_H

#include "apex_host.h"
#include "bench_objects.h"

#include <pthread.h>
#include <setjmp.h>

/* The places of a partition's main process and of its error handler among its processes. */
enum { BENCH_MAIN = 0, BENCH_HANDLER = MAX_NUMBER_OF_PROCESSES + 1 };

enum { BENCH_PARTITIONS = 32, BENCH_CHANNELS = 64 };

#define BENCH_NEVER INT64_MAX

/* Where processes wait: at an end of a channel, at an object of their partition, or for RESUME. */
struct bench_queue {
    QUEUING_DISCIPLINE_TYPE discipline;
};

/* How a process waits. */
struct bench_wait {
    const struct bench_queue *at; /* null if it doesn't wait */
    SYSTEM_TIME_TYPE deadline;
    PRIORITY_TYPE priority;
    int64_t order;
    APEX_BYTE *message;
    uint32_t length;
    RETURN_CODE_TYPE code; /* that its service answers */
    /* At a port: which, and since when it is granted a message or room; 0 if it isn't yet. */
    bool is_send;
    uint32_t id;
    int64_t granted;
};

struct bench_process {
    struct bench_host_partition *partition; /* null where there was none in its place yet */
    PROCESS_ID_TYPE id;                     /* or BENCH_MAIN or BENCH_HANDLER */
    PROCESS_ATTRIBUTE_TYPE attributes;
    PRIORITY_TYPE priority;
    bool is_started;           /* it isn't DORMANT */
    bool is_suspended;         /* by SUSPEND */
    bool is_late;              /* its missed deadline was handled */
    SYSTEM_TIME_TYPE delay;    /* of a DELAYED_START before NORMAL */
    SYSTEM_TIME_TYPE release;  /* its last release point */
    SYSTEM_TIME_TYPE deadline; /* BENCH_NEVER without one */
    SYSTEM_TIME_TYPE ready;    /* since when it is ready to run, where it isn't suspended */
    int64_t turn;              /* among processes that are ready since the same moment */
    unsigned zero_delays;      /* in this window */
    struct bench_wait wait;
    int64_t error_order; /* 0 without an error */
    ERROR_STATUS_TYPE error;
    /* The thread. */
    bool has_thread, must_end;
    pthread_t thread;
    pthread_cond_t has_turn;
    jmp_buf start;
};

struct bench_host_partition {
    uint32_t number;
    struct bench_partition how; /* no entry where it wasn't added */
    char *file, *entry;         /* where it is a shared object */
    void *library;
    enum bench_action on_error;
    SYSTEM_TIME_TYPE next; /* the start of its next window */
    bool has_main_run;     /* since the last start or restart */
    bool is_normal;        /* as it was seen last */
    bool must_restart;     /* its mode was set, and not to NORMAL */
    bool is_by_monitor;    /* where an error was raised */
    START_CONDITION_TYPE condition;
    LOCK_LEVEL_TYPE lock_level;
    struct bench_process *locker;
    bool has_handler;
    int64_t handler_start; /* the order of what had happened by then */
    PROCESS_ID_TYPE processes;
    struct bench_process process[MAX_NUMBER_OF_PROCESSES + 2];
};

struct bench_host {
    struct bench_host_partition partition[BENCH_PARTITIONS];
    struct bench_queue channel[BENCH_CHANNELS][2]; /* of its destination and source */
    SYSTEM_TIME_TYPE now, window_end;
    int64_t turns; /* that were given; the order of what happens at one moment */
    unsigned long turns_at_moment;
    unsigned long services; /* of this turn, behind the lock of the turn */
    const char *service;    /* the last of them */
    /* Of the calling process's partition, in a service. */
    bool is_open;
    OPERATING_MODE_TYPE mode;
    bool has_begun, has_failed;
};
extern struct bench_host bench_host;
extern const struct apex_host bench_hooks;
extern const struct apex_process bench_process_hooks;

/* The process that the calling thread is; null if it is none. */
extern _Thread_local struct bench_process *bench_self;

/* For each process of a partition but the main process and the error handler. */
#define BENCH_EACH(each, partition)                                                                \
    for (struct bench_process *each = &(partition)->process[1];                                    \
         each <= &(partition)->process[(partition)->processes]; each++)

/* bench_turns.c: the threads. */

void bench_go_on_to(SYSTEM_TIME_TYPE moment);

/* Lets a process run until it waits or ends; false if there is no thread for it. */
bool bench_give_turn(struct bench_process *process);

/* The calling process gives the turn to the bench, until it has it again; or for good. */
void bench_give_turn_back(void);
_Noreturn void bench_end_self(void);

/* Makes a process DORMANT, and ends its thread at the point where it waits. */
void bench_stop(struct bench_process *process);

/* Counts a service of the calling process, and takes its time; false if the thread is ending. A
 * process whose partition has left NORMAL ends here. */
bool bench_enter(const char *service, RETURN_CODE_TYPE *code);

/* Says a line: who says it, about which process, the words, and a message. */
void bench_tell(const struct bench_process *process, const char *service, const char *what,
                const APEX_BYTE *message, int32_t length);

/* Whether the requirement of a bench's function is met; if not, a line says why. */
bool bench_expects(bool is_so, const char *function, const char *why);

/* bench_frames.c: which process runs when. */

/* Whether the module is open and has the partition; its mode. */
bool bench_find_mode(uint32_t partition, OPERATING_MODE_TYPE *mode);

/* The process of a partition with the least key; null if all have BENCH_NEVER. */
struct bench_process *bench_least(struct bench_host_partition *partition,
                                  int64_t (*key)(const struct bench_process *process));

/* The moment from which a process is to run; BENCH_NEVER if there is none yet. */
SYSTEM_TIME_TYPE bench_runs_at(const struct bench_process *process);

/* Makes a process ready at a moment, behind those that are ready by then; at a release point, with
 * its deadline. */
void bench_make_ready(struct bench_process *process, SYSTEM_TIME_TYPE moment);
void bench_release(struct bench_process *process, SYSTEM_TIME_TYPE moment);

/* The moment at which a process that is started now, or was before NORMAL is set now, is released
 * first: a periodic one with the partition's next window. */
SYSTEM_TIME_TYPE bench_first_release(const struct bench_process *process);

/* Gives up the turn if another process is to run before the calling one, which keeps its place. */
void bench_yield(void);

/* bench_processes.c: what the services have in common. */

struct bench_host_partition *bench_own(void);

/* Whether a service is made, and whether what it requires is so; the return code says why not. */
bool bench_is_served(const char *service, const void *place, RETURN_CODE_TYPE *code);
bool bench_needs(bool is_so, RETURN_CODE_TYPE otherwise, RETURN_CODE_TYPE *code);

/* Whether the calling process may wait for so long, as each may for 0. */
bool bench_may_time_out(SYSTEM_TIME_TYPE time_out, RETURN_CODE_TYPE *code);

bool bench_is_periodic(const struct bench_process *process);
bool bench_is_sum(SYSTEM_TIME_TYPE one, SYSTEM_TIME_TYPE other);

/* bench_waits.c: waiting. */

/* Whether a process waits at a queue, and its time-out hasn't passed: at that moment it waits. */
bool bench_waits_at(const struct bench_process *process, const struct bench_queue *queue);

/* The first of these processes by the queue's discipline, null without any; how many there are. */
struct bench_process *bench_first_at(const struct bench_queue *queue);
WAITING_RANGE_TYPE bench_count_at(const struct bench_queue *queue);

/* Ends the wait of a process, which is ready now. */
void bench_serve(struct bench_process *process, RETURN_CODE_TYPE code);

/* Lets the calling process wait with a message, or for one; what its service answers. */
RETURN_CODE_TYPE bench_wait_at(const struct bench_queue *queue, SYSTEM_TIME_TYPE time_out,
                               struct bench_wait how);

/* Grants what is there, to a process for each message that waits and for each place that is free;
 * behind the lock. Makes the calls of the partition's processes that are granted something. */
void bench_grant(struct apex_handle *module, uint32_t channel);
void bench_settle(struct bench_host_partition *partition);

/* bench_faults.c: makes the calls that faults have delayed until now; a queue that is held full. */
void bench_make_delayed(void);
bool bench_is_held_full(uint32_t channel);
void bench_end_faults(void);

/* bench_objects.c: gives back what the partition's buffers and blackboards hold. */
void bench_end_objects(uint32_t partition);

/* bench_load.c: loads anew a partition that is a shared object, false if it can't; unloads it. */
bool bench_reload(struct bench_host_partition *partition);
void bench_unload(struct bench_host_partition *partition);

/* bench_errors.c: hands an error of a process to its partition's error handler, or does what the
 * bench has named in its place. */
void bench_raise(struct bench_process *failed, const char *service, ERROR_CODE_TYPE code,
                 const APEX_BYTE *message, int32_t length);

/* Starts a partition's error handler again, which has ended and has left an error raised since. */
void bench_restart_handler(struct bench_host_partition *partition);

#endif
