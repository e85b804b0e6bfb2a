/* What apex.c asks of a host for processes, and what it notes of each call. For the files of this
 * folder alone, which include it first: it says what the system's headers have to show. */
#ifndef APEX_HOST_H
#define APEX_HOST_H

#undef _POSIX_C_SOURCE
#define _POSIX_C_SOURCE 200809L

#include "apex.h"

/* A call that was made, with its answer, and what an accepted one gave. */
struct apex_made {
    struct apex_handle *module;
    struct apex_call call;
    const void *bytes; /* the name or the message that it was made with */
    size_t length;
    uint32_t partition, answer;
    uint64_t at;
    uint32_t id;            /* of the port that was created or found */
    const uint8_t *message; /* that was received or read */
    uint32_t message_length, validity;
    const struct apex_queuing_port_status *queuing;
    const struct apex_sampling_port_status *sampling;
};

/* After a call of the ports, and the number of processes that wait at a port; both with the lock. */
struct apex_host {
    void (*made)(const struct apex_made *made);
    WAITING_RANGE_TYPE (*waiting)(struct apex_handle *module, uint32_t partition, uint32_t id);
};

/* What a process asks of its host. */
struct apex_process {
    /* Before a service: whether it may be called now, and whether it may wait. */
    bool (*enter)(const char *service, RETURN_CODE_TYPE *code);
    bool (*may_wait)(SYSTEM_TIME_TYPE time_out, RETURN_CODE_TYPE *code);
    /* Lets the caller wait for a message, which is written to the place, or for room for one. */
    RETURN_CODE_TYPE (*wait)(bool is_send, uint32_t id, SYSTEM_TIME_TYPE time_out, APEX_BYTE *place,
                             uint32_t *length);
    /* After a service by which another process may be ready, and after an accepted mode. */
    void (*leave)(void);
    void (*mode_set)(OPERATING_MODE_TYPE mode);
};

/* Null without a host, in a thread that is no process of it, if calls aren't kept, or without faults.
 * A fault that meets a message answers instead of the ports. To be called with the lock held. */
extern const struct apex_host *apex_host;
extern _Thread_local const struct apex_process *apex_process;
extern void (*apex_keep)(const struct apex_made *made);
extern bool (*apex_fault)(struct apex_made *made);

/* Whether a service is called with a name. */
bool apex_has_name(uint32_t service);

/* Hand a call on to the first two. To be called with the lock held. */
void apex_note(const struct apex_made *made);
void apex_note_named(struct apex_made made, const char *name, uint32_t id);
void apex_note_message(struct apex_made made, const void *bytes, size_t length);
void apex_note_received(struct apex_made made, const uint8_t *message, uint32_t length,
                        uint32_t validity);
void apex_note_status(struct apex_made made, const struct apex_queuing_port_status *queuing,
                      const struct apex_sampling_port_status *sampling);

/* After a call that a fault refuses the thread has no words of a refusal. */
void apex_forget_words(void);

/* Keeps as a comment what becomes of a message that is no call, if calls are kept. */
void apex_keep_comment(const struct apex_made *made, uint32_t channel, const char *what);

/* Says a line on standard error, or to the bench's sink; and each line of a text. */
void apex_tell(const char *line);
void apex_tell_lines(char *lines);

#endif
