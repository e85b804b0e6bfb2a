/* What apex.c notes of each call: for a host for processes, for a record of calls and for the words
 * of a refusal; and the lines that a bench says. */
#include "apex_host.h"

#include <stdio.h>
#include <stdlib.h>
#include <string.h>

const struct apex_host *apex_host;
_Thread_local const struct apex_process *apex_process;
void (*apex_keep)(const struct apex_made *made);
bool (*apex_fault)(struct apex_made *made);

/* The last refused call of the thread, NO_ERROR without one, and the name that it was made with. */
static _Thread_local struct apex_made refused;
static _Thread_local uint8_t refused_name[MAX_NAME_LENGTH];

bool apex_has_name(uint32_t service) {
    return service == APEX_CREATE_SAMPLING_PORT || service == APEX_CREATE_QUEUING_PORT ||
           service == APEX_GET_SAMPLING_PORT_ID || service == APEX_GET_QUEUING_PORT_ID;
}

void apex_note(const struct apex_made *made) {
    if (made->answer > APEX_NOT_MADE) {
        return;
    }
    if (made->answer != NO_ERROR) {
        refused = *made;
        if (apex_has_name(made->call.service)) {
            memcpy(refused_name, made->bytes, made->length);
        }
    }
    if (apex_keep != NULL) {
        apex_keep(made);
    }
    if (apex_host != NULL) {
        apex_host->made(made);
    }
}

void apex_forget_words(void) { refused.answer = NO_ERROR; }

void apex_note_message(struct apex_made made, const void *bytes, size_t length) {
    made.bytes = bytes;
    made.length = length;
    apex_note(&made);
}

void apex_note_received(struct apex_made made, const uint8_t *message, uint32_t length,
                        uint32_t validity) {
    made.message = message;
    made.message_length = length;
    made.validity = validity;
    apex_note(&made);
}

void apex_note_status(struct apex_made made, const struct apex_queuing_port_status *queuing,
                      const struct apex_sampling_port_status *sampling) {
    made.queuing = queuing;
    made.sampling = sampling;
    apex_note(&made);
}

void apex_note_named(struct apex_made made, const char *name, uint32_t id) {
    made.id = id;
    apex_note_message(made, name, strnlen(name, MAX_NAME_LENGTH));
}

/* What the bench says. */

static void (*bench_sink)(const char *line);

void bench_tell_to(void (*sink)(const char *line)) { bench_sink = sink; }

void apex_tell(const char *line) {
    if (bench_sink != NULL) {
        bench_sink(line);
    } else {
        fprintf(stderr, "%s\n", line);
    }
}

void apex_tell_lines(char *lines) {
    char *rest, *line = strtok_r(lines, "\n", &rest);
    for (; line != NULL; line = strtok_r(NULL, "\n", &rest)) {
        apex_tell(line);
    }
}

/* The words name the length of a message and no byte of it, so zeros stand for it. There are no
 * words if memory for them is refused. */
const char *bench_last_words(void) {
    static _Thread_local char words[512];
    static const uint8_t some[APEX_MESSAGE_LIMIT];
    const bool is_longer = refused.length > sizeof some;
    uint8_t *longer = is_longer ? calloc(refused.length, 1) : NULL;
    const uint8_t *message = is_longer ? longer : some;
    const uint8_t *bytes = apex_has_name(refused.call.service) ? refused_name : message;
    uint64_t length = 0;
    words[0] = '\0';
    if (refused.answer != NO_ERROR && bytes != NULL) {
        apex_call_words(bench_take_handle(), refused.partition, 0, &refused.call, bytes,
                        refused.length, (uint8_t *)words, sizeof words - 1, &length);
        bench_give_handle_back();
        words[length < sizeof words ? length : 0] = '\0';
    }
    free(longer);
    return words;
}

void bench_name(NAME_TYPE name, const char *text) {
    const size_t length = strnlen(text, MAX_NAME_LENGTH);
    memset(name, 0, MAX_NAME_LENGTH);
    memcpy(name, text, length);
}
