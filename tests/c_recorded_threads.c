/* Threads that call recorded services at once, each with a stand-in of its own, over a sink that takes some lines: each
 * text has whole lines, and each line is either taken or reported as lost. */
#include "c_stand_in.h"

#include "record/apex_record.h"

#include <pthread.h>
#include <stdio.h>
#include <stdlib.h>
#include <string.h>

enum { THREADS = 4, CALLS = 5000 };
static uint32_t given, taken, reports;

static void fails(const char *why, const char *text) {
    fprintf(stderr, "%s: %s\n", why, text);
    exit(1);
}

/* Whether the text is a line of the only call that is made: its message is as long as each of its bytes says. */
static void look_at(const char *line) {
    const char *message = strstr(line, " send 1 ");
    const char *arrow = message == NULL ? NULL : strstr(message, " -> NOT_AVAILABLE");
    if (arrow == NULL) {
        fails("no line of the call", line);
    }
    message += strlen(" send 1 ");
    unsigned length = 0;
    sscanf(message, "%2x", &length);
    if (arrow - message != 2 * (long)length || strspn(message, "0123456789abcdef") != 2 * length) {
        fails("a torn message", line);
    }
    for (unsigned i = 0; i < length; i++) {
        if (strncmp(message, message + 2 * i, 2) != 0) {
            fails("a torn message", line);
        }
    }
}

static int sink(void *context, const char *text, size_t length) {
    char copy[4096];
    (void)context;
    if (length >= sizeof copy || text[length - 1] != '\n') {
        fails("no whole line", "");
    }
    memcpy(copy, text, length);
    copy[length] = '\0';
    uint32_t lost = 0;
    const char *line = copy;
    if (copy[0] == '#') {
        lost = (uint32_t)strtoul(copy + 2, NULL, 10);
        line = strchr(copy, '\n') + 1;
    }
    look_at(line);
    if (__atomic_fetch_add(&given, 1, __ATOMIC_RELAXED) % 3 == 0) {
        return 0;
    }
    __atomic_fetch_add(&taken, 1, __ATOMIC_RELAXED);
    __atomic_fetch_add(&reports, lost, __ATOMIC_RELAXED);
    return 1;
}

static void *calls(void *number) {
    APEX_BYTE message[255];
    const unsigned length = 10 + 60 * *(const unsigned *)number;
    memset(message, (int)length, sizeof message);
    stand_in_answer.code = NOT_AVAILABLE;
    for (int i = 0; i < CALLS; i++) {
        RETURN_CODE_TYPE code = NO_ERROR;
        SEND_QUEUING_MESSAGE(1, message, length, 0, &code);
        if (code != NOT_AVAILABLE || stand_in_seen.value[1] != length) {
            fails("a changed call", "");
        }
    }
    return NULL;
}

int main(void) {
    static unsigned numbers[THREADS] = {0, 1, 2, 3};
    pthread_t threads[THREADS];
    apex_record_to(sink, NULL);
    for (int i = 0; i < THREADS; i++) {
        if (pthread_create(&threads[i], NULL, calls, &numbers[i]) != 0) {
            return 1;
        }
    }
    for (int i = 0; i < THREADS; i++) {
        pthread_join(threads[i], NULL);
    }
    if (taken + reports + apex_record_lost() != THREADS * CALLS || given != THREADS * CALLS) {
        fprintf(stderr, "%u taken, %u reported as lost, %u lost\n", taken, reports, apex_record_lost());
        return 1;
    }
    return 0;
}
