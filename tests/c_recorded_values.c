/* Calls of the recorded services over c_stand_in.c, with what a log can have and what it can't, and the longest of
 * each: each is passed on unchanged and answered unchanged, and the lines go to standard output. */
#include "c_stand_in.h"

#include "record/apex_record.h"

#include <setjmp.h>
#include <stdio.h>
#include <stdlib.h>
#include <string.h>

#define LOWEST INT64_MIN
static const struct stand_in_answer none = {0, 0, 0, 0, 0, {0, 0, SOURCE, INVALID}, {0, 0, 0, SOURCE, 0}, 0};
static APEX_BYTE out[1100], in[1100], greatest[1100];
static int64_t id, length;
static VALIDITY_TYPE validity;
static RETURN_CODE_TYPE code;
static SAMPLING_PORT_STATUS_TYPE sampling;
static QUEUING_PORT_STATUS_TYPE queuing;

static int takes = 1; /* whether the sink takes lines */
static int calls;     /* of the sink */

static int sink(void *context, const char *text, size_t bytes) {
    calls++;
    if (context != &takes || bytes == 0 || text[bytes - 1] != '\n') {
        fprintf(stderr, "call %d of the sink: not whole lines, or another context\n", calls);
        exit(1);
    }
    return takes && fwrite(text, 1, bytes, stdout) == bytes;
}

static void expect(const char *service, const void *const *places, const int64_t *values, int line) {
    if (strcmp(stand_in_seen.service, service) != 0 || memcmp(stand_in_seen.place, places, 4 * sizeof *places) != 0 ||
        memcmp(stand_in_seen.value, values, 5 * sizeof *values) != 0) {
        fprintf(stderr, "line %d: %s wasn't passed on unchanged\n", line, service);
        exit(1);
    }
    if (code != (RETURN_CODE_TYPE)stand_in_answer.code) {
        fprintf(stderr, "line %d: the return code of %s is changed\n", line, service);
        exit(1);
    }
}
#define EXPECT(service, p0, p1, p2, p3, v0, v1, v2, v3)                                                                \
    expect(service, (const void *const[]){p0, p1, p2, p3}, (const int64_t[]){v0, v1, v2, v3, 0}, __LINE__)

/* The next call answers this. */
static void answer(int with, int64_t a_length, const APEX_BYTE *message, int a_validity) {
    stand_in_answer = none;
    stand_in_answer.code = with;
    stand_in_answer.id = stand_in_answer.length = a_length;
    stand_in_answer.message = message;
    stand_in_answer.validity = a_validity;
    memset(in, 0, sizeof in);
}

static void creates(char *name, int64_t size, int64_t depth, int a_direction, int a_discipline, int64_t refresh) {
    const PORT_DIRECTION_TYPE direction = (PORT_DIRECTION_TYPE)a_direction;
    const QUEUING_DISCIPLINE_TYPE discipline = (QUEUING_DISCIPLINE_TYPE)a_discipline;
    CREATE_SAMPLING_PORT(name, size, direction, refresh, &id, &code);
    EXPECT("CREATE_SAMPLING_PORT", name, &id, &code, 0, size, (int64_t)direction, refresh, 0);
    CREATE_QUEUING_PORT(name, size, depth, direction, discipline, &id, &code);
    EXPECT("CREATE_QUEUING_PORT", name, &id, &code, 0, size, depth, (int64_t)direction, (int64_t)discipline);
    GET_SAMPLING_PORT_ID(name, &id, &code);
    EXPECT("GET_SAMPLING_PORT_ID", name, &id, &code, 0, 0, 0, 0, 0);
    GET_QUEUING_PORT_ID(name, &id, &code);
    EXPECT("GET_QUEUING_PORT_ID", name, &id, &code, 0, 0, 0, 0, 0);
}

static void sends(int64_t to, APEX_BYTE *message, int64_t bytes, SYSTEM_TIME_TYPE time_out) {
    WRITE_SAMPLING_MESSAGE(to, message, bytes, &code);
    EXPECT("WRITE_SAMPLING_MESSAGE", message, &code, 0, 0, to, bytes, 0, 0);
    SEND_QUEUING_MESSAGE(to, message, bytes, time_out, &code);
    EXPECT("SEND_QUEUING_MESSAGE", message, &code, 0, 0, to, bytes, time_out, 0);
}

static void receives(int64_t from, SYSTEM_TIME_TYPE time_out) {
    const int64_t wanted = stand_in_answer.length;
    READ_SAMPLING_MESSAGE(from, in, &length, &validity, &code);
    EXPECT("READ_SAMPLING_MESSAGE", in, &length, &validity, &code, from, 0, 0, 0);
    if (length != wanted || validity != (VALIDITY_TYPE)stand_in_answer.validity) {
        exit(1);
    }
    RECEIVE_QUEUING_MESSAGE(from, time_out, in, &length, &code);
    EXPECT("RECEIVE_QUEUING_MESSAGE", in, &length, &code, 0, from, time_out, 0, 0);
    if (length != wanted || (stand_in_answer.message && memcmp(in, stand_in_answer.message, (size_t)length) != 0)) {
        exit(1);
    }
}

static void statuses(int64_t of) {
    GET_SAMPLING_PORT_STATUS(of, &sampling, &code);
    EXPECT("GET_SAMPLING_PORT_STATUS", &sampling, &code, 0, 0, of, 0, 0, 0);
    GET_QUEUING_PORT_STATUS(of, &queuing, &code);
    EXPECT("GET_QUEUING_PORT_STATUS", &queuing, &code, 0, 0, of, 0, 0, 0);
    if (memcmp(&sampling, &stand_in_answer.sampling, sizeof sampling) != 0 ||
        memcmp(&queuing, &stand_in_answer.queuing, sizeof queuing) != 0) {
        exit(1);
    }
}

static void clears(int64_t of) {
    CLEAR_QUEUING_PORT(of, &code);
    EXPECT("CLEAR_QUEUING_PORT", &code, 0, 0, 0, of, 0, 0, 0);
}

static void sets_mode(int mode) {
    SET_PARTITION_MODE((OPERATING_MODE_TYPE)mode, &code);
    EXPECT("SET_PARTITION_MODE", &code, 0, 0, 0, mode, 0, 0, 0);
}

/* What a log has. */
static void ordinary(void) {
    static char name[MAX_NAME_LENGTH] = "NAV_1z", longest[MAX_NAME_LENGTH] = "ABCDEFGHIJKLMNOPQRSTUVWXYZ0123";
    answer(NO_ERROR, 7, (const APEX_BYTE *)"\x00\x7f\x80\xff\x0a\x0d\x20", VALID);
    creates(name, 4, 2, SOURCE, FIFO, 50);
    creates(longest, 1, 512, DESTINATION, PRIORITY, INT64_MAX);
    sends(1, out, 3, 0);
    receives(1, 0);
    stand_in_answer.sampling = (SAMPLING_PORT_STATUS_TYPE){50, 4, SOURCE, VALID};
    stand_in_answer.queuing = (QUEUING_PORT_STATUS_TYPE){1, 2, 4, DESTINATION, 0};
    statuses(1);
    clears(2);
    sets_mode(NORMAL);
    for (int each = NO_ACTION; each <= TIMED_OUT; each++) {
        answer(each, 0, 0, INVALID);
        clears(1);
    }
    sends(2, out, 0, 0);
    sends(2, out, -5, 0);
    receives(2, 0);
    answer(TIMED_OUT, 0, 0, INVALID);
    sends(2, out, 1, 5000000);
    receives(2, -1);
}

/* The longest lines, with numbers that are read as unsigned. */
static void longest(void) {
    static char name[MAX_NAME_LENGTH] = "ABCDEFGHIJKLMNOPQRSTUVWXYZ0123";
    stand_in_time = INT64_MAX - 100;
    answer(INVALID_CONFIG, 1024, greatest, INVALID);
    creates(name, UINT32_MAX, -1, -1, INT32_MIN, INT64_MAX);
    sends(INT32_MIN, greatest, 1024, LOWEST);
    answer(NO_ERROR, 1024, greatest, INVALID);
    receives(UINT32_MAX, LOWEST);
    stand_in_answer.sampling = (SAMPLING_PORT_STATUS_TYPE){-1, UINT32_MAX, DESTINATION, INVALID};
    stand_in_answer.queuing = (QUEUING_PORT_STATUS_TYPE){-1, UINT32_MAX, INT32_MIN, DESTINATION, LOWEST};
    statuses(-1);
    stand_in_time = -7;
    clears(-2);
    stand_in_time = 1000;
}

/* Calls that no log can have are comments, of at most the same length. */
static void comments(void) {
    static char strange[MAX_NAME_LENGTH], empty[MAX_NAME_LENGTH], all[MAX_NAME_LENGTH];
    memset(strange, 0xe9, 30);
    memset(all, 'a', sizeof all);
    answer(99, 1, 0, 0);
    creates(strange, LOWEST, LOWEST, 2, 2, LOWEST);
    creates(empty, 1, 1, 0, 0, 0);
    creates(all, 1, 1, 0, 0, 0);
    sends(LOWEST, greatest, 1024, LOWEST);
    sends(1, greatest, 1025, 0);
    sends(1, NULL, 2, 0);
    sends(1, NULL, 0, 0);
    answer(NO_ERROR, 1024, greatest, VALID);
    receives(LOWEST, LOWEST);
    SEND_QUEUING_MESSAGE(1, out, 2, 0, NULL);
    CREATE_QUEUING_PORT(NULL, 1, 1, SOURCE, FIFO, &id, &code);
    SET_PARTITION_MODE(NORMAL, NULL);
}

/* Replies that no log can have: the log has another reply there, which departs. */
static void replies(void) {
    static char name[MAX_NAME_LENGTH] = "NAV";
    answer(99, 0, 0, 0);
    clears(1);
    answer(-3, 0, 0, 0);
    clears(1);
    receives(1, 9);
    answer(NO_ERROR, INT64_MAX, 0, VALID);
    creates(name, 1, 1, 0, 0, 0);
    answer(NO_ERROR, 1025, 0, VALID);
    receives(1, 0);
    answer(NO_ERROR, -1, 0, VALID);
    receives(1, 9);
    answer(NO_ERROR, 1, greatest, 7);
    receives(1, 0);
    stand_in_answer.sampling = (SAMPLING_PORT_STATUS_TYPE){1, 1, (PORT_DIRECTION_TYPE)2, VALID};
    stand_in_answer.queuing = (QUEUING_PORT_STATUS_TYPE){1, 1, 1, (PORT_DIRECTION_TYPE)2, 0};
    statuses(1);
    stand_in_answer.sampling = (SAMPLING_PORT_STATUS_TYPE){1, INT64_MAX, SOURCE, VALID};
    stand_in_answer.queuing = (QUEUING_PORT_STATUS_TYPE){1, LOWEST, 1, SOURCE, 0};
    statuses(1);
    answer(NO_ERROR, 3, greatest, VALID);
    READ_SAMPLING_MESSAGE(1, in, NULL, &validity, &code);
    READ_SAMPLING_MESSAGE(1, in, &length, NULL, &code);
    GET_QUEUING_PORT_STATUS(1, NULL, &code);
    GET_SAMPLING_PORT_STATUS(1, NULL, &code);
    GET_SAMPLING_PORT_ID(name, NULL, &code);
}

/* Lines that are not taken are counted, and reported before the next one that is. */
static void losses(void) {
    answer(NO_ERROR, 0, 0, 0);
    takes = 0;
    clears(1);
    takes = 1;
    clears(2);
    takes = 0;
    clears(3);
    clears(4);
    clears(5);
    if (apex_record_lost() != 3) {
        exit(1);
    }
    takes = 1;
    stand_in_time = INT64_MAX;
    answer(INVALID_CONFIG, 0, 0, 0);
    sends(LOWEST, greatest, 1024, LOWEST);
    stand_in_time = 2000;
    if (apex_record_lost() != 0) {
        exit(1);
    }
}

/* An accepted change of the mode need not return. */
static jmp_buf start_of_process;

static void starts_process(void) { longjmp(start_of_process, 1); }

static void unreturned(void) {
    answer(NO_ERROR, 0, 0, 0);
    stand_in_answer.meanwhile = starts_process;
    if (setjmp(start_of_process) == 0) {
        SET_PARTITION_MODE(NORMAL, &code);
    }
    if (setjmp(start_of_process) == 0) {
        SET_PARTITION_MODE(WARM_START, &code);
    }
    stand_in_answer.meanwhile = NULL;
    clears(1);
    clears(1);
    sets_mode(IDLE);
    apex_record_restarted(COLD_START);
    apex_record_restarted(WARM_START);
    stand_in_answer.meanwhile = starts_process;
    if (setjmp(start_of_process) == 0) {
        SET_PARTITION_MODE(COLD_START, &code);
    }
    apex_record_restarted(COLD_START);
    if (setjmp(start_of_process) == 0) {
        SET_PARTITION_MODE(NORMAL, &code);
    }
    apex_record_restarted(COLD_START);
}

int main(void) {
    memset(greatest, 0xff, sizeof greatest);
    memcpy(out, "\x01\x23\xef", 3);
    answer(NO_ERROR, 0, 0, 0);
    clears(9); /* before there is a sink */
    apex_record_to(sink, &takes);
    ordinary();
    longest();
    comments();
    replies();
    losses();
    unreturned();
    return 0;
}
