/* The recorder of apex_record.h. C99 without a library: no allocation, no input or output, no floating point, and no
 * division, so that a target of 32 bits needs nothing of its compiler's library either. */
#ifdef APEX_RECORD_HEADERS
#include APEX_RECORD_HEADERS
#else
#include "arinc653/partition.h"
#include "arinc653/queuing.h"
#include "arinc653/sampling.h"
#include "arinc653/time.h"
#endif

#if defined APEX_RECORD_H && !defined APEX_RECORD_NO_MACROS
#error "apex_record.c calls the services by their own names: compile it without apex_record.h in front of it"
#endif
#undef APEX_RECORD_NO_MACROS
#define APEX_RECORD_NO_MACROS
#include "apex_record.h"

#ifdef APEX_RECORD_WRAP
#define RECORDED(service) __wrap_##service
#define PASSED_ON(service) __real_##service
APEX_RECORD_SERVICES(RECORDED);
APEX_RECORD_SERVICES(PASSED_ON);
#else
#define RECORDED(service) APEX_RECORD_RECORDED(service)
#define PASSED_ON(service) service
#endif

/* What two processes may change at once is an uint32_t, which these change in one step. An integrator whose compiler
 * lacks such functions gives both, or does without: then a count of lost lines may be wrong if two are lost at once. */
#ifndef APEX_RECORD_EXCHANGE
#if defined __GCC_ATOMIC_INT_LOCK_FREE && __GCC_ATOMIC_INT_LOCK_FREE == 2
#define APEX_RECORD_EXCHANGE(place, value) __atomic_exchange_n(place, value, __ATOMIC_ACQ_REL)
#define APEX_RECORD_ADD(place, value) __atomic_add_fetch(place, value, __ATOMIC_ACQ_REL)
#else
#define APEX_RECORD_EXCHANGE(place, value) exchange(place, value)
#define APEX_RECORD_ADD(place, value) (*(place) += (value))

static uint32_t exchange(uint32_t *place, uint32_t value) {
    const uint32_t before = *place;
    *place = value;
    return before;
}
#endif
#endif

/* What a log can have. */
enum { NAME_BYTES = 30, MESSAGE_BYTES = 1024 };

/* A line in its place, and in front of it room for what is known only when the call has returned. LINE_BYTES is enough
 * for the longest lines, which are listed below without their messages. */
#define LONGEST_LOST "# 4294967295 lines before this one were not taken\n"
#define LONGEST_MOMENT "# 9223372036854775807"
enum { FRONT_BYTES = sizeof LONGEST_LOST - 1 + sizeof LONGEST_MOMENT - 1, LINE_BYTES = 2160 };

#define AN_INTEGER " -9223372036854775808"
#define A_CODE " -> not made (return code" AN_INTEGER ")"
#define HAS_ROOM(name, form, message) typedef char name[sizeof(form) - 1 + 2 * (message) <= LINE_BYTES ? 1 : -1]
HAS_ROOM(room_to_send, " write" AN_INTEGER "  timeout" AN_INTEGER A_CODE "\n", MESSAGE_BYTES);
HAS_ROOM(room_to_receive, " receive" AN_INTEGER " timeout" AN_INTEGER " -> NO_ERROR message  INVALID\n", MESSAGE_BYTES);
HAS_ROOM(room_to_create, " create-queuing " AN_INTEGER AN_INTEGER AN_INTEGER AN_INTEGER A_CODE "\n", 2 * NAME_BYTES);
HAS_ROOM(room_for_status, " sampling-status" AN_INTEGER " -> NO_ERROR waiting" AN_INTEGER " depth" AN_INTEGER " size"
         AN_INTEGER " DESTINATION processes 0 (WAITING_PROCESSES" AN_INTEGER ")\n", 0);

struct text {
    size_t at;
    int is_unsaid; /* whether the call has what no log can have, so that its line is a comment */
    char bytes[FRONT_BYTES + LINE_BYTES];
};

/* The recorder of this partition: its sink, how many lines were not taken, and a SET_PARTITION_MODE that hasn't
 * returned, with its mode and moment. */
static apex_record_sink sink;
static void *sink_context;
static uint32_t lost;
static uint32_t is_unreturned, unreturned_mode;
static uint64_t unreturned_at;

#ifdef APEX_RECORD_CLOCK
SYSTEM_TIME_TYPE APEX_RECORD_CLOCK(void);
#endif

static uint64_t moment(void) {
#ifdef APEX_RECORD_CLOCK
    const SYSTEM_TIME_TYPE time = APEX_RECORD_CLOCK();
#else
    SYSTEM_TIME_TYPE time = 0;
    RETURN_CODE_TYPE code = NO_ERROR;
    GET_TIME(&time, &code);
#endif
    return time < 0 ? 0 : (uint64_t)time;
}

static void put(struct text *text, char byte) { text->bytes[text->at++] = byte; }

static void put_text(struct text *text, const char *words) {
    while (*words != '\0') {
        put(text, *words++);
    }
}

static void put_number(struct text *text, uint64_t number) {
    static const uint64_t powers[] = {
        10000000000000000000u, 1000000000000000000u, 100000000000000000u, 10000000000000000u, 1000000000000000u,
        100000000000000u, 10000000000000u, 1000000000000u, 100000000000u, 10000000000u, 1000000000u, 100000000u,
        10000000u, 1000000u, 100000u, 10000u, 1000u, 100u, 10u, 1u};
    int is_begun = 0;
    for (size_t i = 0; i < sizeof powers / sizeof *powers; i++) {
        char digit = '0';
        for (; number >= powers[i]; number -= powers[i]) {
            digit++;
        }
        is_begun = is_begun || digit != '0' || powers[i] == 1;
        if (is_begun) {
            put(text, digit);
        }
    }
}

static void put_signed(struct text *text, int64_t number) {
    if (number < 0) {
        put(text, '-');
    }
    put_number(text, number < 0 ? 0 - (uint64_t)number : (uint64_t)number);
}

/* Whether a log has the number of an integer. A negative one is written as the unsigned number of the same 32 bits. */
static int is_said(int64_t number) { return number >= INT32_MIN && number <= (int64_t)UINT32_MAX; }

static void put_integer(struct text *text, int64_t number) {
    put(text, ' ');
    put_signed(text, is_said(number) ? (int64_t)(uint32_t)number : number);
    text->is_unsaid |= !is_said(number);
}

static void put_hex(struct text *text, unsigned byte) {
    static const char digits[] = "0123456789abcdef";
    put(text, digits[byte >> 4 & 15]);
    put(text, digits[byte & 15]);
}

static int is_of_name(char byte) {
    return (byte >= '0' && byte <= '9') || (byte >= 'A' && byte <= 'Z') || (byte >= 'a' && byte <= 'z') || byte == '_';
}

/* Writes at most 30 bytes of a name that no log can have; bytes that no name has, by their numbers. */
static void put_name(struct text *text, const char *name) {
    size_t length = 0;
    put(text, ' ');
    for (; name != NULL && length < MAX_NAME_LENGTH && name[length] != '\0'; length++) {
        if (length == NAME_BYTES) {
            text->is_unsaid = 1;
            return;
        }
        if (is_of_name(name[length])) {
            put(text, name[length]);
        } else {
            text->is_unsaid = 1;
            put_text(text, "\\x");
            put_hex(text, (unsigned char)name[length]);
        }
    }
    text->is_unsaid |= length == 0;
}

static void put_bytes(struct text *text, const unsigned char *bytes, int64_t length) {
    put(text, ' ');
    if (length <= 0) {
        put(text, '-');
    }
    for (int64_t i = 0; i < length; i++) {
        put_hex(text, bytes[i]);
    }
}

static int is_message(const void *bytes, int64_t length) {
    return length <= 0 || (bytes != NULL && length <= MESSAGE_BYTES);
}

/* A message on its way in. One of a negative length is written as one of length 0. */
static void put_message(struct text *text, const void *bytes, int64_t length) {
    if (is_message(bytes, length)) {
        put_bytes(text, bytes, length);
    } else {
        text->is_unsaid = 1;
        put_text(text, bytes == NULL ? " no address, length " : " length ");
        put_signed(text, length);
    }
}

/* No log has a negative time-out but the infinite one. */
static void put_time_out(struct text *text, int64_t time_out) {
    put_text(text, time_out == 0 ? "" : time_out == INFINITE_TIME_VALUE ? " timeout infinite" : " timeout ");
    if (time_out != 0 && time_out != INFINITE_TIME_VALUE) {
        put_signed(text, time_out);
        text->is_unsaid |= time_out < 0;
    }
}

/* Words, or null if the standard has none. */
static const char *code_word(RETURN_CODE_TYPE code) {
    return code == NO_ERROR         ? "NO_ERROR"
           : code == NO_ACTION      ? "NO_ACTION"
           : code == NOT_AVAILABLE  ? "NOT_AVAILABLE"
           : code == INVALID_PARAM  ? "INVALID_PARAM"
           : code == INVALID_CONFIG ? "INVALID_CONFIG"
           : code == INVALID_MODE   ? "INVALID_MODE"
           : code == TIMED_OUT      ? "TIMED_OUT"
                                    : NULL;
}

static const char *direction_word(PORT_DIRECTION_TYPE direction) {
    return direction == SOURCE ? " SOURCE" : direction == DESTINATION ? " DESTINATION" : NULL;
}

static const char *validity_word(VALIDITY_TYPE validity) {
    return validity == VALID ? " VALID" : validity == INVALID ? " INVALID" : NULL;
}

static void put_value(struct text *text, const char *word, int64_t number) {
    put_text(text, word);
    put_integer(text, number);
}

/* A note of a number, if that isn't 0. */
static void put_note(struct text *text, const char *words, int64_t number) {
    if (number != 0) {
        put_text(text, " (");
        put_text(text, words);
        put(text, ' ');
        put_signed(text, number);
        put(text, ')');
    }
}

/* Puts the return code, and answers whether it is NO_ERROR. One that the standard doesn't have becomes a reply that
 * departs, and a note. */
static int put_code(struct text *text, const RETURN_CODE_TYPE *code) {
    put_text(text, " -> ");
    if (code == NULL) {
        text->is_unsaid = 1;
        put_text(text, "no place for a return code");
        return 0;
    }
    const char *word = code_word(*code);
    put_text(text, word != NULL ? word : "not made");
    if (word == NULL) {
        put_note(text, "return code", (int64_t)*code);
    }
    return *code == NO_ERROR;
}

/* Instead of values that no log can have. Then NO_ERROR has no values, which departs. */
#define LEFT_OUT " (its values fit no log)"

/* The value of a place, which the system has filled if it answered NO_ERROR. */
#define FILLED(code, place) ((code) != NULL && *(code) == NO_ERROR && (place) != NULL ? *(place) : 0)

static void put_code_and_id(struct text *text, const RETURN_CODE_TYPE *code, int is_there, int64_t id) {
    if (!put_code(text, code)) {
        return;
    }
    if (is_there && is_said(id)) {
        put_value(text, " id", id);
    } else {
        put_text(text, LEFT_OUT);
    }
}

static void put_received(struct text *text, const void *bytes, const MESSAGE_SIZE_TYPE *length, const char *validity) {
    if (length == NULL || *length < 0 || !is_message(bytes, *length) || validity == NULL) {
        put_text(text, LEFT_OUT);
        return;
    }
    put_text(text, " message");
    put_bytes(text, bytes, *length);
    put_text(text, validity);
}

static void start(struct text *line, const char *call) {
    line->at = FRONT_BYTES;
    line->is_unsaid = 0;
    put(line, ' ');
    put_text(line, call);
}

/* Hands the line to the sink, after a comment with the number of lost lines. */
static void hand_on(struct text *line, uint64_t at) {
    const uint32_t before = APEX_RECORD_EXCHANGE(&lost, 0);
    put(line, '\n');
    const size_t past = line->at;
    line->at = 0;
    if (before != 0) {
        put_text(line, "# ");
        put_number(line, before);
        put_text(line, before == 1 ? " line before this one was" : " lines before this one were");
        put_text(line, " not taken\n");
    }
    put_text(line, line->is_unsaid ? "# " : "");
    put_number(line, at);
    const size_t from = FRONT_BYTES - line->at;
    for (size_t i = line->at; i > 0; i--) {
        line->bytes[from + i - 1] = line->bytes[i - 1];
    }
    if (sink == NULL || !sink(sink_context, line->bytes + from, past - from)) {
        APEX_RECORD_ADD(&lost, before + 1);
    }
}

/* Begins the line of a call. A SET_PARTITION_MODE that has not returned was accepted, and comes first. */
static void begin(struct text *line, const char *call) {
    if (APEX_RECORD_EXCHANGE(&is_unreturned, 0)) {
        start(line, "mode");
        put_integer(line, unreturned_mode);
        put_text(line, " -> NO_ERROR (it did not return)");
        hand_on(line, unreturned_at);
    }
    start(line, call);
}

static void end(struct text *line) { hand_on(line, moment()); }

void apex_record_to(apex_record_sink to, void *context) {
    sink_context = context;
    sink = to;
}

uint32_t apex_record_lost(void) { return APEX_RECORD_ADD(&lost, 0); }

/* A restart has the effect of an accepted SET_PARTITION_MODE, and is written as one. WARM_START isn't accepted in
 * COLD_START, where the log may have the partition. */
void apex_record_restarted(OPERATING_MODE_TYPE mode) {
    const OPERATING_MODE_TYPE steps[] = {COLD_START, NORMAL, WARM_START};
    if (unreturned_mode == (uint32_t)mode) {
        APEX_RECORD_EXCHANGE(&is_unreturned, 0);
    }
    for (size_t i = 0; i < (mode == WARM_START ? 3u : 1u); i++) {
        struct text line;
        begin(&line, "mode");
        put_integer(&line, (int64_t)steps[i]);
        put_text(&line, " -> NO_ERROR (restarted)");
        end(&line);
    }
}

void RECORDED(CREATE_SAMPLING_PORT)(SAMPLING_PORT_NAME_TYPE name, MESSAGE_SIZE_TYPE size, PORT_DIRECTION_TYPE direction,
                                    SYSTEM_TIME_TYPE refresh, SAMPLING_PORT_ID_TYPE *id, RETURN_CODE_TYPE *code) {
    struct text line;
    begin(&line, "create-sampling");
    put_name(&line, name);
    put_integer(&line, size);
    put_integer(&line, (int64_t)direction);
    put(&line, ' ');
    put_signed(&line, refresh);
    line.is_unsaid |= refresh < 0;
    PASSED_ON(CREATE_SAMPLING_PORT)(name, size, direction, refresh, id, code);
    put_code_and_id(&line, code, id != NULL, FILLED(code, id));
    end(&line);
}

void RECORDED(WRITE_SAMPLING_MESSAGE)(SAMPLING_PORT_ID_TYPE id, MESSAGE_ADDR_TYPE message, MESSAGE_SIZE_TYPE length,
                                      RETURN_CODE_TYPE *code) {
    struct text line;
    begin(&line, "write");
    put_integer(&line, id);
    put_message(&line, message, length);
    PASSED_ON(WRITE_SAMPLING_MESSAGE)(id, message, length, code);
    put_code(&line, code);
    end(&line);
}

void RECORDED(READ_SAMPLING_MESSAGE)(SAMPLING_PORT_ID_TYPE id, MESSAGE_ADDR_TYPE message, MESSAGE_SIZE_TYPE *length,
                                     VALIDITY_TYPE *validity, RETURN_CODE_TYPE *code) {
    struct text line;
    begin(&line, "read");
    put_integer(&line, id);
    PASSED_ON(READ_SAMPLING_MESSAGE)(id, message, length, validity, code);
    if (put_code(&line, code)) {
        put_received(&line, message, length, validity == NULL ? NULL : validity_word(*validity));
    }
    end(&line);
}

void RECORDED(GET_SAMPLING_PORT_ID)(SAMPLING_PORT_NAME_TYPE name, SAMPLING_PORT_ID_TYPE *id, RETURN_CODE_TYPE *code) {
    struct text line;
    begin(&line, "sampling-id");
    put_name(&line, name);
    PASSED_ON(GET_SAMPLING_PORT_ID)(name, id, code);
    put_code_and_id(&line, code, id != NULL, FILLED(code, id));
    end(&line);
}

static void put_sampling_status(struct text *line, const SAMPLING_PORT_STATUS_TYPE *status) {
    const char *direction = status == NULL ? NULL : direction_word(status->PORT_DIRECTION);
    const char *validity = status == NULL ? NULL : validity_word(status->LAST_MSG_VALIDITY);
    if (direction == NULL || validity == NULL || !is_said(status->MAX_MESSAGE_SIZE)) {
        put_text(line, LEFT_OUT);
        return;
    }
    put_text(line, " refresh ");
    put_number(line, (uint64_t)status->REFRESH_PERIOD);
    put_value(line, " size", status->MAX_MESSAGE_SIZE);
    put_text(line, direction);
    put_text(line, " last");
    put_text(line, validity);
}

void RECORDED(GET_SAMPLING_PORT_STATUS)(SAMPLING_PORT_ID_TYPE id, SAMPLING_PORT_STATUS_TYPE *status,
                                        RETURN_CODE_TYPE *code) {
    struct text line;
    begin(&line, "sampling-status");
    put_integer(&line, id);
    PASSED_ON(GET_SAMPLING_PORT_STATUS)(id, status, code);
    if (put_code(&line, code)) {
        put_sampling_status(&line, status);
    }
    end(&line);
}

void RECORDED(CREATE_QUEUING_PORT)(QUEUING_PORT_NAME_TYPE name, MESSAGE_SIZE_TYPE size, MESSAGE_RANGE_TYPE depth,
                                   PORT_DIRECTION_TYPE direction, QUEUING_DISCIPLINE_TYPE discipline,
                                   QUEUING_PORT_ID_TYPE *id, RETURN_CODE_TYPE *code) {
    struct text line;
    begin(&line, "create-queuing");
    put_name(&line, name);
    put_integer(&line, size);
    put_integer(&line, depth);
    put_integer(&line, (int64_t)direction);
    put_integer(&line, (int64_t)discipline);
    PASSED_ON(CREATE_QUEUING_PORT)(name, size, depth, direction, discipline, id, code);
    put_code_and_id(&line, code, id != NULL, FILLED(code, id));
    end(&line);
}

void RECORDED(SEND_QUEUING_MESSAGE)(QUEUING_PORT_ID_TYPE id, MESSAGE_ADDR_TYPE message, MESSAGE_SIZE_TYPE length,
                                    SYSTEM_TIME_TYPE time_out, RETURN_CODE_TYPE *code) {
    struct text line;
    begin(&line, "send");
    put_integer(&line, id);
    put_message(&line, message, length);
    put_time_out(&line, time_out);
    PASSED_ON(SEND_QUEUING_MESSAGE)(id, message, length, time_out, code);
    put_code(&line, code);
    end(&line);
}

void RECORDED(RECEIVE_QUEUING_MESSAGE)(QUEUING_PORT_ID_TYPE id, SYSTEM_TIME_TYPE time_out, MESSAGE_ADDR_TYPE message,
                                       MESSAGE_SIZE_TYPE *length, RETURN_CODE_TYPE *code) {
    struct text line;
    begin(&line, "receive");
    put_integer(&line, id);
    put_time_out(&line, time_out);
    PASSED_ON(RECEIVE_QUEUING_MESSAGE)(id, time_out, message, length, code);
    if (put_code(&line, code)) {
        put_received(&line, message, length, "");
    }
    end(&line);
}

void RECORDED(GET_QUEUING_PORT_ID)(QUEUING_PORT_NAME_TYPE name, QUEUING_PORT_ID_TYPE *id, RETURN_CODE_TYPE *code) {
    struct text line;
    begin(&line, "queuing-id");
    put_name(&line, name);
    PASSED_ON(GET_QUEUING_PORT_ID)(name, id, code);
    put_code_and_id(&line, code, id != NULL, FILLED(code, id));
    end(&line);
}

/* A log has no waiting processes, so a note says how many there are. */
static void put_queuing_status(struct text *line, const QUEUING_PORT_STATUS_TYPE *status) {
    const char *direction = status == NULL ? NULL : direction_word(status->PORT_DIRECTION);
    if (direction == NULL || !is_said(status->NB_MESSAGE) || !is_said(status->MAX_NB_MESSAGE) ||
        !is_said(status->MAX_MESSAGE_SIZE)) {
        put_text(line, LEFT_OUT);
        return;
    }
    put_value(line, " waiting", status->NB_MESSAGE);
    put_value(line, " depth", status->MAX_NB_MESSAGE);
    put_value(line, " size", status->MAX_MESSAGE_SIZE);
    put_text(line, direction);
    put_text(line, " processes 0");
    put_note(line, "WAITING_PROCESSES", status->WAITING_PROCESSES);
}

void RECORDED(GET_QUEUING_PORT_STATUS)(QUEUING_PORT_ID_TYPE id, QUEUING_PORT_STATUS_TYPE *status,
                                       RETURN_CODE_TYPE *code) {
    struct text line;
    begin(&line, "queuing-status");
    put_integer(&line, id);
    PASSED_ON(GET_QUEUING_PORT_STATUS)(id, status, code);
    if (put_code(&line, code)) {
        put_queuing_status(&line, status);
    }
    end(&line);
}

void RECORDED(CLEAR_QUEUING_PORT)(QUEUING_PORT_ID_TYPE id, RETURN_CODE_TYPE *code) {
    struct text line;
    begin(&line, "clear");
    put_integer(&line, id);
    PASSED_ON(CLEAR_QUEUING_PORT)(id, code);
    put_code(&line, code);
    end(&line);
}

void RECORDED(SET_PARTITION_MODE)(OPERATING_MODE_TYPE mode, RETURN_CODE_TYPE *code) {
    struct text line;
    begin(&line, "mode");
    put_integer(&line, (int64_t)mode);
    unreturned_mode = (uint32_t)mode;
    unreturned_at = moment();
    APEX_RECORD_EXCHANGE(&is_unreturned, 1);
    PASSED_ON(SET_PARTITION_MODE)(mode, code);
    APEX_RECORD_EXCHANGE(&is_unreturned, 0);
    put_code(&line, code);
    end(&line);
}
