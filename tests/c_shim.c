/* c_shim CONFIG CALLS: random calls of apex.h, wrong ones among them, each beside the call of apex_ports.h that it
 * makes, on ports of their own. Both have to give the same, by the rules of docs/C.md. Prints how many calls were
 * made. */
#include "../c/apex.h"
#include "c_test.h"

enum { PARTITIONS = 3, FILL = 0x5a };

static struct apex_handle beside;
static uint32_t partition;
static uint64_t at;
static unsigned long done, null_pointers;

static int32_t any_number(void) {
    static const int32_t numbers[] = {0, 1, 2, 3, 4, 4, 2, 1, -1, INT32_MAX, INT32_MIN, 1024, 1025};
    return numbers[any(sizeof numbers / sizeof *numbers)];
}

static int32_t any_id(void) { return any(3) == 0 ? any_number() : 1 + (int32_t)any(2); }

/* The return code for an answer of apex_ports.h to a call with this time-out. */
static RETURN_CODE_TYPE expected(uint32_t answer, SYSTEM_TIME_TYPE time_out) {
    if (answer == NOT_AVAILABLE && time_out != 0) {
        return TIMED_OUT;
    }
    if (answer == APEX_NOT_MADE) {
        return INVALID_MODE;
    }
    return answer >= APEX_NOT_OPEN ? INVALID_CONFIG : (RETURN_CODE_TYPE)answer;
}

/* What a null place is answered; whether the answer is that. */
static bool is_null_answered(RETURN_CODE_TYPE code) {
    null_pointers++;
    return code == INVALID_PARAM;
}

static void create_or_find(void) {
    static NAME_TYPE names[] = {"NAV_OUT", "NAV_IN", "SPD_IN", "SPD_OUT", "NO_PORT", "",
                                "A.B",     "ABCDEFGHIJKLMNOPQRSTUVWXYZ0123"};
    char *name = names[any(sizeof names / sizeof *names)];
    const uint8_t *bytes = (const uint8_t *)name;
    const size_t length = strnlen(name, MAX_NAME_LENGTH);
    const uint64_t wrong = any(7); /* which parameter is any number; from 5 on, none */
    const bool is_null = any(20) == 0;
    const int32_t size = wrong == 0 ? any_number() : 4, depth = wrong == 1 ? any_number() : 2;
    const uint32_t direction = wrong == 2 ? (uint32_t)any_number() : name[length > 4 ? 4 : 0] == 'I';
    const uint32_t discipline = wrong == 3 ? (uint32_t)any_number() : FIFO;
    const SYSTEM_TIME_TYPE refresh = wrong == 4 ? any_number() : 50;
    int32_t id = 77, *place = is_null ? NULL : &id;
    uint32_t answer = 0, other = 77;
    RETURN_CODE_TYPE code;
    switch (any(4)) {
    case 0:
        CREATE_QUEUING_PORT(name, size, depth, (PORT_DIRECTION_TYPE)direction, (QUEUING_DISCIPLINE_TYPE)discipline,
                            place, &code);
        answer = is_null ? 0 : apex_create_queuing_port(&beside, partition, at, bytes, length, (uint32_t)size,
                                                        (uint32_t)depth, direction, discipline, &other);
        break;
    case 1:
        CREATE_SAMPLING_PORT(name, size, (PORT_DIRECTION_TYPE)direction, refresh, place, &code);
        answer = is_null ? 0 : apex_create_sampling_port(&beside, partition, at, bytes, length, (uint32_t)size,
                                                         direction, (uint64_t)refresh, &other);
        break;
    case 2:
        GET_QUEUING_PORT_ID(name, place, &code);
        answer = is_null ? 0 : apex_get_queuing_port_id(&beside, partition, at, bytes, length, &other);
        break;
    default:
        GET_SAMPLING_PORT_ID(name, place, &code);
        answer = is_null ? 0 : apex_get_sampling_port_id(&beside, partition, at, bytes, length, &other);
    }
    expect(is_null ? is_null_answered(code) : code == expected(answer, 0), "the code of a creation or a search");
    expect((uint32_t)id == other, "the identifier");
    done += code == NO_ERROR;
}

static void send_or_write(void) {
    static uint8_t bytes[2000];
    const int32_t id = any_id();
    const int32_t lengths[] = {1, 2, 4, 4, 5, 0, -1, INT32_MIN, 1024, 1025, 2000};
    const int32_t length = lengths[any(sizeof lengths / sizeof *lengths)];
    const bool is_queuing = any(2) == 0, is_null = any(20) == 0;
    const SYSTEM_TIME_TYPE time_out = any(2) == 0 ? 0 : any(2) == 0 ? INFINITE_TIME_VALUE : 1000;
    uint8_t *address = is_null ? NULL : bytes;
    RETURN_CODE_TYPE code;
    uint32_t answer;
    bytes[0] = (uint8_t)any(256);
    if (is_queuing) {
        SEND_QUEUING_MESSAGE(id, address, length, time_out, &code);
    } else {
        WRITE_SAMPLING_MESSAGE(id, address, length, &code);
    }
    if (is_null) {
        expect(is_null_answered(code), "a message at no address");
        return;
    }
    const size_t count = length < 0 ? 0 : (size_t)length;
    answer = is_queuing ? apex_send_queuing_message(&beside, partition, at, (uint32_t)id, bytes, count)
                        : apex_write_sampling_message(&beside, partition, at, (uint32_t)id, bytes, count);
    expect(code == expected(answer, is_queuing ? time_out : 0), "the code of a send or a write");
    done += code == NO_ERROR;
}

static void receive_or_read(void) {
    static uint8_t bytes[APEX_MESSAGE_LIMIT];
    uint8_t at_address[APEX_MESSAGE_LIMIT];
    const int32_t id = any_id();
    const bool is_queuing = any(2) == 0, is_null = any(20) == 0;
    const SYSTEM_TIME_TYPE time_out = any(2) == 0 ? 0 : any(2) == 0 ? INFINITE_TIME_VALUE : 1000;
    int32_t length = 77;
    uint32_t other_length = 0, other_validity = 0, answer;
    VALIDITY_TYPE validity = VALID;
    RETURN_CODE_TYPE code;
    memset(at_address, FILL, sizeof at_address);
    memset(bytes, FILL, sizeof bytes);
    if (is_queuing) {
        RECEIVE_QUEUING_MESSAGE(id, time_out, at_address, is_null ? NULL : &length, &code);
    } else {
        READ_SAMPLING_MESSAGE(id, at_address, &length, is_null ? NULL : &validity, &code);
    }
    if (is_null) {
        expect(is_null_answered(code) && length == 77 && at_address[0] == FILL, "a length or a validity at no place");
        return;
    }
    answer = is_queuing ? apex_receive_queuing_message(&beside, partition, at, (uint32_t)id, bytes, sizeof bytes,
                                                       &other_length)
                        : apex_read_sampling_message(&beside, partition, at, (uint32_t)id, bytes, sizeof bytes,
                                                     &other_length, &other_validity);
    expect(code == expected(answer, is_queuing ? time_out : 0), "the code of a receive or a read");
    expect((uint32_t)length == other_length, "the length, 0 without a message");
    expect(is_queuing || (uint32_t)validity == other_validity, "the validity, INVALID without a message");
    expect(memcmp(bytes, at_address, sizeof bytes) == 0, "the message, and the bytes behind it as they were");
    done += code == NO_ERROR;
}

static void ask_for_status(void) {
    const int32_t id = any_id();
    QUEUING_PORT_STATUS_TYPE queuing;
    SAMPLING_PORT_STATUS_TYPE sampling;
    struct apex_queuing_port_status other_queuing;
    struct apex_sampling_port_status other_sampling;
    RETURN_CODE_TYPE code;
    uint32_t answer;
    if (any(2) == 0) {
        GET_QUEUING_PORT_STATUS(id, &queuing, &code);
        answer = apex_get_queuing_port_status(&beside, partition, at, (uint32_t)id, &other_queuing);
        expect(answer != 0 || ((uint32_t)queuing.NB_MESSAGE == other_queuing.waiting &&
                               (uint32_t)queuing.MAX_NB_MESSAGE == other_queuing.depth &&
                               (uint32_t)queuing.MAX_MESSAGE_SIZE == other_queuing.size &&
                               (uint32_t)queuing.PORT_DIRECTION == other_queuing.direction &&
                               queuing.WAITING_PROCESSES == 0),
               "the status of a queuing port");
    } else {
        GET_SAMPLING_PORT_STATUS(id, &sampling, &code);
        answer = apex_get_sampling_port_status(&beside, partition, at, (uint32_t)id, &other_sampling);
        expect(answer != 0 || ((uint64_t)sampling.REFRESH_PERIOD == other_sampling.refresh &&
                               (uint32_t)sampling.MAX_MESSAGE_SIZE == other_sampling.size &&
                               (uint32_t)sampling.PORT_DIRECTION == other_sampling.direction &&
                               (uint32_t)sampling.LAST_MSG_VALIDITY == other_sampling.last_validity),
               "the status of a sampling port");
    }
    expect(code == expected(answer, 0), "the code of a status");
    done += code == NO_ERROR;
}

static void clear_or_set_mode(void) {
    RETURN_CODE_TYPE code;
    uint32_t answer;
    const int32_t number = any_number();
    if (any(10) > 0) {
        CLEAR_QUEUING_PORT(number, &code);
        answer = apex_clear_queuing_port(&beside, partition, at, (uint32_t)number);
    } else {
        SET_PARTITION_MODE((OPERATING_MODE_TYPE)number, &code);
        answer = apex_set_partition_mode(&beside, partition, at, (uint32_t)number);
    }
    expect(code == expected(answer, 0), "the code of a clear or a mode");
    done += code == NO_ERROR;
}

static void (*const services[])(void) = {create_or_find,  create_or_find, send_or_write,
                                         receive_or_read, ask_for_status, clear_or_set_mode};

/* Nothing is done, and nothing is written, if there is no place for the return code. */
static void call_without_code(void) {
    NAME_TYPE name = "NAV_OUT";
    int32_t id = 77;
    uint8_t message[APEX_MESSAGE_LIMIT];
    VALIDITY_TYPE validity;
    QUEUING_PORT_STATUS_TYPE queuing;
    SAMPLING_PORT_STATUS_TYPE sampling;
    CREATE_QUEUING_PORT(name, 4, 2, SOURCE, FIFO, &id, NULL);
    CREATE_SAMPLING_PORT(name, 4, SOURCE, 50, &id, NULL);
    GET_QUEUING_PORT_ID(name, &id, NULL);
    GET_SAMPLING_PORT_ID(name, &id, NULL);
    SEND_QUEUING_MESSAGE(1, message, 4, 0, NULL);
    WRITE_SAMPLING_MESSAGE(1, message, 4, NULL);
    RECEIVE_QUEUING_MESSAGE(1, 0, message, &id, NULL);
    READ_SAMPLING_MESSAGE(1, message, &id, &validity, NULL);
    GET_QUEUING_PORT_STATUS(1, &queuing, NULL);
    GET_SAMPLING_PORT_STATUS(1, &sampling, NULL);
    CLEAR_QUEUING_PORT(1, NULL);
    SET_PARTITION_MODE(NORMAL, NULL);
    null_pointers += 12;
    expect(id == 77, "a call without a place for its code");
}

/* Creates the ports of the examples' configurations, through both. */
static void create_ports(void) {
    static NAME_TYPE names[] = {"NAV_OUT", "NAV_IN", "SPD_OUT", "SPD_IN"};
    for (partition = 0; partition < PARTITIONS; partition++) {
        bench_set_partition(partition);
        for (uint32_t i = 0; i < 4; i++) {
            const uint8_t *name = (const uint8_t *)names[i];
            int32_t id = 77;
            uint32_t other = 77;
            RETURN_CODE_TYPE code;
            CREATE_QUEUING_PORT(names[i], 4, 2, i % 2 == 0 ? SOURCE : DESTINATION, PRIORITY, &id, &code);
            uint32_t answer = apex_create_queuing_port(&beside, partition, at, name, strlen(names[i]), 4, 2, i % 2, 1,
                                                       &other);
            expect(code == expected(answer, 0) && (uint32_t)id == other, "the creation of a queuing port");
            CREATE_SAMPLING_PORT(names[i], 4, i % 2 == 0 ? SOURCE : DESTINATION, 50, &id, &code);
            answer = apex_create_sampling_port(&beside, partition, at, name, strlen(names[i]), 4, i % 2, 50, &other);
            expect(code == expected(answer, 0) && (uint32_t)id == other, "the creation of a sampling port");
        }
    }
}

static bool are_counts_same(void) {
    uint64_t count = 0, other = 0;
    apex_call_count(bench_take_handle(), partition, &count);
    bench_give_handle_back();
    apex_call_count(&beside, partition, &other);
    return count == other;
}

int main(int count, char **words) {
    static char text[65536];
    expect(count == 3, "usage: c_shim CONFIG CALLS");
    const size_t length = read_config(words[1], text, sizeof text);
    RETURN_CODE_TYPE code = NO_ERROR;
    SET_PARTITION_MODE(NORMAL, &code);
    expect(code == INVALID_CONFIG, "a call before the module is open");
    expect(bench_close() == APEX_NOT_OPEN && bench_open(NULL, 9) == 1, "closing first, opening with no text");
    const long calls = atol(words[2]);
    for (long i = 0; i < calls; i++) {
        if (i % 200 == 0) { /* (a partition in IDLE stays there) */
            expect(bench_close() == (i == 0 ? APEX_NOT_OPEN : 0), "closing");
            expect(apex_close(&beside) == (i == 0 ? APEX_NOT_OPEN : 0), "closing beside");
            expect(bench_open(text, length) == 0 && apex_open(&beside, (uint8_t *)text, length) == 0, "opening");
            expect(bench_open(text, length) == APEX_ALREADY_OPEN, "opening twice");
            if (i % 400 == 0) {
                create_ports();
            }
        }
        partition = any(30) == 0 ? PARTITIONS + (uint32_t)any(30) : (uint32_t)any(PARTITIONS);
        bench_set_partition(partition);
        bench_set_moment(at = any(200));
        services[any(sizeof services / sizeof *services)]();
        if (i % 100 == 0) {
            call_without_code();
        }
        expect(are_counts_same(), "as many calls are counted");
    }
    expect(bench_close() == 0 && apex_close(&beside) == 0, "closing at the end");
    printf("%ld calls, %lu with NO_ERROR, %lu null pointers\n", calls, done, null_pointers);
    return 0;
}
