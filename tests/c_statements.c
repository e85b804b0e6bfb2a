/* c_statements: each service of apex.h over exports that only note what they are given (c_noted.h): every parameter,
 * every place, every answer, every null pointer, the time-outs, the lock and the moment, by the rules of docs/C.md.
 * Prints how many calls were made. */
#include "c_noted.h"
#include "c_test.h"

#include <pthread.h>

enum { SERVICES = 12, FILL = 0x5a, BYTES = 3000, MINE = 21 };
enum { CREATE_S, WRITE, READ, ID_S, STATUS_S, CREATE_Q, SEND, RECEIVE, ID_Q, STATUS_Q, CLEAR, MODE };

static const char *const names[SERVICES] = {"create-sampling", "write",   "read",       "sampling-id",
                                            "sampling-status", "create-queuing", "send", "receive",
                                            "queuing-id",      "queuing-status", "clear", "mode"};
static const uint32_t answers[] = {0, 1, 2, 3, 4, 5, 7, 8, 9, 11};
static unsigned long made;

/* What a call is given: its parameters, and the places that it has, null ones among them. */
struct given {
    char *name;
    APEX_BYTE *message;
    int32_t number, depth, length;
    uint32_t direction, discipline;
    SYSTEM_TIME_TYPE time;
    int32_t *place;
    VALIDITY_TYPE *validity;
    SAMPLING_PORT_STATUS_TYPE *sampling;
    QUEUING_PORT_STATUS_TYPE *queuing;
    RETURN_CODE_TYPE *code;
};

/* The places that a call may write. */
struct places {
    APEX_BYTE message[BYTES];
    int32_t number;
    VALIDITY_TYPE validity;
    SAMPLING_PORT_STATUS_TYPE sampling;
    QUEUING_PORT_STATUS_TYPE queuing;
    RETURN_CODE_TYPE code;
};

static char name[64] = "NAV_OUT";
static struct places places, before;

static struct given ample(void) {
    memset(&places, FILL, sizeof places);
    memcpy(&before, &places, sizeof places);
    noted_count = locks = reads_of_clock = 0;
    return (struct given){name, places.message, 11, 12, 13, 14, 15, (SYSTEM_TIME_TYPE)3 << 40, &places.number,
                          &places.validity, &places.sampling, &places.queuing, &places.code};
}

static void call(int service, const struct given *g) {
    const PORT_DIRECTION_TYPE direction = (PORT_DIRECTION_TYPE)g->direction;
    made++;
    switch (service) {
    case CREATE_S: CREATE_SAMPLING_PORT(g->name, g->number, direction, g->time, g->place, g->code); break;
    case WRITE: WRITE_SAMPLING_MESSAGE(g->number, g->message, g->length, g->code); break;
    case READ: READ_SAMPLING_MESSAGE(g->number, g->message, g->place, g->validity, g->code); break;
    case ID_S: GET_SAMPLING_PORT_ID(g->name, g->place, g->code); break;
    case STATUS_S: GET_SAMPLING_PORT_STATUS(g->number, g->sampling, g->code); break;
    case CREATE_Q:
        CREATE_QUEUING_PORT(g->name, g->number, g->depth, direction, (QUEUING_DISCIPLINE_TYPE)g->discipline, g->place,
                            g->code);
        break;
    case SEND: SEND_QUEUING_MESSAGE(g->number, g->message, g->length, g->time, g->code); break;
    case RECEIVE: RECEIVE_QUEUING_MESSAGE(g->number, g->time, g->message, g->place, g->code); break;
    case ID_Q: GET_QUEUING_PORT_ID(g->name, g->place, g->code); break;
    case STATUS_Q: GET_QUEUING_PORT_STATUS(g->number, g->queuing, g->code); break;
    case CLEAR: CLEAR_QUEUING_PORT(g->number, g->code); break;
    default: SET_PARTITION_MODE((OPERATING_MODE_TYPE)g->number, g->code);
    }
}

static bool is_of_name(int service) {
    return service == CREATE_S || service == CREATE_Q || service == ID_S || service == ID_Q;
}
static bool takes_message(int service) { return service == READ || service == RECEIVE; }
static bool gives_message(int service) { return service == WRITE || service == SEND; }
static bool is_timed(int service) { return service == SEND || service == RECEIVE; }

static RETURN_CODE_TYPE code_of(uint32_t answer, bool has_time_out) {
    static const RETURN_CODE_TYPE codes[] = {NO_ERROR,       NO_ACTION,    NOT_AVAILABLE, INVALID_PARAM,
                                             INVALID_CONFIG, INVALID_MODE, TIMED_OUT,     INVALID_MODE,
                                             INVALID_CONFIG, INVALID_CONFIG};
    return answer == 2 && has_time_out ? TIMED_OUT : answer == 11 ? INVALID_CONFIG : codes[answer];
}

/* The places are as they were, but for what the answer gives there. */
static void check_places(int service, uint32_t answer, const struct given *g, bool has_time_out) {
    struct places wanted = before;
    const bool is_served = answer == 0;
    if (takes_message(service)) {
        wanted.number = is_served ? GIVEN_LENGTH : 0;
        memcpy(wanted.message, is_served ? given_message : before.message, GIVEN_LENGTH);
        wanted.validity = service == RECEIVE ? before.validity
                                             : is_served ? (VALIDITY_TYPE)GIVEN_VALIDITY : INVALID;
    } else if (is_served && is_of_name(service)) {
        wanted.number = GIVEN_ID;
    }
    if (is_served && service == STATUS_S) {
        wanted.sampling.REFRESH_PERIOD = (SYSTEM_TIME_TYPE)GIVEN_REFRESH;
        wanted.sampling.MAX_MESSAGE_SIZE = GIVEN_SIZE;
        wanted.sampling.PORT_DIRECTION = (PORT_DIRECTION_TYPE)GIVEN_DIRECTION;
        wanted.sampling.LAST_MSG_VALIDITY = (VALIDITY_TYPE)GIVEN_VALIDITY;
    }
    if (is_served && service == STATUS_Q) {
        wanted.queuing = (QUEUING_PORT_STATUS_TYPE){GIVEN_WAITING, GIVEN_DEPTH, GIVEN_SIZE,
                                                    (PORT_DIRECTION_TYPE)GIVEN_DIRECTION, 0};
    }
    if (g->code != NULL) {
        wanted.code = code_of(answer, has_time_out && is_timed(service));
        expect(places.code == wanted.code, "the return code");
    }
    expect(memcmp(&places, &wanted, sizeof wanted) == 0, "the places that a call writes, and no others");
}

/* The first call that was noted has each parameter in its place. */
static void check_parameters(int service, const struct given *g, uint64_t at) {
    const struct noted *first = &noted[0];
    const uint64_t number = (uint32_t)g->number;
    uint64_t wanted[4] = {number, 0, 0, 0};
    expect(strcmp(first->service, names[service]) == 0, "the export that the service stands for");
    expect(first->partition == MINE && first->at == at, "the partition and the moment");
    if (service == CREATE_S) {
        wanted[1] = g->direction;
        wanted[2] = (uint64_t)g->time;
    } else if (service == CREATE_Q) {
        wanted[1] = (uint32_t)g->depth;
        wanted[2] = g->direction;
        wanted[3] = g->discipline;
    } else if (service == ID_S || service == ID_Q) {
        wanted[0] = 0;
    }
    expect(memcmp(first->numbers, wanted, sizeof wanted) == 0, "the numbers in their order");
    if (is_of_name(service)) {
        const size_t length = strlen(g->name) < MAX_NAME_LENGTH ? strlen(g->name) : MAX_NAME_LENGTH;
        expect(first->length == length && memcmp(first->text, g->name, length) == 0, "the name and its length");
    }
    if (gives_message(service)) {
        expect(first->address == g->message, "the message's address");
        expect(first->length == (g->length < 0 ? 0 : (size_t)g->length), "the message's length");
    }
    expect(locks == 1 && held == 0, "the lock is taken once and given back");
}

static void call_and_check(int service, const struct given *g, uint32_t answer, uint64_t at) {
    answer_now = answer;
    call(service, g);
    expect(noted_count == 1, "one call of an export");
    check_parameters(service, g, at);
    check_places(service, answer, g, g->time != 0);
}

/* Every answer with every time-out, at a moment that was set and at the clock's. */
static void every_answer(int service) {
    const SYSTEM_TIME_TYPE times[] = {0, 1, INFINITE_TIME_VALUE, INT64_MAX, INT64_MIN, (SYSTEM_TIME_TYPE)3 << 40};
    for (size_t i = 0; i < sizeof answers / sizeof *answers; i++) {
        for (size_t t = 0; t < sizeof times / sizeof *times; t++) {
            struct given g = ample();
            g.time = times[t];
            bench_set_moment(((uint64_t)1 << 63) + i);
            locks = 0;
            call_and_check(service, &g, answers[i], ((uint64_t)1 << 63) + i);
            expect(reads_of_clock == 0, "a moment that is set is not the clock's");
            bench_follow_clock();
            g = ample();
            g.time = times[t];
            call_and_check(service, &g, answers[i], next_moment());
            expect(reads_of_clock == 1, "the moment is taken once");
        }
    }
}

/* The ends of each number, and names and messages of every length. */
static void every_parameter(int service) {
    const int32_t ends[] = {0, 1, -1, INT32_MAX, INT32_MIN, 1024, 1025, 2999};
    bench_set_moment(70);
    for (size_t i = 0; i < sizeof ends / sizeof *ends; i++) {
        struct given g = ample();
        g.number = ends[i];
        g.depth = ends[(i + 1) % 8];
        g.length = ends[(i + 2) % 8];
        g.direction = (uint32_t)ends[(i + 3) % 8];
        g.discipline = (uint32_t)ends[(i + 4) % 8];
        g.time = ends[i] < 0 ? INFINITE_TIME_VALUE : INT64_MAX - ends[i];
        call_and_check(service, &g, 0, 70);
    }
    for (size_t length = 0; length < 40 && is_of_name(service); length++) {
        struct given g = ample();
        memset(name, 'N', sizeof name);
        name[length] = 0;
        call_and_check(service, &g, 0, 70);
    }
    memset(name, 0, sizeof name);
    memcpy(name, "NAV_OUT", 7);
}

/* A message that is longer than any channel's is one call, as any other. */
static void longer(int service, uint32_t answer) {
    struct given g = ample();
    g.length = 1025;
    call_and_check(service, &g, answer, next_moment());
    expect(reads_of_clock == 1, "the moment is taken once");
}

/* Nothing is done if a place is null: INVALID_PARAM, and nothing at all without a place for the code. */
static void every_null(int service) {
    for (int which = 0; which < 7; which++) {
        for (int is_coded = 0; is_coded < 2; is_coded++) {
            struct given g = ample();
            const bool message = takes_message(service) || gives_message(service);
            const bool is_used[7] = {is_of_name(service),   message,
                                     is_of_name(service) || takes_message(service), service == READ,
                                     service == STATUS_S,   service == STATUS_Q, true};
            if (!is_used[which] || (which == 6 && is_coded)) {
                continue;
            }
            g.name = which == 0 ? NULL : g.name;
            g.message = which == 1 ? NULL : g.message;
            g.place = which == 2 ? NULL : g.place;
            g.validity = which == 3 ? NULL : g.validity;
            g.sampling = which == 4 ? NULL : g.sampling;
            g.queuing = which == 5 ? NULL : g.queuing;
            g.code = is_coded ? g.code : NULL;
            answer_now = 0;
            call(service, &g);
            expect(noted_count == 0 && locks == 0, "nothing is called for a null pointer");
            before.code = is_coded ? INVALID_PARAM : before.code;
            expect(memcmp(&places, &before, sizeof before) == 0, "INVALID_PARAM alone for a null pointer");
        }
    }
}

static void *of_another_partition(void *unused) {
    struct given g = ample();
    CLEAR_QUEUING_PORT(1, g.code);
    expect(noted[0].partition == UINT32_MAX, "a thread has no partition at first");
    bench_set_partition(4);
    CLEAR_QUEUING_PORT(1, g.code);
    expect(noted[1].partition == 4, "a thread's own partition");
    return unused;
}

static void every_function_of_the_bench(void) {
    static const char text[] = "text";
    for (uint32_t answer = 0; answer <= 12; answer++) {
        (void)ample();
        answer_now = answer;
        answer_after = answer + 100;
        expect(bench_open(text, 3) == answer && noted_count == 1 && locks == 1 && held == 0, "opening");
        expect(noted[0].address == text && noted[0].length == 3, "the text that is opened");
        expect(bench_close() == answer + 100 && noted_count == 2 && locks == 2 && held == 0, "closing");
        expect(strcmp(noted[0].service, "open") == 0 && strcmp(noted[1].service, "close") == 0, "open and close");
        expect(noted[0].handle == noted[1].handle, "one module");
        expect(bench_take_handle() == noted[0].handle && held == 1, "the handle is lent behind the lock");
        bench_give_handle_back();
        expect(held == 0 && locks == 3, "the handle is given back");
        expect(bench_open(NULL, 3) == 1 && noted_count == 2 && locks == 3, "no text");
        bench_set_moment(9);
        bench_follow_clock();
        expect(locks == 5 && held == 0, "the moment is set behind the lock");
        bench_set_partition(MINE);
        expect(locks == 5, "a thread's partition is its own");
    }
}

int main(void) {
    struct apex_handle *handle = bench_take_handle();
    bench_give_handle_back();
    every_function_of_the_bench();
    for (int service = 0; service < SERVICES; service++) {
        bench_follow_clock();
        every_answer(service);
        expect(noted[0].handle == handle, "one module for all services");
        every_parameter(service);
        every_null(service);
        bench_follow_clock();
        for (size_t i = 0; gives_message(service) && i < sizeof answers / sizeof *answers; i++) {
            longer(service, answers[i]);
        }
    }
    pthread_t thread;
    answer_now = answer_after = 0;
    expect(pthread_create(&thread, NULL, of_another_partition, NULL) == 0, "a thread");
    pthread_join(thread, NULL);
    struct given g = ample();
    CLEAR_QUEUING_PORT(1, g.code);
    expect(noted[0].partition == MINE, "the partition stays that of the thread");
    printf("%lu calls\n", made);
    return 0;
}
