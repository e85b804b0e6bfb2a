/* c_recorded_calls CONFIG LOG [PART]: calls of all services by two partitions, each at a moment of its own. The log has
 * the partitions' names, so that the moment of a departure names its call. With PART the sink takes one line in PART.
 * The answers go to standard output. Compiled with UNRECORDED the calls are the same, and there is no log. */
#include "apex.h"
#ifndef UNRECORDED
#include "record/apex_record.h"
#endif

#include <stdlib.h>
#include <string.h>

enum { A, B };
static uint32_t partition;
static SYSTEM_TIME_TYPE now;

SYSTEM_TIME_TYPE moment_of_call(void) { return now; }

#ifndef UNRECORDED
static const char *const names[] = {"A", "B"};
static long part = 1, given;

/* Puts the partition's name behind the moment of each line. */
static int take(void *log, const char *text, size_t length) {
    if (++given % part != 0) {
        return 0;
    }
    for (const char *end = text + length; text < end;) {
        const char *past = memchr(text, '\n', (size_t)(end - text));
        const char *blank = *text == '#' ? text : memchr(text, ' ', (size_t)(past - text));
        fwrite(text, 1, (size_t)(blank - text), log);
        fprintf(log, "%s%s%.*s\n", blank == text ? "" : " ", blank == text ? "" : names[partition],
                (int)(past - blank), blank);
        text = past + 1;
    }
    return 1;
}
#endif

/* Places that a service has to fill. */
static int32_t id, length;
static RETURN_CODE_TYPE code;
static VALIDITY_TYPE validity;
static APEX_BYTE bytes[1100];
static SAMPLING_PORT_STATUS_TYPE sampling;
static QUEUING_PORT_STATUS_TYPE queuing;

static void at(SYSTEM_TIME_TYPE moment, uint32_t by) {
    now = moment;
    partition = by;
    bench_set_moment((uint64_t)moment);
    bench_set_partition(by);
    id = 0;
    length = 7;
    code = TIMED_OUT;
    validity = INVALID;
    memset(bytes, 0, sizeof bytes);
    memset(&sampling, 0, sizeof sampling);
    memset(&queuing, 0, sizeof queuing);
}

static void done(void) {
    printf("%d: code %d id %d length %d validity %d bytes %02x%02x%02x%02x\n", (int)now, (int)code, (int)id,
           (int)length, (int)validity, bytes[0], bytes[1], bytes[2], bytes[3]);
    printf("sampling %d %d %d %d queuing %d %d %d %d %d\n", (int)sampling.REFRESH_PERIOD,
           (int)sampling.MAX_MESSAGE_SIZE, (int)sampling.PORT_DIRECTION, (int)sampling.LAST_MSG_VALIDITY,
           (int)queuing.NB_MESSAGE, (int)queuing.MAX_NB_MESSAGE, (int)queuing.MAX_MESSAGE_SIZE,
           (int)queuing.PORT_DIRECTION, (int)queuing.WAITING_PROCESSES);
}

static NAME_TYPE name;

static void create_queuing(int moment, uint32_t by, const char *text, int32_t size, int32_t depth,
                           PORT_DIRECTION_TYPE direction) {
    at(moment, by);
    bench_name(name, text);
    CREATE_QUEUING_PORT(name, size, depth, direction, FIFO, &id, &code);
    done();
}

static void create_sampling(int moment, uint32_t by, const char *text, PORT_DIRECTION_TYPE direction, int refresh) {
    at(moment, by);
    bench_name(name, text);
    CREATE_SAMPLING_PORT(name, 4, direction, refresh, &id, &code);
    done();
}

static void find(int moment, uint32_t by, void (*service)(char *, int32_t *, RETURN_CODE_TYPE *), const char *text) {
    at(moment, by);
    bench_name(name, text);
    service(name, &id, &code);
    done();
}

static void hand_over(int moment, uint32_t by, int is_send, int32_t to, const char *text, int32_t count) {
    at(moment, by);
    memcpy(bytes, text, strlen(text));
    if (is_send) {
        SEND_QUEUING_MESSAGE(to, bytes, count, 0, &code);
    } else {
        WRITE_SAMPLING_MESSAGE(to, bytes, count, &code);
    }
    done();
}

static void send(int moment, uint32_t by, int32_t to, const char *text) {
    hand_over(moment, by, 1, to, text, (int32_t)strlen(text));
}

static void write_sample(int moment, uint32_t by, int32_t to, const char *text) {
    hand_over(moment, by, 0, to, text, (int32_t)strlen(text));
}

static void receive(int moment, uint32_t by, int32_t from) {
    at(moment, by);
    RECEIVE_QUEUING_MESSAGE(from, 0, bytes, &length, &code);
    done();
}

static void read_sample(int moment, uint32_t by, int32_t from) {
    at(moment, by);
    READ_SAMPLING_MESSAGE(from, bytes, &length, &validity, &code);
    done();
}

static void status(int moment, uint32_t by, int is_queuing, int32_t of) {
    at(moment, by);
    if (is_queuing) {
        GET_QUEUING_PORT_STATUS(of, &queuing, &code);
    } else {
        GET_SAMPLING_PORT_STATUS(of, &sampling, &code);
    }
    done();
}

static void clear(int moment, uint32_t by, int32_t of) {
    at(moment, by);
    CLEAR_QUEUING_PORT(of, &code);
    done();
}

static void mode(int moment, uint32_t by, int to) {
    at(moment, by);
    SET_PARTITION_MODE((OPERATING_MODE_TYPE)to, &code);
    done();
}

static void initialise(void) {
    create_queuing(10, A, "OUT", 4, 2, SOURCE);
    create_sampling(20, A, "S_OUT", SOURCE, 100);
    find(30, A, GET_QUEUING_PORT_ID, "OUT");
    find(40, A, GET_SAMPLING_PORT_ID, "S_OUT");
    find(50, A, GET_SAMPLING_PORT_ID, "OUT");
    find(60, A, GET_QUEUING_PORT_ID, "IN");
    create_queuing(70, A, "OUT", 4, 2, SOURCE);
    create_queuing(80, A, "IN", 4, 2, SOURCE);
    status(90, A, 1, 1);
    status(100, A, 0, 2);
    mode(110, A, 7);
    mode(120, A, WARM_START);
    mode(130, A, NORMAL);
    mode(140, A, NORMAL);
    create_queuing(150, B, "IN", 4, 2, DESTINATION);
    create_sampling(160, B, "S_IN", DESTINATION, 50);
    mode(170, B, NORMAL);
    create_sampling(180, B, "S_IN", DESTINATION, 50);
}

static void queues(void) {
    receive(190, B, 1);
    read_sample(200, B, 2);
    send(210, A, 1, "\x0a");
    send(220, A, 1, "\x0b\x0c");
    send(230, A, 1, "\x0d");
    send(240, A, 1, "");
    hand_over(250, A, 1, 1, "\x0a", -1);
    send(260, A, 1, "\1\2\3\4\5");
    hand_over(265, A, 1, 1, "", 1100); /* which no log can have */
    send(270, A, 257, "\x0a");
    receive(280, A, 1);
    send(290, B, 1, "\x0a");
    status(300, B, 1, 1);
    receive(310, B, 1);
    send(320, A, 1, "\1\2\3\4");
    receive(330, B, 1);
    receive(340, B, 1);
    receive(350, B, 1);
}

static void samples(void) {
    write_sample(360, A, 2, "\x11");
    status(370, B, 0, 2);
    read_sample(410, B, 2);
    read_sample(411, B, 2);
    write_sample(420, A, 2, "\x22\x33");
    read_sample(430, B, 2);
    status(440, B, 0, 2);
    write_sample(450, A, 2, "");
    write_sample(455, A, 1, "\1");
    write_sample(460, A, 2, "\1\2\3\4\5");
    write_sample(470, B, 2, "\1");
    read_sample(480, A, 2);
}

static void restarts(void) {
    clear(490, A, 1);
    send(500, A, 1, "\x0e");
    clear(510, B, 1);
    receive(520, B, 1);
    clear(530, B, 257);
    send(540, A, 1, "\x0f");
    mode(550, B, WARM_START);
    receive(560, B, 1);
    create_queuing(570, B, "IN", 4, 2, DESTINATION);
    receive(580, B, 1);
    read_sample(590, B, 3);
    find(600, B, GET_QUEUING_PORT_ID, "IN");
    mode(610, B, COLD_START);
    mode(620, B, WARM_START);
}

int main(int count, char **words) {
    static char text[4096];
    FILE *file = count > 2 ? fopen(words[1], "rb") : NULL;
    if (file == NULL || bench_open(text, fread(text, 1, sizeof text, file)) != 0) {
        return 1;
    }
    fclose(file);
#ifndef UNRECORDED
    FILE *log = fopen(words[2], "wb");
    if (log == NULL) {
        return 1;
    }
    part = count > 3 ? atol(words[3]) : 1;
    apex_record_to(take, log);
#endif
    initialise();
    queues();
    samples();
    restarts();
#ifndef UNRECORDED
    fclose(log);
#endif
    return (int)bench_close();
}
