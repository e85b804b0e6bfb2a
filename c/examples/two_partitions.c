/* two_partitions CONFIG: two partitions, a thread each, that exchange messages on a queuing and a sampling port.
 *
 * The bench runs frames of 100 ms: flight management has a window at the start of each, the display one 50 ms later.
 * So the order of the calls, and with it what is printed, is the same in every run. */
#include "../apex.h"

#include <pthread.h>
#include <stdio.h>
#include <string.h>

enum { FMS, DISPLAY, PARTITIONS };
enum { FRAMES = 4 };
static const SYSTEM_TIME_TYPE MILLISECOND = 1000000;
static const SYSTEM_TIME_TYPE REFRESH = 100 * MILLISECOND;

static const char *const code_words[] = {"NO_ERROR",       "NO_ACTION",    "NOT_AVAILABLE", "INVALID_PARAM",
                                         "INVALID_CONFIG", "INVALID_MODE", "TIMED_OUT"};

static void print_code(const char *partition, const char *what, RETURN_CODE_TYPE code) {
    printf("%s %s: %s\n", partition, what, code_words[code]);
}

/* Flight management. */

static QUEUING_PORT_NAME_TYPE waypoints_out_name = "WAYPOINTS_OUT";
static SAMPLING_PORT_NAME_TYPE range_in_name = "RANGE_IN";
static QUEUING_PORT_ID_TYPE waypoints_out;
static SAMPLING_PORT_ID_TYPE range_in;

static void fms_start(void) {
    RETURN_CODE_TYPE code;
    CREATE_QUEUING_PORT(waypoints_out_name, 8, 2, SOURCE, FIFO, &waypoints_out, &code);
    print_code("FMS", "create WAYPOINTS_OUT", code);
    CREATE_SAMPLING_PORT(range_in_name, 4, DESTINATION, REFRESH, &range_in, &code);
    print_code("FMS", "create RANGE_IN", code);
    SET_PARTITION_MODE(NORMAL, &code);
    print_code("FMS", "mode NORMAL", code);
}

static void read_range(void) {
    APEX_BYTE range[4];
    MESSAGE_SIZE_TYPE length;
    VALIDITY_TYPE validity;
    RETURN_CODE_TYPE code;
    READ_SAMPLING_MESSAGE(range_in, range, &length, &validity, &code);
    print_code("FMS", "read range", code);
    if (code == NO_ERROR) {
        printf("FMS range %.*s %s\n", (int)length, (const char *)range, validity == VALID ? "VALID" : "INVALID");
    }
}

static void send_waypoint(const char *name) {
    APEX_BYTE message[8];
    RETURN_CODE_TYPE code;
    memcpy(message, name, strlen(name));
    SEND_QUEUING_MESSAGE(waypoints_out, message, (MESSAGE_SIZE_TYPE)strlen(name), 0, &code);
    printf("FMS send %s: %s\n", name, code_words[code]);
}

static void fms_window(int frame) {
    static const char *const waypoints[FRAMES][3] = {{NULL}, {"ALPHA", "BRAVO", "CHARLIE"}, {"CHARLIE"}, {"DELTA"}};
    if (frame == 0) {
        fms_start();
        return;
    }
    read_range();
    for (int i = 0; i < 3 && waypoints[frame][i] != NULL; i++) {
        send_waypoint(waypoints[frame][i]);
    }
}

/* The display. */

static QUEUING_PORT_NAME_TYPE waypoints_in_name = "WAYPOINTS_IN";
static SAMPLING_PORT_NAME_TYPE range_out_name = "RANGE_OUT";
static QUEUING_PORT_ID_TYPE waypoints_in;
static SAMPLING_PORT_ID_TYPE range_out;

static void display_start(void) {
    RETURN_CODE_TYPE code;
    CREATE_QUEUING_PORT(waypoints_in_name, 8, 2, DESTINATION, FIFO, &waypoints_in, &code);
    print_code("DISPLAY", "create WAYPOINTS_IN", code);
    CREATE_SAMPLING_PORT(range_out_name, 4, SOURCE, REFRESH, &range_out, &code);
    print_code("DISPLAY", "create RANGE_OUT", code);
    SET_PARTITION_MODE(NORMAL, &code);
    print_code("DISPLAY", "mode NORMAL", code);
}

static void receive_waypoints(SYSTEM_TIME_TYPE time_out) {
    RETURN_CODE_TYPE code;
    do {
        APEX_BYTE name[8];
        MESSAGE_SIZE_TYPE length;
        RECEIVE_QUEUING_MESSAGE(waypoints_in, time_out, name, &length, &code);
        print_code("DISPLAY", "receive waypoint", code);
        if (code == NO_ERROR) {
            printf("DISPLAY waypoint %.*s\n", (int)length, (const char *)name);
        }
    } while (code == NO_ERROR);
}

static void print_waiting(void) {
    QUEUING_PORT_STATUS_TYPE status;
    RETURN_CODE_TYPE code;
    GET_QUEUING_PORT_STATUS(waypoints_in, &status, &code);
    print_code("DISPLAY", "status of WAYPOINTS_IN", code);
    printf("DISPLAY waiting %d of %d\n", status.NB_MESSAGE, status.MAX_NB_MESSAGE);
}

static void write_range(const char *range) {
    APEX_BYTE message[4];
    RETURN_CODE_TYPE code;
    memcpy(message, range, strlen(range));
    WRITE_SAMPLING_MESSAGE(range_out, message, (MESSAGE_SIZE_TYPE)strlen(range), &code);
    print_code("DISPLAY", "write range", code);
}

static void clear_waypoints(void) {
    RETURN_CODE_TYPE code;
    CLEAR_QUEUING_PORT(waypoints_in, &code);
    print_code("DISPLAY", "clear WAYPOINTS_IN", code);
}

static void display_window(int frame) {
    switch (frame) {
    case 0:
        display_start();
        break;
    case 1:
        print_waiting();
        receive_waypoints(0);
        write_range("40");
        break;
    case 2:
        receive_waypoints(10 * MILLISECOND);
        break;
    default:
        clear_waypoints();
        receive_waypoints(0);
        write_range("80NM");
    }
}

/* The bench. */

static void (*const window_of[PARTITIONS])(int frame) = {fms_window, display_window};

static pthread_mutex_t schedule = PTHREAD_MUTEX_INITIALIZER;
static pthread_cond_t window_ended = PTHREAD_COND_INITIALIZER;
static int windows_ended;

static void *run_partition(void *number) {
    const uint32_t partition = *(const uint32_t *)number;
    bench_set_partition(partition);
    for (int frame = 0; frame < FRAMES; frame++) {
        pthread_mutex_lock(&schedule);
        while (windows_ended != frame * PARTITIONS + (int)partition) {
            pthread_cond_wait(&window_ended, &schedule);
        }
        bench_set_moment((uint64_t)windows_ended * 50 * (uint64_t)MILLISECOND);
        window_of[partition](frame);
        windows_ended++;
        pthread_cond_broadcast(&window_ended);
        pthread_mutex_unlock(&schedule);
    }
    return NULL;
}

static void print_totals(void) {
    uint64_t accepted = 0, received = 0, cleared = 0, waiting = 0;
    struct apex_handle *handle = bench_take_handle();
    apex_accepted_count(handle, 0, &accepted);
    apex_received_count(handle, 0, &received);
    apex_cleared_count(handle, 0, &cleared);
    apex_waiting_count(handle, 0, &waiting);
    bench_give_handle_back();
    printf("WAYPOINTS accepted %d received %d cleared %d waiting %d\n", (int)accepted, (int)received, (int)cleared,
           (int)waiting);
}

static uint32_t open_file(const char *path) {
    static char text[4096];
    FILE *file = fopen(path, "rb");
    if (file == NULL) {
        return 1;
    }
    size_t length = fread(text, 1, sizeof text, file);
    fclose(file);
    return bench_open(text, length);
}

int main(int count, char **words) {
    static uint32_t numbers[PARTITIONS] = {FMS, DISPLAY};
    pthread_t threads[PARTITIONS];
    if (count != 2 || open_file(words[1]) != 0) {
        fprintf(stderr, "two_partitions: the configuration cannot be opened\n");
        return 1;
    }
    for (int p = 0; p < PARTITIONS; p++) {
        if (pthread_create(&threads[p], NULL, run_partition, &numbers[p]) != 0) {
            return 3;
        }
    }
    for (int p = 0; p < PARTITIONS; p++) {
        pthread_join(threads[p], NULL);
    }
    print_totals();
    return bench_close() == 0 ? 0 : 3;
}
