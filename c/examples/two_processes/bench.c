/* two_processes CONFIG: the bench, which runs ten frames of 100 ms. SENSOR has the first 20 ms of each, CONTROL has
 * 20 ms from its middle. */
#include "partitions.h"

#include <stdio.h>

enum { SENSOR, CONTROL };
enum { ORDERS = 1, FRAMES = 10 };

void print_code(const char *what, RETURN_CODE_TYPE code) {
    static const char *const words[] = {"NO_ERROR",       "NO_ACTION",    "NOT_AVAILABLE", "INVALID_PARAM",
                                        "INVALID_CONFIG", "INVALID_MODE", "TIMED_OUT"};
    SYSTEM_TIME_TYPE time = 0;
    RETURN_CODE_TYPE code_of_time;
    GET_TIME(&time, &code_of_time);
    printf("%d ms %s: %s\n", (int)(time / MILLISECOND), what, words[code]);
}

static uint32_t open_file(const char *path) {
    static char text[4096];
    FILE *file = fopen(path, "rb");
    if (file == NULL) {
        return 1;
    }
    size_t length = fread(text, 1, sizeof text, file);
    fclose(file);
    return bench_open(text, length);
}

static void print_totals(void) {
    uint64_t accepted = 0, received = 0, waiting = 0;
    struct apex_handle *handle = bench_take_handle();
    apex_accepted_count(handle, ORDERS, &accepted);
    apex_received_count(handle, ORDERS, &received);
    apex_waiting_count(handle, ORDERS, &waiting);
    bench_give_handle_back();
    printf("ORDERS accepted %d received %d waiting %d\n", (int)accepted, (int)received, (int)waiting);
}

int main(int count, char **words) {
    const SYSTEM_TIME_TYPE frame = 100 * MILLISECOND, window = 20 * MILLISECOND;
    const struct bench_partition sensor = {.entry = sensor_main, .period = frame, .offset = 0, .duration = window};
    const struct bench_partition control = {
        .entry = control_main, .period = frame, .offset = 50 * MILLISECOND, .duration = window};
    if (count != 2 || open_file(words[1]) != 0) {
        fprintf(stderr, "two_processes: the configuration cannot be opened\n");
        return 1;
    }
    bool is_run = bench_add_partition(SENSOR, &sensor) && bench_add_partition(CONTROL, &control);
    for (int i = 0; i < FRAMES && is_run; i++) {
        is_run = bench_run_frame(frame);
    }
    print_totals();
    bench_end_processes();
    return bench_close() == 0 && is_run ? 0 : 3;
}
