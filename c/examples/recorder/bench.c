/* bench CONFIG: runs ten frames of 100 ms of the partitions of ../two_processes, which are loaded from ./sensor.so and
 * ./control.so, each with a recorder of its own. */
#include "bench_processes.h"

#include <stdio.h>

/* What the partitions print is left out here. */
void print_code(const char *what, RETURN_CODE_TYPE code) {
    (void)what;
    (void)code;
}

static uint32_t open_file(const char *path) {
    static char text[4096];
    FILE *file = fopen(path, "rb");
    if (file == NULL) {
        return 1;
    }
    const size_t length = fread(text, 1, sizeof text, file);
    fclose(file);
    return bench_open(text, length);
}

int main(int count, char **words) {
    const SYSTEM_TIME_TYPE millisecond = 1000000, frame = 100 * millisecond;
    const struct bench_partition sensor = {.period = frame, .offset = 0, .duration = 20 * millisecond};
    const struct bench_partition control = {
        .period = frame, .offset = 50 * millisecond, .duration = 20 * millisecond};
    if (count != 2 || open_file(words[1]) != 0) {
        fprintf(stderr, "bench: the configuration cannot be opened\n");
        return 1;
    }
    bool is_run = bench_load_partition("./sensor.so", "recorded_main", 0, &sensor) &&
                  bench_load_partition("./control.so", "recorded_main", 1, &control);
    for (int i = 0; i < 10 && is_run; i++) {
        is_run = bench_run_frame(frame);
    }
    bench_end_processes();
    return bench_close() == 0 && is_run ? 0 : 3;
}
