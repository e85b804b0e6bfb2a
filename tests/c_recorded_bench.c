/* c_recorded_bench CONFIG LOG A.so B.so: runs the partitions of c_recorded_partition.c. The log has their names. */
#include "bench_processes.h"

#include <string.h>

static FILE *log_file;

/* Puts the partition's name behind the moment of each line. */
int take(void *name, const char *text, size_t length) {
    for (const char *end = text + length; text < end;) {
        const char *past = memchr(text, '\n', (size_t)(end - text));
        const char *blank = *text == '#' ? text : memchr(text, ' ', (size_t)(past - text));
        fwrite(text, 1, (size_t)(blank - text), log_file);
        fprintf(log_file, "%s%s%.*s\n", blank == text ? "" : " ", blank == text ? "" : (const char *)name,
                (int)(past - blank), blank);
        text = past + 1;
    }
    return 1;
}

static void say_nothing(const char *line) { (void)line; }

int main(int count, char **words) {
    static char text[4096];
    bench_tell_to(say_nothing);
    const struct bench_partition a = {.period = 100, .offset = 0, .duration = 20};
    const struct bench_partition b = {.period = 100, .offset = 50, .duration = 20};
    FILE *file = count == 5 ? fopen(words[1], "rb") : NULL;
    if (file == NULL || bench_open(text, fread(text, 1, sizeof text, file)) != 0) {
        return 1;
    }
    fclose(file);
    log_file = fopen(words[2], "wb");
    if (log_file == NULL || !bench_load_partition(words[3], "a_main", 0, &a) ||
        !bench_load_partition(words[4], "b_main", 1, &b)) {
        return 1;
    }
    bench_on_error(0, BENCH_WARM_START);
    /* faults */
    for (int frame = 0; frame < 7; frame++) {
        if (!bench_run_frame(100)) {
            return 1;
        }
    }
    bench_end_processes();
    fclose(log_file);
    return (int)bench_close();
}
