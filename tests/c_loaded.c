/* c_loaded CONFIG OBJECT: partitions that are shared objects, by the rules of docs/C.md: two of one file, with data of
 * their own, which are as loaded after each restart. Prints each line that the bench says, and removes the object. */
#include "c_process_test.h"

static void show(const char *line) { printf("%s\n", line); }

static void count(const char *line) { seen += line[0] != '\0'; }

/* The program has the name that the partitions have, and none of them runs it. */
void init(void);
void init(void) { expect(false, "the program's own init"); }

static void refusals(char **words) {
    const struct bench_partition how = {NULL, PERIOD, 0, WINDOW};
    expect(!bench_load_partition("none.so", "init", 0, &how), "no file");
    expect(!bench_load_partition(words[2], "none", 0, &how), "no entry");
    expect(!bench_load_partition(words[1], "init", 0, &how), "no shared object");
    expect(!bench_load_partition(NULL, "init", 0, &how), "a null file");
    expect(!bench_load_partition(words[2], NULL, 0, &how), "a null entry");
    expect(!bench_load_partition(words[2], "init", 0, NULL), "no windows");
    expect(!bench_load_partition(words[2], "init", 5, &how), "no partition");
    expect(seen == 7, "a line for each");
}

/* A restart that finds no file any more: the frame isn't run, and a line says so. */
static void gone(char **words) {
    const struct bench_partition how = {NULL, PERIOD, 0, WINDOW};
    bench_tell_to(count);
    expect(bench_open(text, text_length) == 0 && bench_load_partition(words[2], "init", 0, &how), "a partition");
    expect(bench_run_frame(2 * PERIOD), "the frames before the restart");
    expect(remove(words[2]) == 0, "the file");
    seen = 0;
    expect(!bench_run_frame(PERIOD) && seen == 2, "the report of the turn, and why it doesn't restart");
    expect(!bench_run_frame(PERIOD) && seen == 3, "a frame after that");
    bench_end_processes();
    expect(bench_close() == 0, "closing");
}

int main(int words_count, char **words) {
    const struct bench_partition first = {NULL, PERIOD, 0, WINDOW}, second = {NULL, PERIOD, 50, WINDOW};
    expect(words_count == 3, "usage: c_loaded CONFIG OBJECT");
    text_length = read_config(words[1], text, sizeof text);
    bench_tell_to(count);
    expect(bench_open(text, text_length) == 0, "opening");
    refusals(words);
    expect(bench_load_partition(words[2], "init", 0, &first), "the first partition");
    expect(!bench_load_partition(words[2], "init", 0, &first), "the first partition again");
    expect(bench_load_partition(words[2], "init", 1, &second), "the second partition");
    bench_tell_to(show);
    for (int i = 0; i < 6; i++) {
        expect(bench_run_frame(PERIOD), "a frame");
    }
    bench_end_processes();
    expect(bench_close() == 0, "closing");
    gone(words);
    return 0;
}
