/* c_watch CONFIG: a process that runs without a service is reported once, after 10 seconds of the machine's clock or after
 * those given to bench_watch; by the rules of docs/C.md. Takes 17 seconds. What the host says is in c_watch.stderr.txt. */
#include "c_process_test.h"

#include <stdatomic.h>
#include <time.h>

static atomic_uint reported;
static unsigned watched;

static void hear(const char *line) {
    fprintf(stderr, "%s\n", line);
    atomic_fetch_add(&reported, 1);
}

static double clock_now(void) {
    struct timespec now;
    clock_gettime(CLOCK_MONOTONIC, &now);
    return (double)now.tv_sec + (double)now.tv_nsec / 1e9;
}

static void run_for(double seconds) {
    for (const double start = clock_now(); clock_now() < start + seconds;) {
    }
}

static void runs_on(void) {
    leave('s');
    const double start = clock_now();
    while (atomic_load(&reported) == 0) {
    }
    const double ran = clock_now() - start;
    expect(ran >= watched - 0.1 && ran < watched + 6, "it is reported after the seconds that were asked for");
    leave('r');
    STOP_SELF();
}

static void running_main(void) {
    start_at(5, "RUNS_ON", runs_on);
    set_mode(NORMAL);
}

/* Calls a service in time, and then none for longer: only that is reported. */
static void calls_now_and_then(void) {
    for (int i = 0; i < 5; i++) {
        leave('c');
        run_for(0.5);
    }
    expect(atomic_load(&reported) == 0, "a process that calls services is not reported");
    for (int i = 0; i < 2; i++) {
        leave('d');
        run_for(2.5);
    }
    expect(atomic_load(&reported) == 1, "it is reported once");
    STOP_SELF();
}

static void calling_main(void) {
    start_at(5, "CALLS", calls_now_and_then);
    set_mode(NORMAL);
}

static void is_told(void (*entry)(void), unsigned after, const char *wanted) {
    watched = after;
    atomic_store(&reported, 0);
    run_frames(entry, 1);
    has_left(wanted);
    expect(atomic_load(&reported) == 1, "it is reported once");
}

int main(int count, char **words) {
    expect(count == 2, "usage: c_watch CONFIG");
    text_length = read_config(words[1], text, sizeof text);
    bench_tell_to(hear);
    is_told(running_main, 10, "s@10 r@10 ");
    bench_watch(1);
    is_told(calling_main, 1, "c@10 c@10 c@10 c@10 c@10 d@10 d@10 ");
    return 0;
}
