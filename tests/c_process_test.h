/* What the tests of the host for processes have in common. */
#ifndef C_PROCESS_TEST_H
#define C_PROCESS_TEST_H

#include "../c/bench_processes.h"
#include "c_test.h"

enum { PERIOD = 100, WINDOW = 20, MINE = 77 };

static unsigned long seen; /* how many answers and trails were as they have to be */
static char text[65536], trail[512];
static size_t text_length;

static inline void answers(RETURN_CODE_TYPE code, RETURN_CODE_TYPE wanted, const char *what) {
    if (code != wanted) {
        fprintf(stderr, "%s: %d, not %d\n", what, (int)code, (int)wanted);
    }
    expect(code == wanted, what);
    seen++;
}

/* The trail has a letter for each step of a process, with the moment. */
static inline void leave(char letter) {
    SYSTEM_TIME_TYPE time;
    RETURN_CODE_TYPE code;
    char step[32];
    GET_TIME(&time, &code);
    answers(code, NO_ERROR, "GET_TIME");
    snprintf(step, sizeof step, "%c@%d ", letter, (int)time);
    strncat(trail, step, sizeof trail - strlen(trail) - 1);
}

static inline void has_left(const char *wanted) {
    if (strcmp(trail, wanted) != 0) {
        fprintf(stderr, "%s, not %s\n", trail, wanted);
    }
    expect(strcmp(trail, wanted) == 0, "the order of the steps");
    trail[0] = '\0';
    seen++;
}

static inline PROCESS_ATTRIBUTE_TYPE named(const char *name, void (*entry)(void), SYSTEM_TIME_TYPE period) {
    PROCESS_ATTRIBUTE_TYPE a = {period, INFINITE_TIME_VALUE, entry, 4096, 5, SOFT, ""};
    memcpy(a.NAME, name, strlen(name));
    return a;
}

static inline PROCESS_ID_TYPE create(const char *name, void (*entry)(void), SYSTEM_TIME_TYPE period, bool is_started) {
    PROCESS_ATTRIBUTE_TYPE a = named(name, entry, period);
    PROCESS_ID_TYPE id = MINE;
    RETURN_CODE_TYPE code;
    CREATE_PROCESS(&a, &id, &code);
    answers(code, NO_ERROR, "CREATE_PROCESS");
    if (is_started) {
        START(id, &code);
        answers(code, NO_ERROR, "START");
    }
    return id;
}

/* Creates an aperiodic process of a priority, and starts it. */
static inline PROCESS_ID_TYPE start_at(PRIORITY_TYPE priority, const char *name, void (*entry)(void)) {
    PROCESS_ATTRIBUTE_TYPE a = named(name, entry, INFINITE_TIME_VALUE);
    PROCESS_ID_TYPE id = MINE;
    RETURN_CODE_TYPE code;
    a.BASE_PRIORITY = priority;
    CREATE_PROCESS(&a, &id, &code);
    answers(code, NO_ERROR, "CREATE_PROCESS");
    START(id, &code);
    answers(code, NO_ERROR, "START");
    return id;
}

/* A process of a priority that isn't started. */
static inline PROCESS_ID_TYPE create_at(PRIORITY_TYPE priority, const char *name, void (*entry)(void),
                                        SYSTEM_TIME_TYPE period) {
    PROCESS_ATTRIBUTE_TYPE a = named(name, entry, period);
    PROCESS_ID_TYPE id = MINE;
    RETURN_CODE_TYPE code;
    a.BASE_PRIORITY = priority;
    CREATE_PROCESS(&a, &id, &code);
    answers(code, NO_ERROR, "CREATE_PROCESS");
    return id;
}

/* A service of one process, with the code that it answers. */
#define IS(wanted, service, ...)                                                                                       \
    do {                                                                                                               \
        RETURN_CODE_TYPE code = (RETURN_CODE_TYPE)MINE;                                                                \
        service(__VA_ARGS__, &code);                                                                                   \
        answers(code, wanted, #service "(" #__VA_ARGS__ ")");                                                          \
    } while (0)

static inline void set_mode(OPERATING_MODE_TYPE mode) {
    RETURN_CODE_TYPE code;
    SET_PARTITION_MODE(mode, &code);
    answers(code, NO_ERROR, "SET_PARTITION_MODE");
}

/* Runs one partition from the start for some frames of its period. */
static inline void run_frames(void (*entry)(void), int frames) {
    const struct bench_partition how = {entry, PERIOD, 10, WINDOW};
    expect(bench_open(text, text_length) == 0 && bench_add_partition(1, &how), "a partition that is run");
    for (int i = 0; i < frames; i++) {
        expect(bench_run_frame(PERIOD), "a frame");
    }
    bench_end_processes();
    expect(bench_close() == 0, "closing");
}

#endif
