// c_ends CONFIG: processes in C++ that are ended where they wait: in a block with a handler of all exceptions, in an
// entry point that throws nothing, below an object with a destructor that waits, and behind a thread's own object with
// one. None of what their functions hold is given back, as where a process is stopped on a target, and the bench ends.
// Prints what happens.
#include "../c/bench_processes.h"
#include <cstdio>

static void wait_on() {
    RETURN_CODE_TYPE code;
    for (;;) {
        PERIODIC_WAIT(&code);
    }
}

static void catching() {
    for (;;) {
        try {
            wait_on();
        } catch (...) {
            std::puts("caught");
        }
    }
}

static void throws_nothing() noexcept { wait_on(); }

struct Waiting {
    const char *what;
    ~Waiting() {
        RETURN_CODE_TYPE code = NO_ERROR;
        TIMED_WAIT(1, &code);
        std::printf("%s: code %d\n", what, static_cast<int>(code));
    }
};

static void holding() {
    Waiting waiting{"an object of a function"};
    wait_on();
}

static void holding_in_thread() {
    static thread_local Waiting waiting{"an object of a thread"};
    std::printf("made %s\n", waiting.what);
    wait_on();
}

static void create(const char *name, void (*entry)()) {
    PROCESS_ATTRIBUTE_TYPE attributes{100, INFINITE_TIME_VALUE, entry, 4096, 5, SOFT, ""};
    PROCESS_ID_TYPE id = 0;
    RETURN_CODE_TYPE code;
    bench_name(attributes.NAME, name);
    CREATE_PROCESS(&attributes, &id, &code);
    START(id, &code);
}

static void main_process() {
    RETURN_CODE_TYPE code;
    create("CATCHING", catching);
    create("NOTHING", throws_nothing);
    create("HOLDING", holding);
    create("THREAD", holding_in_thread);
    SET_PARTITION_MODE(NORMAL, &code);
}

int main(int, char **words) {
    static char config[65536];
    std::FILE *file = std::fopen(words[1], "rb");
    bench_partition how{main_process, 100, 0, 20};
    if (bench_open(config, std::fread(config, 1, sizeof config, file)) != 0 || !bench_add_partition(0, &how)) {
        return 1;
    }
    std::fclose(file);
    for (int i = 0; i < 2; i++) {
        if (!bench_run_frame(100)) {
            return 1;
        }
    }
    std::puts("ending");
    std::fflush(stdout);
    bench_end_processes();
    std::puts("ended");
    return bench_close() == 0 ? 0 : 1;
}
