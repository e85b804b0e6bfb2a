/* The code of a partition that tests/c_loaded.c loads, for two partitions: it has global data and a global `init`. */
#include "../c/bench_processes.h"

#include <stdio.h>

int starts = 40;
static int turns;

static void turn(void) {
    RETURN_CODE_TYPE code;
    for (;;) {
        char message[MAX_ERROR_MESSAGE_SIZE];
        const int length = snprintf(message, sizeof message, "start %d, turn %d", starts, ++turns);
        REPORT_APPLICATION_MESSAGE((APEX_BYTE *)message, length, &code);
        if (turns == 2) {
            SET_PARTITION_MODE(WARM_START, &code);
        }
        PERIODIC_WAIT(&code);
    }
}

void init(void) {
    PROCESS_ATTRIBUTE_TYPE attributes = {100, INFINITE_TIME_VALUE, turn, 4096, 5, SOFT, "TURN"};
    PROCESS_ID_TYPE id;
    RETURN_CODE_TYPE code;
    starts++;
    CREATE_PROCESS(&attributes, &id, &code);
    START(id, &code);
    SET_PARTITION_MODE(NORMAL, &code);
}
