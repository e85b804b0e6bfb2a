/* c_calls NAMES PAIRS LENGTH: sends and receives messages of LENGTH bytes in turn over one queuing channel, PAIRS of
 * each, and prints the nanoseconds of a call and by how many bytes the process's address space grew in the second half.
 * NAMES is `ports` for the calls of apex_ports.h and `standard` for those of apex.h. */
#include "../c/apex.h"

#include <stdio.h>
#include <stdlib.h>
#include <string.h>
#include <time.h>
#include <unistd.h>

enum { SIZE = 1024, DEPTH = 64 };

static const char config[] =
    "[[partition]]\nname = \"FMS\"\n[[partition.port]]\nname = \"NAV_OUT\"\nkind = \"queuing\"\n"
    "direction = \"source\"\nchannel = \"NAV\"\n[[partition]]\nname = \"DSP\"\n[[partition.port]]\nname = \"NAV_IN\"\n"
    "kind = \"queuing\"\ndirection = \"destination\"\nchannel = \"NAV\"\n[[channel]]\nname = \"NAV\"\n"
    "kind = \"queuing\"\nsize = 1024\ndepth = 64\n";

static uint8_t sent[SIZE], received[SIZE];

static bool make_ports(void) {
    static QUEUING_PORT_NAME_TYPE names[] = {"NAV_OUT", "NAV_IN"};
    RETURN_CODE_TYPE code = NO_ERROR;
    bool is_made = bench_open(config, strlen(config)) == 0;
    bench_set_moment(1);
    for (uint32_t p = 0; p < 2; p++) {
        QUEUING_PORT_ID_TYPE id = 0;
        bench_set_partition(p);
        CREATE_QUEUING_PORT(names[p], SIZE, DEPTH, p == 0 ? SOURCE : DESTINATION, FIFO, &id, &code);
        is_made = is_made && code == NO_ERROR && id == 1;
        SET_PARTITION_MODE(NORMAL, &code);
        is_made = is_made && code == NO_ERROR;
    }
    return is_made;
}

/* Sends and receives a message by apex_ports.h; the length that came. */
static uint32_t pass_by_ports(struct apex_handle *handle, uint32_t length) {
    uint32_t came = 0;
    return apex_send_queuing_message(handle, 0, 2, 1, sent, length) == 0 &&
                   apex_receive_queuing_message(handle, 1, 3, 1, received, SIZE, &came) == 0
               ? came
               : 0;
}

/* Sends and receives a message by apex.h; the length that came. */
static uint32_t pass_by_standard(uint32_t length) {
    RETURN_CODE_TYPE code;
    MESSAGE_SIZE_TYPE came = 0;
    bench_set_partition(0);
    SEND_QUEUING_MESSAGE(1, sent, (MESSAGE_SIZE_TYPE)length, 0, &code);
    bench_set_partition(1);
    RECEIVE_QUEUING_MESSAGE(1, 0, received, &came, &code);
    return code == NO_ERROR ? (uint32_t)came : 0;
}

/* Passes messages; how many came as they were sent. */
static uint32_t pass(bool is_standard, uint32_t pairs, uint32_t length) {
    struct apex_handle *handle = bench_take_handle();
    uint32_t right = 0;
    if (is_standard) {
        bench_give_handle_back();
    }
    for (uint32_t number = 0; number < pairs; number++) {
        memcpy(sent, &number, sizeof number);
        const uint32_t came = is_standard ? pass_by_standard(length) : pass_by_ports(handle, length);
        right += came == length && memcmp(sent, received, length) == 0;
    }
    if (!is_standard) {
        bench_give_handle_back();
    }
    return right;
}

static double nanoseconds(void) {
    struct timespec now;
    clock_gettime(CLOCK_MONOTONIC, &now);
    return (double)now.tv_sec * 1e9 + (double)now.tv_nsec;
}

/* The size of the address space. (Linux counts the resident pages in steps of many pages.) */
static long address_space(void) {
    long pages = 0;
    FILE *file = fopen("/proc/self/statm", "r");
    if (file == NULL || fscanf(file, "%ld", &pages) != 1) {
        exit(3);
    }
    fclose(file);
    return pages * sysconf(_SC_PAGESIZE);
}

int main(int count, char **words) {
    if (count != 4 || !make_ports()) {
        return 2;
    }
    const bool is_standard = strcmp(words[1], "standard") == 0;
    const uint32_t pairs = (uint32_t)atol(words[2]), length = (uint32_t)atol(words[3]), half = pairs / 2;
    if (length < 4 || length > SIZE) {
        return 2;
    }
    memset(sent, 0x5a, sizeof sent);
    double start = nanoseconds();
    uint32_t right = pass(is_standard, half, length);
    double spent = nanoseconds() - start;
    const long before = address_space();
    start = nanoseconds();
    right += pass(is_standard, pairs - half, length);
    spent += nanoseconds() - start;
    printf("%.1f %ld\n", spent / (2.0 * pairs), address_space() - before);
    return right == pairs && bench_close() == 0 ? 0 : 1;
}
