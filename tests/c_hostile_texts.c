/* A configuration with 80,000 unknown keys is reported within two seconds of processor time, by 20 lines and one that says
 * how many more there are. */
#include "../c/apex_ports.h"
#include "c_test.h"

#include <time.h>

#define KEYS 80000
#define LIMIT 2.0

static char text[KEYS * 16];
static uint8_t lines[65536];

int main(void) {
    size_t length = 0;
    for (int key = 0; key < KEYS; key++) {
        length += (size_t)sprintf(text + length, "k%05d = 1\n", key);
    }
    uint64_t written = 0;
    const clock_t before = clock();
    const uint32_t answer = apex_configuration_mistakes((const uint8_t *)text, length, lines, sizeof lines, &written);
    const double seconds = (double)(clock() - before) / CLOCKS_PER_SEC;
    expect(answer == 2, "the form is the fault");
    expect(seconds <= LIMIT, "it takes at most two seconds");
    /* (the array `partition` is missing, which is a place before those of the keys) */
    const char *end = "and 79981 more\n";
    unsigned count = 0;
    for (uint64_t at = 0; at < written; at++) {
        count += lines[at] == '\n';
    }
    expect(count == 21 && written >= strlen(end) && memcmp(lines + written - strlen(end), end, strlen(end)) == 0,
           "20 lines and how many more there are");
    printf("%d unknown keys\n", KEYS);
    return 0;
}
