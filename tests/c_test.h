/* What the C tests have in common. */
#ifndef C_TEST_H
#define C_TEST_H

#include <stdbool.h>
#include <stdint.h>
#include <stdio.h>
#include <stdlib.h>
#include <string.h>

/* Ends the program if it isn't so. */
static inline void expect(bool is_so, const char *what) {
    if (!is_so) {
        fprintf(stderr, "FAILED: %s\n", what);
        exit(1);
    }
}

/* A random number below the count, the same in every run. */
static inline uint64_t any(uint64_t count) {
    static uint64_t state = 20261123;
    state ^= state << 13;
    state ^= state >> 7;
    state ^= state << 17;
    return (state >> 11) % count;
}

/* Reads a configuration, and gives its length. */
static inline size_t read_config(const char *path, void *text, size_t limit) {
    FILE *file = fopen(path, "rb");
    expect(file != NULL, "the configuration is there");
    const size_t length = fread(text, 1, limit, file);
    fclose(file);
    expect(length > 0 && length < limit, "the configuration is read whole");
    return length;
}

#endif
