/* The words of a trace that are numbers or messages (docs/FORMATS.md). */
#ifndef WORDS_H
#define WORDS_H

#include "../apex_ports.h"

struct message {
    uint32_t length;
    uint8_t bytes[APEX_MESSAGE_LIMIT];
};

/* Reads a number up to the limit; whether the word is one. */
bool read_number(const char *word, uint64_t limit, uint64_t *number);

/* Reads this many 32-bit numbers; whether each word is one. */
bool read_numbers(char **words, size_t count, uint32_t *numbers);

/* Reads a message in hexadecimal; whether the word is one. */
bool read_message(const char *word, struct message *message);

#endif
