#include "words.h"

#include <string.h>

bool read_number(const char *word, uint64_t limit, uint64_t *number) {
    uint64_t value = 0;
    for (const char *digit = word; *digit != '\0'; digit++) {
        uint64_t step = (uint64_t)(*digit - '0');
        if (*digit < '0' || *digit > '9' || value > (limit - step) / 10) {
            return false;
        }
        value = value * 10 + step;
    }
    *number = value;
    return *word != '\0';
}

bool read_numbers(char **words, size_t count, uint32_t *numbers) {
    for (size_t i = 0; i < count; i++) {
        uint64_t number;
        if (!read_number(words[i], UINT32_MAX, &number)) {
            return false;
        }
        numbers[i] = (uint32_t)number;
    }
    return true;
}

static int digit_of(char letter) {
    static const char digits[] = "0123456789abcdef";
    const char *found = letter == '\0' ? NULL : strchr(digits, letter >= 'A' && letter <= 'F' ? letter + 32 : letter);
    return found == NULL ? -1 : (int)(found - digits);
}

bool read_message(const char *word, struct message *message) {
    size_t length = strlen(word);
    message->length = 0;
    if (strcmp(word, "-") == 0) {
        return true;
    }
    if (length % 2 != 0 || length / 2 > APEX_MESSAGE_LIMIT) {
        return false;
    }
    for (size_t i = 0; i < length; i += 2) {
        int high = digit_of(word[i]), low = digit_of(word[i + 1]);
        if (high < 0 || low < 0) {
            return false;
        }
        message->bytes[message->length++] = (uint8_t)(high * 16 + low);
    }
    return true;
}
