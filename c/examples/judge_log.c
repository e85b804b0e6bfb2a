/* judge_log CONFIG LOG: says where the replies of a recorded log aren't the standard's, line by line, without the program.
 * The status is 0 if all are, 4 if some aren't, and 1 if a file or a line can't be read. */
#include "../apex_ports.h"

#include <stdio.h>
#include <string.h>

static uint8_t config[1048576], message[APEX_MESSAGE_LIMIT], words[4096];
static char text[APEX_LINE_LIMIT + 2];

/* Reads a line with its line feed, or as much of it as shows that it is too long; its length. */
static size_t read_line(FILE *log) {
    size_t length = 0;
    for (int byte = 0; length < sizeof text && byte != '\n' && (byte = getc(log)) != EOF;) {
        text[length++] = (char)byte;
    }
    return length;
}

static int judge_log(struct apex_judge *judge, FILE *log) {
    struct apex_line line = {.kind = APEX_NO_CALL};
    struct apex_departure departure;
    int status = 0;
    size_t length;
    for (unsigned long number = 1; line.kind != APEX_CALLS_END && (length = read_line(log)) > 0; number++) {
        const uint32_t answer = apex_judge_line(judge, (const uint8_t *)text, length, 0, &line, &departure, message,
                                                sizeof message, words, sizeof words);
        if (answer == APEX_DEPARTS) {
            printf("%lu: not code %u, row %u %.*s\n", number, departure.standard.code, departure.row,
                   (int)departure.words_length, (const char *)words);
            status = 4;
        } else if (answer == APEX_FAULTY_LINE) {
            const int shown = departure.words_length <= sizeof words ? (int)departure.words_length : 0;
            printf("%lu:%llu: %.*s\n", number, (unsigned long long)line.column, shown, (const char *)words);
            return 1;
        } else if (answer != 0) {
            printf("%lu: answer %u\n", number, answer);
            return 1;
        }
    }
    return status;
}

int main(int count, char **arguments) {
    struct apex_judge judge = {.is_open = false};
    FILE *file = count == 3 ? fopen(arguments[1], "rb") : NULL, *log = count == 3 ? fopen(arguments[2], "rb") : NULL;
    if (file == NULL || log == NULL || apex_judge_open(&judge, config, fread(config, 1, sizeof config, file)) != 0) {
        fprintf(stderr, "usage: judge_log CONFIG LOG\n");
        return 1;
    }
    const int status = judge_log(&judge, log);
    apex_judge_close(&judge);
    fclose(file);
    fclose(log);
    return status;
}
