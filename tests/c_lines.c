/* Judges the lines of logs through the C interface, on the configuration in the file: what each answers, and what is put
 * into the places, is worked out by hand. What is no line, and a faulty one, changes nothing; and a log of 100,000 lines
 * is judged in the memory of a short one. The places are filled before, and what belongs to none stays as it was. */
#include <sys/resource.h>

#include "../c/apex_ports.h"
#include "c_test.h"

enum { FILL = 0xa5, WORDS = 512, LINES = 100000, NOTE = 250, GROWTH = 4096 };

struct wanted {
    const char *text;
    uint32_t answer, kind, wait, fault;
    uint64_t column;
    uint32_t row, code;
    const char *words;
};

static struct apex_judge judge;
static struct apex_line line;
static struct apex_departure departure;
static uint8_t message[APEX_MESSAGE_LIMIT], words[WORDS], config[65536];
static size_t config_length;

static void begin(void) {
    apex_judge_close(&judge);
    expect(apex_judge_open(&judge, config, config_length) == 0, "a judge is opened");
}

static uint32_t ask_for(const char *text, size_t length, uint32_t time_outs, size_t room) {
    memset(&line, FILL, sizeof line);
    memset(&departure, FILL, sizeof departure);
    memset(message, FILL, sizeof message);
    memset(words, FILL, sizeof words);
    return apex_judge_line(&judge, (const uint8_t *)text, length, time_outs, &line, &departure, message, room, words,
                           sizeof words);
}

static bool is_filled(const void *bytes, size_t length) {
    const uint8_t *each = bytes;
    while (length > 0 && each[length - 1] == FILL) {
        length--;
    }
    return length == 0;
}

static bool has_words(const char *wanted) {
    const size_t length = strlen(wanted);
    return departure.words_length == length && memcmp(words, wanted, length) == 0 &&
           is_filled(words + length, sizeof words - length);
}

/* Judges one line after the other. */
static void judge_all(const struct wanted *each, size_t count, uint32_t time_outs) {
    begin();
    for (; count > 0; each++, count--) {
        const uint32_t answer = ask_for(each->text, strlen(each->text), time_outs, sizeof message);
        expect(answer == each->answer, each->text);
        expect(line.kind == each->kind && line.wait == each->wait && line.fault == each->fault &&
               line.column == each->column, each->text);
        if (answer == APEX_DEPARTS) {
            expect(departure.row == each->row && departure.standard.code == each->code, each->text);
        } else {
            expect(is_filled((uint8_t *)&departure + 8, sizeof departure - 8) && is_filled(message, sizeof message),
                   "no departure is put anywhere");
        }
        expect(answer == 0 ? is_filled(&departure, 8) && is_filled(words, sizeof words) : has_words(each->words), each->text);
    }
}

#define NOTHING 0, 0, NULL
static const struct wanted LOG[] = {
    {"# NAV has depth 2", 0, APEX_NO_CALL, 0, 0, 0, NOTHING},
    {"", 0, APEX_NO_CALL, 0, 0, 0, NOTHING},
    {"\n", 0, APEX_NO_CALL, 0, 0, 0, NOTHING},
    {"0 FMS create-queuing NAV_OUT 4 2 0 0 -> NO_ERROR id 1\n", 0, APEX_CALL, 0, 0, 0, NOTHING},
    {"0 DSP create-queuing NAV_IN 4 2 1 0 -> NO_ERROR id 1\r\n", 0, APEX_CALL, 0, 0, 0, NOTHING},
    {"1 FMS send 1 0a0b -> NO_ERROR (the first)", 0, APEX_CALL, 0, 0, 0, NOTHING},
    {"2 FMS send 9 0c -> NO_ERROR", APEX_DEPARTS, APEX_CALL, 0, 0, 0, 10, 3,
     "no queuing port of identifier 9 is created"},
    {"3 NAV send 1 0c -> NO_ERROR", APEX_FAULTY_LINE, APEX_NO_CALL, 0, 5, 3, 0, 0,
     "partition: \"NAV\"; expected the name of a partition: FMS, DSP, AIR"},
    {"3 FMS send 1 0c ->\n", APEX_FAULTY_LINE, APEX_NO_CALL, 0, 2, 19, 0, 0,
     "too few words: the reply ends; expected a reply: not made, NO_ERROR, NO_ACTION, NOT_AVAILABLE, INVALID_PARAM, "
     "INVALID_CONFIG, INVALID_MODE, TIMED_OUT"},
    {"3 FMS send 1 0c -> NO_ERROR (open", APEX_FAULTY_LINE, APEX_NO_CALL, 0, 11, 29, 0, 0,
     "open note: \"(open\"; expected `)` at the end of the line"},
    {"4 DSP receive 1 -> NO_ERROR message 0d", APEX_DEPARTS, APEX_CALL, 0, 0, 0, 24, 0, ""},
    {"5 DSP receive 1 -> NOT_AVAILABLE", 0, APEX_CALL, 0, 0, 0, NOTHING},
    {"6 DSP receive 1 timeout 5000000 -> TIMED_OUT", 0, APEX_CALL, 1, 0, 0, NOTHING},
    {"7 DSP receive 1 timeout 5000000 -> NOT_AVAILABLE", APEX_DEPARTS, APEX_CALL, 1, 0, 0, 16, 6,
     "no message waits on NAV"},
    {"8 DSP receive 1 timeout infinite -> TIMED_OUT", APEX_DEPARTS, APEX_CALL, 2, 0, 0, 16, 2,
     "no message waits on NAV"},
    {"9 DSP receive 1 timeout 0 -> NOT_AVAILABLE", 0, APEX_CALL, 0, 0, 0, NOTHING},
    {"after this there are no calls", 0, APEX_CALLS_END, 0, 0, 0, NOTHING},
};

/* Where each send and receive has a time-out. */
static const struct wanted TIMED[] = {
    {"0 DSP create-queuing NAV_IN 4 2 1 0 -> NO_ERROR id 1", 0, APEX_CALL, 0, 0, 0, NOTHING},
    {"1 DSP receive 1 -> TIMED_OUT", 0, APEX_CALL, 1, 0, 0, NOTHING},
    {"2 DSP receive 1 timeout 0 -> NOT_AVAILABLE", 0, APEX_CALL, 0, 0, 0, NOTHING},
    {"3 DSP receive 1 -> NOT_AVAILABLE", APEX_DEPARTS, APEX_CALL, 1, 0, 0, 16, 6, "no message waits on NAV"},
};

/* What is no line of a judge. */
static void refuse_texts(void) {
    static char longest[APEX_LINE_LIMIT + 2];
    static const char two[] = "0 FMS mode 3 -> NO_ERROR\n0 FMS mode 3 -> NO_ACTION\n";
    static const char one[] = "0 FMS mode 3 -> NO_ERROR";
    begin();
    memset(longest, '#', sizeof longest);
    longest[APEX_LINE_LIMIT] = '\n';
    expect(ask_for(longest, APEX_LINE_LIMIT + 1, 0, sizeof message) == 0, "the longest line is a comment");
    longest[APEX_LINE_LIMIT] = '#';
    longest[APEX_LINE_LIMIT + 1] = '\n';
    expect(ask_for(longest, APEX_LINE_LIMIT + 2, 0, sizeof message) == APEX_TOO_LONG, "a longer one is none");
    expect(is_filled(&line, sizeof line), "a text that is no line changes nothing");
    expect(ask_for(two, sizeof two - 1, 0, sizeof message) == APEX_TOO_LONG, "two lines are no line");
    expect(ask_for(one, sizeof one - 1, 0, sizeof message - 1) == APEX_SHORT_BUFFER, "the standard's message may be longer");
    expect(is_filled(&line, sizeof line) && is_filled(&departure, sizeof departure), "and changes nothing");
    expect(ask_for(one, sizeof one - 1, 0, sizeof message) == 0, "the mode was not set before");
    expect(apex_judge_close(&judge) == 0, "the judge is closed");
    expect(ask_for(one, sizeof one - 1, 0, sizeof message) == APEX_NOT_OPEN, "a closed judge judges nothing");
    expect(is_filled(&line, sizeof line), "and changes nothing");
}

/* The most memory that the program has had, in kibibytes. */
static long peak(void) {
    struct rusage used;
    expect(getrusage(RUSAGE_SELF, &used) == 0, "what is used is known");
    return used.ru_maxrss;
}

/* A log of 28 megabytes, of which each line is lent alone. */
static void judge_many(void) {
    static char text[NOTE + 64];
    long before = 0;
    begin();
    expect(ask_for(LOG[3].text, strlen(LOG[3].text), 0, sizeof message) == 0, "a source");
    expect(ask_for(LOG[4].text, strlen(LOG[4].text), 0, sizeof message) == 0, "a destination");
    for (int i = 0; i < LINES; i++) {
        const char *call = i % 2 == 0 ? "FMS send 1 0a -> NO_ERROR" : "DSP receive 1 -> NO_ERROR message 0a";
        const int length = snprintf(text, sizeof text, "%d %s (%0*d)", i, call, NOTE, i);
        expect(ask_for(text, (size_t)length, 0, sizeof message) == 0, "each message is received");
        before = i == 100 ? peak() : before;
    }
    expect(peak() - before < GROWTH, "a long log takes no more memory than a short one");
}

int main(int count, char **arguments) {
    expect(count == 2, "usage: c_lines CONFIG");
    config_length = read_config(arguments[1], config, sizeof config);
    judge_all(LOG, sizeof LOG / sizeof *LOG, 0);
    judge_all(TIMED, sizeof TIMED / sizeof *TIMED, 1);
    refuse_texts();
    judge_many();
    apex_judge_close(&judge);
    printf("%zu lines by hand, %d lines in constant memory\n", sizeof LOG / sizeof *LOG + sizeof TIMED / sizeof *TIMED, LINES);
    return 0;
}
