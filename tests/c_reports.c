/* c_reports CONFIG: what a bench learns without code of its own: the lines of a refused configuration, the words of a
 * refused call, names, the report and the log; by the rules of docs/C.md. Prints a report and a log, as worked out by
 * hand in c_reports.txt, and the lines that the bench says to a sink; what it says on standard error is in
 * c_reports.stderr.txt. */
#include "c_process_test.h"

#include <pthread.h>

static void say(const char *line) { printf("said: %s\n", line); }

static void words_are(const char *wanted) {
    if (strcmp(bench_last_words(), wanted) != 0) {
        fprintf(stderr, "%s, not %s\n", bench_last_words(), wanted);
    }
    expect(strcmp(bench_last_words(), wanted) == 0, "the words of the last refused call");
}

/* Of a text that is no TOML the form of the line is promised, not its words. */
static void is_no_toml(const char *line) {
    expect(strncmp(line, "line 1, column ", 15) == 0, "the line of a text that is no TOML");
    seen++;
}

static void refused_configurations(void) {
    static const char faulty[] = "[[partition]]\nname = \"A\"\n[[partition]]\nname = \"A\"\n";
    bench_tell_to(say);
    expect(bench_open(NULL, 0) == 1 && bench_open(faulty, sizeof faulty - 1) == 4, "faulty configurations");
    expect(!bench_report(stdout) && !bench_run_frame(1), "no module");
    bench_tell_to(is_no_toml);
    seen = 0;
    expect(bench_open("x", 1) == 1 && seen == 1 && bench_close() == APEX_NOT_OPEN, "a text that is no TOML");
    bench_tell_to(NULL);
    expect(bench_open(faulty, sizeof faulty - 1) == 4, "a faulty configuration");
}

static void names(void) {
    NAME_TYPE name;
    memset(name, 'x', sizeof name);
    bench_name(name, "A");
    for (int i = 1; i < MAX_NAME_LENGTH; i++) {
        expect(name[0] == 'A' && name[i] == '\0', "a name is filled with zeros");
    }
    bench_name(name, "A123456789B123456789C123456789D");
    expect(memcmp(name, "A123456789B123456789C123456789", sizeof name) == 0, "a name of 30 bytes");
}

/* The words are those of the thread's own last refused call: a thread without one has none. */

static void *other_thread(void *nothing) {
    words_are("");
    return nothing;
}

static void words_of_threads(void) {
    pthread_t thread;
    expect(pthread_create(&thread, NULL, other_thread, NULL) == 0 && pthread_join(thread, NULL) == 0, "a thread");
    words_are("message of 65 bytes, channel Q takes 64");
}

/* Calls of A and B, whose moments are 0 to 9; each is a line of the log. */
static void calls(void) {
    QUEUING_PORT_NAME_TYPE out = "Q_OUT", none = "NONE", no_name = "Q-OUT";
    SAMPLING_PORT_NAME_TYPE sample = "S";
    QUEUING_PORT_STATUS_TYPE status;
    QUEUING_PORT_ID_TYPE id;
    APEX_BYTE message[2000] = {0x0a, 0xff};
    MESSAGE_SIZE_TYPE length;
    RETURN_CODE_TYPE code;
    bench_set_moment(1);
    bench_set_partition(0);
    words_are("");
    CREATE_QUEUING_PORT(none, 64, 4, SOURCE, PRIORITY, &id, &code);
    words_are("A has no queuing port NONE configured");
    CREATE_QUEUING_PORT(no_name, 64, 4, SOURCE, PRIORITY, &id, &code); /* no call */
    CREATE_QUEUING_PORT(out, 64, 4, SOURCE, PRIORITY, &id, &code);
    CREATE_SAMPLING_PORT(sample, -1, SOURCE, INFINITE_TIME_VALUE, &id, &code); /* numbers that no log has */
    bench_set_moment(2);
    SEND_QUEUING_MESSAGE(1, message, 2, INFINITE_TIME_VALUE, &code);
    SEND_QUEUING_MESSAGE(1, message, 65, 0, &code);
    words_are("message of 65 bytes, channel Q takes 64");
    words_of_threads();
    SEND_QUEUING_MESSAGE(1, message, 2000, 0, &code); /* a message that no log has */
    words_are("message of 2000 bytes, channel Q takes 64");
    GET_QUEUING_PORT_ID(out, &id, &code);
    GET_QUEUING_PORT_STATUS(1, &status, &code);
    SET_PARTITION_MODE(IDLE, &code);
    CLEAR_QUEUING_PORT(1, &code);
    bench_set_partition(1);
    bench_set_moment(9);
    RECEIVE_QUEUING_MESSAGE(1, 5, message, &length, &code);
}

int main(int count, char **words) {
    expect(count == 2, "usage: c_reports CONFIG");
    text_length = read_config(words[1], text, sizeof text);
    refused_configurations();
    names();
    expect(bench_open(text, text_length) == 0, "opening");
    expect(!bench_log(stdout) && bench_report(stdout), "a report without calls, and no log");
    expect(bench_keep_calls(true), "keeping calls");
    calls();
    expect(bench_report(stdout) && bench_log(stdout), "the report and the log");
    expect(bench_keep_calls(false) && !bench_log(stdout), "no log any more");
    expect(bench_close() == 0, "closing");
    return 0;
}
