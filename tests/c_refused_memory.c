/* c_refused_memory CONFIG: opens with every request for memory refused in turn, and with all refused from each on,
 * until an opening meets no refusal. Each refused opening has to answer that memory ran out, leave the handle closed
 * and give all memory back. The words of a refused call and of a faulty configuration are asked for likewise, and a judge
 * is opened and asked. Then come calls with all memory refused, which have to ask for none. Prints the numbers. Its malloc
 * and the like take the place of the C library's, for the static library and for the shared object. */
#include "../c/apex_ports.h"
#include "c_test.h"
#include <stdlib.h>

enum { CALLS = 10000 };

/* What glibc has beneath its own. */
void *__libc_malloc(size_t size);
void *__libc_calloc(size_t count, size_t size);
void *__libc_realloc(void *block, size_t size);
void __libc_free(void *block);

/* The requests so far, which of them are refused, how many were, and how many blocks are held. */
static unsigned long asked, refuse_from, refuse_to, refused;
static long held;

static bool is_refused(void) {
    asked++;
    bool is = asked >= refuse_from && asked < refuse_to;
    refused += is;
    return is;
}

void *malloc(size_t size) {
    void *block = is_refused() ? NULL : __libc_malloc(size);
    held += block != NULL;
    return block;
}

void *calloc(size_t count, size_t size) {
    void *block = is_refused() ? NULL : __libc_calloc(count, size);
    held += block != NULL;
    return block;
}

void *realloc(void *block, size_t size) {
    void *other = is_refused() ? NULL : __libc_realloc(block, size);
    held += block == NULL && other != NULL;
    return other;
}

void free(void *block) {
    held -= block != NULL;
    __libc_free(block);
}

static void refuse(unsigned long from, unsigned long to) {
    asked = refused = 0;
    refuse_from = from;
    refuse_to = to;
}

/* Opens with these requests refused; whether one was. */
static bool is_opening_refused(const uint8_t *text, size_t length, unsigned long from, unsigned long to) {
    struct apex_handle handle;
    uint32_t mode = 7;
    memset(&handle, 0, sizeof handle);
    refuse(from, to);
    const uint32_t answer = apex_open(&handle, text, length);
    const bool was_refused = refused > 0;
    refuse(0, 0);
    if (was_refused) {
        expect(answer == APEX_OUT_OF_MEMORY, "a refused opening answers that memory ran out");
        expect(apex_partition_mode(&handle, 0, &mode) == APEX_NOT_OPEN && mode == 7, "the handle stays closed");
        expect(held == 0, "a refused opening gives all memory back");
        expect(apex_close(&handle) == APEX_NOT_OPEN, "there is nothing to close");
        expect(apex_open(&handle, text, length) == 0, "the handle can be opened afterwards");
    } else {
        expect(answer == 0, "an opening with ample memory");
    }
    expect(held > 0 && apex_close(&handle) == 0 && held == 0, "closing gives all memory back");
    return was_refused;
}

/* A function that writes words into a buffer, about a call or about a faulty text. */
typedef uint32_t telling(struct apex_handle *handle, uint8_t *buffer, size_t buffer_length, uint64_t *length);

static uint32_t tell_words(struct apex_handle *handle, uint8_t *buffer, size_t buffer_length, uint64_t *length) {
    const struct apex_call call = {.service = APEX_SEND_QUEUING_MESSAGE, .id = 99};
    return apex_call_words(handle, 0, 0, &call, (const uint8_t *)"", 0, buffer, buffer_length, length);
}

static const uint8_t faulty[] = "partition = [{ name = 'A.B' }, { name = 'A B' }]";

static uint32_t tell_fault(struct apex_handle *handle, uint8_t *buffer, size_t buffer_length, uint64_t *length) {
    (void)handle;
    return apex_configuration_fault(faulty, sizeof faulty - 1, buffer, buffer_length, length);
}

static uint32_t tell_mistakes(struct apex_handle *handle, uint8_t *buffer, size_t buffer_length, uint64_t *length) {
    (void)handle;
    return apex_configuration_mistakes(faulty, sizeof faulty - 1, buffer, buffer_length, length);
}

static uint32_t tell_opening(struct apex_handle *handle, uint8_t *buffer, size_t buffer_length, uint64_t *length) {
    static uint8_t path[64];
    struct apex_handle closed;
    uint64_t path_length = 0;
    (void)handle;
    memset(&closed, 0, sizeof closed);
    const uint32_t answer = apex_open_explained(&closed, faulty, sizeof faulty - 1, path, sizeof path, &path_length, buffer,
                                                buffer_length, length);
    expect((path_length > 0) == (answer != APEX_OUT_OF_MEMORY), "the path comes with the lines");
    expect(apex_close(&closed) == APEX_NOT_OPEN, "the handle stays closed");
    return answer;
}

/* Asks for the words with each request refused in turn, and with all from each on, until none is. Returns how often one
 * was refused. */
static unsigned long tell_without_memory(const uint8_t *text, size_t length, telling *tell, uint32_t right,
                                         uint32_t no_memory) {
    static uint8_t buffer[512];
    struct apex_handle handle;
    unsigned long tried = 0;
    memset(&handle, 0, sizeof handle);
    refuse(0, 0);
    expect(apex_open(&handle, text, length) == 0, "opening");
    const long held_before = held;
    for (int all = 0; all < 2; all++) {
        bool was_refused = true;
        for (unsigned long from = 1; was_refused; from++) {
            uint64_t written = 77;
            memset(buffer, 7, sizeof buffer);
            refuse(from, all ? -1UL : from + 1);
            const uint32_t answer = tell(&handle, buffer, sizeof buffer, &written);
            was_refused = refused > 0;
            refuse(0, 0);
            expect(held == held_before, "telling gives all memory back");
            expect(answer == (was_refused ? no_memory : right), "telling answers that memory ran out, or what it must");
            expect((written == 77 && buffer[0] == 7) == was_refused, "running out of memory changes nothing");
            tried += was_refused;
        }
    }
    expect(apex_close(&handle) == 0 && held == 0, "closing afterwards");
    return tried;
}

/* Opens a judge with each request refused in turn, and judges a call with all refused from each on, until none is. What was
 * refused is not noted, and the judge gives the same answer afterwards. Gives how often memory was refused. */
static unsigned long judge_without_memory(const uint8_t *text, size_t length) {
    static uint8_t message[APEX_MESSAGE_LIMIT], said[256];
    const struct apex_call call = {.service = APEX_SEND_QUEUING_MESSAGE, .id = 99};
    const struct apex_reply reply = {.code = 0};
    struct apex_judge judge;
    struct apex_departure departure = {.row = 77};
    unsigned long openings = 0, calls = 0;
    memset(&judge, 0, sizeof judge);
    for (bool was_refused = true; was_refused; openings += was_refused) {
        refuse(openings + 1, openings + 2);
        const uint32_t answer = apex_judge_open(&judge, text, length);
        was_refused = refused > 0;
        refuse(0, 0);
        expect(answer == (was_refused ? APEX_OUT_OF_MEMORY : 0), "a judge is opened, or answers that memory was refused");
        expect((held == 0) == was_refused, "a refused opening gives all memory back");
    }
    const long held_before = held;
    for (bool was_refused = true; was_refused; calls += was_refused) {
        refuse(calls + 1, -1UL);
        const uint32_t answer = apex_judge_call(&judge, 0, 0, &call, text, 1, &reply, text, 0, &departure, message,
                                                sizeof message, said, sizeof said);
        was_refused = refused > 0;
        refuse(0, 0);
        expect(answer == (was_refused ? APEX_NO_MEMORY : APEX_DEPARTS), "a call departs, or memory was refused");
        expect((departure.row == 77) == was_refused && held == held_before, "and nothing else changes");
    }
    expect(apex_judge_close(&judge) == 0 && held == 0, "closing the judge gives all memory back");
    return openings + calls;
}

/* Judges a line with all requests refused from each on, until none is. What was refused is not noted, and the judge gives
 * the same answer afterwards. Gives how often memory was refused. */
static unsigned long judge_line_without_memory(const uint8_t *config, size_t length, const char *text, uint32_t right) {
    static uint8_t message[APEX_MESSAGE_LIMIT], said[512];
    struct apex_judge judge;
    struct apex_departure departure = {.row = 77, .words_length = 77};
    struct apex_line line = {.kind = 77};
    unsigned long tried = 0;
    memset(&judge, 0, sizeof judge);
    refuse(0, 0);
    expect(apex_judge_open(&judge, config, length) == 0, "a judge of lines is opened");
    const long held_before = held;
    for (bool was_refused = true; was_refused; tried += was_refused) {
        refuse(tried + 1, -1UL);
        const uint32_t answer = apex_judge_line(&judge, (const uint8_t *)text, strlen(text), 0, &line, &departure, message,
                                                sizeof message, said, sizeof said);
        was_refused = refused > 0;
        refuse(0, 0);
        expect(answer == (was_refused ? APEX_NO_MEMORY : right), "a line is judged, or memory was refused");
        expect((line.kind == 77) == was_refused && (departure.words_length == 77) == was_refused, "and nothing else changes");
        expect(held == held_before, "judging gives all memory back");
    }
    expect(apex_judge_close(&judge) == 0 && held == 0, "closing the judge of lines gives all memory back");
    return tried;
}

/* Calls and readers on open ports, which ask for no memory. */
static void call_without_memory(const uint8_t *text, size_t length) {
    static uint8_t bytes[APEX_MESSAGE_LIMIT];
    struct apex_handle handle;
    memset(&handle, 0, sizeof handle);
    refuse(0, 0);
    expect(apex_open(&handle, text, length) == 0, "opening");
    const long held_before = held;
    refuse(1, -1UL);
    for (uint32_t i = 0; i < CALLS; i++) {
        uint32_t id = 0, count = 0, validity = 0;
        struct apex_queuing_port_status status;
        apex_create_queuing_port(&handle, 0, i, (const uint8_t *)"NAV_OUT", 7, 4, 2, 0, 0, &id);
        apex_create_queuing_port(&handle, 1, i, (const uint8_t *)"NAV_IN", 6, 4, 2, 1, 0, &id);
        apex_send_queuing_message(&handle, 0, i, 1, bytes, 4);
        apex_receive_queuing_message(&handle, 1, i, 1, bytes, sizeof bytes, &count);
        apex_read_sampling_message(&handle, 1, i, 2, bytes, sizeof bytes, &count, &validity);
        apex_waiting_message(&handle, 0, 0, bytes, sizeof bytes, &count);
        apex_port_name(&handle, 0, 1, bytes, sizeof bytes, &count);
        apex_find_channel(&handle, bytes, count, &id);
        apex_get_queuing_port_status(&handle, 1, i, 1, &status);
        apex_clear_queuing_port(&handle, 1, i, 1);
        apex_set_partition_mode(&handle, i % 2, i, 1 + i % 3);
        const struct apex_call call = {.service = i % 12, .id = 1};
        apex_call_row(&handle, 1, i, &call, (const uint8_t *)"NAV_IN", 6, &count);
    }
    uint64_t calls = 0;
    expect(apex_call_count(&handle, 0, &calls) == 0 && calls == CALLS * 2 + CALLS / 2, "each call was served");
    expect(asked == 0 && held == held_before, "neither a call nor a reader asks for memory");
    expect(apex_close(&handle) == 0 && held == 0, "closing afterwards");
}

int main(int count, char **words) {
    static uint8_t text[1048576];
    expect(count == 2, "usage: c_refused_memory CONFIG");
    const size_t length = read_config(words[1], text, sizeof text);
    held = 0;
    unsigned long one = 0, all = 0;
    while (is_opening_refused(text, length, one + 1, one + 2)) {
        one++;
    }
    while (is_opening_refused(text, length, all + 1, -1UL)) {
        all++;
    }
    call_without_memory(text, length);
    const unsigned long answers = tell_without_memory(text, length, tell_words, 0, APEX_NO_MEMORY) +
                               tell_without_memory(text, length, tell_fault, 3, APEX_OUT_OF_MEMORY) +
                               tell_without_memory(text, length, tell_mistakes, 3, APEX_OUT_OF_MEMORY) +
                               tell_without_memory(text, length, tell_opening, 3, APEX_OUT_OF_MEMORY) +
                               judge_without_memory(text, length) +
                               judge_line_without_memory(text, length, "0 NONE mode 3 -> NO_ERROR", APEX_FAULTY_LINE);
    printf("%lu openings with one request refused, %lu with all from one on; %lu refused tellings\n", one, all, answers);
    return 0;
}
