#define _POSIX_C_SOURCE 200809L
#include "c_noted.h"
#include "c_test.h"

#include <pthread.h>
#include <time.h>

struct noted noted[NOTES];
unsigned noted_count, locks, reads_of_clock;
uint32_t answer_now, answer_after;
int held;
const uint8_t given_message[GIVEN_LENGTH] = {0xc1, 0xc2, 0xc3, 0xc4, 0xc5, 0xc6};

static pthread_mutex_t *the_lock;
static uint8_t *lent; /* the place for a message, which is anyone's once the lock is given back */

int __real_pthread_mutex_lock(pthread_mutex_t *lock);
int __real_pthread_mutex_unlock(pthread_mutex_t *lock);
int __wrap_pthread_mutex_lock(pthread_mutex_t *lock);
int __wrap_pthread_mutex_unlock(pthread_mutex_t *lock);
int __wrap_clock_gettime(clockid_t clock, struct timespec *now);

int __wrap_pthread_mutex_lock(pthread_mutex_t *lock) {
    expect(held == 0, "the lock is taken once");
    expect(the_lock == NULL || the_lock == lock, "there is one lock");
    the_lock = lock;
    const int result = __real_pthread_mutex_lock(lock);
    held++;
    locks++;
    return result;
}

int __wrap_pthread_mutex_unlock(pthread_mutex_t *lock) {
    expect(held == 1 && lock == the_lock, "the lock that is given back was taken");
    held--;
    if (lent != NULL) {
        memset(lent, 0xee, APEX_MESSAGE_LIMIT);
        lent = NULL;
    }
    return __real_pthread_mutex_unlock(lock);
}

uint64_t next_moment(void) { return (uint64_t)(5 + reads_of_clock) * 1000000000 + 600000007 + reads_of_clock; }

int __wrap_clock_gettime(clockid_t clock, struct timespec *now) {
    expect(clock == CLOCK_MONOTONIC, "the clock is the monotonic one");
    expect(held == 1, "the clock is read behind the lock");
    const uint64_t moment = next_moment();
    now->tv_sec = (time_t)(moment / 1000000000);
    now->tv_nsec = (long)(moment % 1000000000);
    reads_of_clock++;
    return 0;
}

static struct noted *note(const char *service, struct apex_handle *handle, uint32_t partition, uint64_t at) {
    expect(held == 1, "an export is called behind the lock");
    expect(noted_count < NOTES, "few calls");
    struct noted *new = &noted[noted_count++];
    memset(new, 0, sizeof *new);
    new->service = service;
    new->handle = handle;
    new->partition = partition;
    new->at = at;
    return new;
}

static uint32_t answer_of(struct noted *new) { return new == &noted[0] ? answer_now : answer_after; }

static void note_text(struct noted *new, const uint8_t *text, size_t length) {
    new->address = text;
    new->length = length;
    memcpy(new->text, text, length < TEXT_LIMIT ? length : TEXT_LIMIT);
}

static void note_numbers(struct noted *new, uint64_t a, uint64_t b, uint64_t c, uint64_t d) {
    const uint64_t numbers[4] = {a, b, c, d};
    memcpy(new->numbers, numbers, sizeof numbers);
}

static uint32_t give_number(struct noted *new, uint32_t *place, uint32_t value) {
    if (answer_of(new) == 0) {
        *place = value;
    }
    return answer_of(new);
}

/* (no test of the shim alone asks for words) */
uint32_t apex_open_explained(struct apex_handle *handle, const uint8_t *text, size_t length, uint8_t *path,
                             size_t path_room, uint64_t *path_length, uint8_t *lines, size_t lines_room,
                             uint64_t *lines_length) {
    struct noted *new = note("open", handle, 0, 0);
    (void)path, (void)path_room, (void)path_length, (void)lines, (void)lines_room, (void)lines_length;
    note_text(new, text, length);
    return answer_of(new);
}

uint32_t apex_call_words(struct apex_handle *handle, uint32_t partition, uint64_t at, const struct apex_call *call,
                         const uint8_t *bytes, size_t length, uint8_t *buffer, size_t buffer_length,
                         uint64_t *words_length) {
    (void)handle, (void)partition, (void)at, (void)call, (void)bytes, (void)length, (void)buffer, (void)buffer_length;
    (void)words_length;
    return 18;
}

uint32_t apex_close(struct apex_handle *handle) { return answer_of(note("close", handle, 0, 0)); }

uint32_t apex_create_sampling_port(struct apex_handle *handle, uint32_t partition, uint64_t at, const uint8_t *name,
                                   size_t length, uint32_t size, uint32_t direction, uint64_t refresh, uint32_t *id) {
    struct noted *new = note("create-sampling", handle, partition, at);
    note_text(new, name, length);
    note_numbers(new, size, direction, refresh, 0);
    return give_number(new, id, GIVEN_ID);
}

uint32_t apex_create_queuing_port(struct apex_handle *handle, uint32_t partition, uint64_t at, const uint8_t *name,
                                  size_t length, uint32_t size, uint32_t depth, uint32_t direction,
                                  uint32_t discipline, uint32_t *id) {
    struct noted *new = note("create-queuing", handle, partition, at);
    note_text(new, name, length);
    note_numbers(new, size, depth, direction, discipline);
    return give_number(new, id, GIVEN_ID);
}

static uint32_t note_search(const char *service, struct apex_handle *handle, uint32_t partition, uint64_t at,
                            const uint8_t *name, size_t length, uint32_t *id) {
    struct noted *new = note(service, handle, partition, at);
    note_text(new, name, length);
    return give_number(new, id, GIVEN_ID);
}

uint32_t apex_get_sampling_port_id(struct apex_handle *handle, uint32_t partition, uint64_t at, const uint8_t *name,
                                   size_t length, uint32_t *id) {
    return note_search("sampling-id", handle, partition, at, name, length, id);
}

uint32_t apex_get_queuing_port_id(struct apex_handle *handle, uint32_t partition, uint64_t at, const uint8_t *name,
                                  size_t length, uint32_t *id) {
    return note_search("queuing-id", handle, partition, at, name, length, id);
}

static uint32_t note_message(const char *service, struct apex_handle *handle, uint32_t partition, uint64_t at,
                             uint32_t id, const uint8_t *message, size_t length) {
    struct noted *new = note(service, handle, partition, at);
    new->address = message;
    new->length = length;
    note_numbers(new, id, 0, 0, 0);
    return answer_of(new);
}

uint32_t apex_write_sampling_message(struct apex_handle *handle, uint32_t partition, uint64_t at, uint32_t id,
                                     const uint8_t *message, size_t length) {
    return note_message("write", handle, partition, at, id, message, length);
}

uint32_t apex_send_queuing_message(struct apex_handle *handle, uint32_t partition, uint64_t at, uint32_t id,
                                   const uint8_t *message, size_t length) {
    return note_message("send", handle, partition, at, id, message, length);
}

static uint32_t give_message(struct noted *new, uint32_t id, uint8_t *buffer, size_t length, uint32_t *count) {
    expect(length >= APEX_MESSAGE_LIMIT, "the place for a message has room for the longest");
    note_numbers(new, id, 0, 0, 0);
    lent = buffer;
    if (answer_of(new) == 0) {
        memset(buffer, 0xdd, length);
        memcpy(buffer, given_message, GIVEN_LENGTH);
    }
    return give_number(new, count, GIVEN_LENGTH);
}

uint32_t apex_read_sampling_message(struct apex_handle *handle, uint32_t partition, uint64_t at, uint32_t id,
                                    uint8_t *buffer, size_t length, uint32_t *count, uint32_t *validity) {
    struct noted *new = note("read", handle, partition, at);
    give_number(new, validity, GIVEN_VALIDITY);
    return give_message(new, id, buffer, length, count);
}

uint32_t apex_receive_queuing_message(struct apex_handle *handle, uint32_t partition, uint64_t at, uint32_t id,
                                      uint8_t *buffer, size_t length, uint32_t *count) {
    return give_message(note("receive", handle, partition, at), id, buffer, length, count);
}

uint32_t apex_get_sampling_port_status(struct apex_handle *handle, uint32_t partition, uint64_t at, uint32_t id,
                                       struct apex_sampling_port_status *status) {
    struct noted *new = note("sampling-status", handle, partition, at);
    note_numbers(new, id, 0, 0, 0);
    if (answer_of(new) == 0) {
        *status = (struct apex_sampling_port_status){GIVEN_REFRESH, GIVEN_SIZE, GIVEN_DIRECTION, GIVEN_VALIDITY};
    }
    return answer_of(new);
}

uint32_t apex_get_queuing_port_status(struct apex_handle *handle, uint32_t partition, uint64_t at, uint32_t id,
                                      struct apex_queuing_port_status *status) {
    struct noted *new = note("queuing-status", handle, partition, at);
    note_numbers(new, id, 0, 0, 0);
    if (answer_of(new) == 0) {
        *status = (struct apex_queuing_port_status){GIVEN_WAITING, GIVEN_DEPTH, GIVEN_SIZE, GIVEN_DIRECTION};
    }
    return answer_of(new);
}

uint32_t apex_clear_queuing_port(struct apex_handle *handle, uint32_t partition, uint64_t at, uint32_t id) {
    struct noted *new = note("clear", handle, partition, at);
    note_numbers(new, id, 0, 0, 0);
    return answer_of(new);
}

uint32_t apex_set_partition_mode(struct apex_handle *handle, uint32_t partition, uint64_t at, uint32_t mode) {
    struct noted *new = note("mode", handle, partition, at);
    note_numbers(new, mode, 0, 0, 0);
    return answer_of(new);
}
