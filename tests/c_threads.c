/* c_threads CONFIG MESSAGES: a thread of partition 0 sends and a thread of partition 1 receives, with no order between
 * them but that of the lock, and the clock runs. Every message has to come once and in order. Beside them partition 2
 * writes samples that partition 1 reads, and none may be older than one that it read before. */
#include "../c/apex.h"
#include "c_test.h"

#include <pthread.h>
#include <sched.h>

static uint32_t messages;

static void *send(void *unused) {
    QUEUING_PORT_NAME_TYPE name = "NAV_OUT";
    QUEUING_PORT_ID_TYPE id;
    RETURN_CODE_TYPE code;
    APEX_BYTE message[4];
    bench_set_partition(0);
    CREATE_QUEUING_PORT(name, 4, 2, SOURCE, FIFO, &id, &code);
    expect(code == NO_ERROR, "creating the source");
    for (uint32_t number = 0; number < messages;) {
        memcpy(message, &number, 4);
        SEND_QUEUING_MESSAGE(id, message, 4, INFINITE_TIME_VALUE, &code);
        expect(code == NO_ERROR || code == TIMED_OUT, "sending");
        code == NO_ERROR ? (void)number++ : (void)sched_yield();
    }
    return unused;
}

static void *write_samples(void *unused) {
    SAMPLING_PORT_NAME_TYPE name = "SPD_OUT";
    SAMPLING_PORT_ID_TYPE id;
    RETURN_CODE_TYPE code;
    APEX_BYTE message[4];
    bench_set_partition(2);
    CREATE_SAMPLING_PORT(name, 4, SOURCE, 50, &id, &code);
    expect(code == NO_ERROR, "creating the source of samples");
    for (uint32_t number = 0; number < messages; number++) {
        memcpy(message, &number, 4);
        WRITE_SAMPLING_MESSAGE(id, message, 4, &code);
        expect(code == NO_ERROR, "writing");
    }
    return unused;
}

static void read_sample(SAMPLING_PORT_ID_TYPE id, uint32_t *last) {
    RETURN_CODE_TYPE code;
    APEX_BYTE message[4];
    MESSAGE_SIZE_TYPE length;
    VALIDITY_TYPE validity;
    uint32_t number;
    READ_SAMPLING_MESSAGE(id, message, &length, &validity, &code);
    expect(code == NO_ERROR || code == NO_ACTION, "reading");
    if (code == NO_ERROR) {
        memcpy(&number, message, 4);
        expect(length == 4 && number >= *last, "samples come in their order");
        *last = number;
    }
}

static void *receive(void *unused) {
    QUEUING_PORT_NAME_TYPE queuing_name = "NAV_IN";
    SAMPLING_PORT_NAME_TYPE sampling_name = "SPD_IN";
    QUEUING_PORT_ID_TYPE queuing_id;
    SAMPLING_PORT_ID_TYPE sampling_id;
    RETURN_CODE_TYPE code;
    APEX_BYTE message[4];
    MESSAGE_SIZE_TYPE length;
    uint32_t number, last = 0;
    bench_set_partition(1);
    CREATE_QUEUING_PORT(queuing_name, 4, 2, DESTINATION, FIFO, &queuing_id, &code);
    expect(code == NO_ERROR, "creating the destination");
    CREATE_SAMPLING_PORT(sampling_name, 4, DESTINATION, 50, &sampling_id, &code);
    expect(code == NO_ERROR, "creating the destination of samples");
    for (uint32_t next = 0; next < messages;) {
        RECEIVE_QUEUING_MESSAGE(queuing_id, 1000, message, &length, &code);
        if (code == NO_ERROR) {
            memcpy(&number, message, 4);
            expect(length == 4 && number == next++, "messages come once and in order");
        } else {
            expect(code == TIMED_OUT, "receiving");
            sched_yield();
        }
        read_sample(sampling_id, &last);
    }
    return unused;
}

int main(int count, char **words) {
    static char text[65536];
    void *(*const bodies[])(void *) = {send, receive, write_samples};
    pthread_t threads[3];
    expect(count == 3, "usage: c_threads CONFIG MESSAGES");
    const size_t length = read_config(words[1], text, sizeof text);
    messages = (uint32_t)atol(words[2]);
    expect(bench_open(text, length) == 0, "opening");
    for (int i = 0; i < 3; i++) {
        expect(pthread_create(&threads[i], NULL, bodies[i], NULL) == 0, "starting a thread");
    }
    for (int i = 0; i < 3; i++) {
        pthread_join(threads[i], NULL);
    }
    uint64_t accepted = 0, received = 0;
    struct apex_handle *handle = bench_take_handle();
    apex_accepted_count(handle, 0, &accepted);
    apex_received_count(handle, 0, &received);
    bench_give_handle_back();
    expect(accepted == messages && received == messages, "the counts of the channel");
    expect(bench_close() == 0, "closing");
    printf("%u messages and as many samples\n", messages);
    return 0;
}
