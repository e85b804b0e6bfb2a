/* The ports of a module for programs in C: what the static library of crates/apex_c exports.
 *
 * The contracts of these functions are in crates/apex_c/src, and are proved of every call that keeps what is
 * assumed of the caller. docs/C.md has how to link, and a whole example. apex.h has the standard's own names.
 *
 * Assumed of the caller of every function:
 *   - the handle begins all zero; it isn't copied, and nothing but these functions writes it;
 *   - no pointer is null, not even with a length of 0, and each points to a value of its type;
 *   - no two parameters of a call overlap;
 *   - one call at a time on a handle, and none from a signal handler;
 *   - the program's malloc, realloc and free are of one allocator.
 * If a function assumes more, its comment says so.
 *
 * All else is tested, and has an answer of its own: a handle that is not open, or is open already; a partition,
 * a channel, an identifier or a service that is not there; a text that is no name; a buffer that is too short. */
#ifndef APEX_PORTS_H
#define APEX_PORTS_H

#include <stdbool.h>
#include <stddef.h>
#include <stdint.h>

#ifdef __cplusplus
extern "C" {
#endif

/* The most bytes that a message can have, a name, and a line of a log. */
enum { APEX_MESSAGE_LIMIT = 1024, APEX_NAME_LIMIT = 30, APEX_LINE_LIMIT = 65536 };

/* The ports of a module, or none. */
struct apex_handle {
    bool is_open;
    void *ports;
};

/* What a service answers: the standard's return code, 0 (NO_ERROR) to 5 (INVALID_MODE), or one of these. */
enum {
    APEX_NOT_MADE = 7,      /* the partition is in IDLE: the call wasn't made, and is recorded so */
    APEX_NOT_OPEN = 8,      /* the handle isn't open; nothing changed */
    APEX_NO_PARTITION = 9,  /* the module has no partition of the number; nothing changed */
    APEX_TOO_LONG = 10,     /* a judge's answer: a message or a line has more bytes than a log's; nothing changed */
    APEX_NO_NAME = 11,      /* the text isn't 1 to 30 letters, digits or _; nothing changed */
    APEX_SHORT_BUFFER = 12, /* the buffer has too little room; nothing changed */
    APEX_NO_CHANNEL = 13,   /* a reader's answer: the module has no channel of the number */
    APEX_NO_SAMPLE = 14,    /* apex_last_sample's answer: a queuing channel, or one that was never written */
    APEX_NO_PORT = 15,      /* a reader's answer: the partition has no port of the identifier */
    APEX_UNKNOWN_NAME = 16, /* a reader's answer: nothing has the name */
    APEX_NO_MESSAGE = 17,   /* apex_waiting_message's answer: no message of the index waits */
    APEX_NO_SERVICE = 18,   /* an answer to what is asked of a call: no service has the number */
    APEX_NO_MEMORY = 19,    /* an answer of apex_call_words and a judge: memory was refused; nothing changed */
    APEX_DEPARTS = 20,      /* a judge's answer: the reply isn't the standard's */
    APEX_NO_REPLY = 21,     /* apex_judge_call's answer: no reply of the service has the values; nothing changed */
    APEX_FAULTY_LINE = 22   /* apex_judge_line's answer: the line can't be read; the judge stays as it was */
};

/* What apex_open answers beside 0, and 1 to 10 for a fault of the configuration (docs/FORMATS.md). */
enum {
    APEX_OUT_OF_MEMORY = 11, /* memory was refused */
    APEX_ALREADY_OPEN = 12   /* the handle was open before; nothing changed */
};

/* Opens a handle with the ports of a configuration, a TOML text, every partition in COLD_START. The handle stays closed
 * if the answer isn't 0. All memory is taken here, and given back by apex_close.
 * Assumed: `text` points to `text_length` bytes. */
uint32_t apex_open(struct apex_handle *handle, const uint8_t *text, size_t text_length);

/* Why a configuration is refused, and where. The answer is that of apex_open for the text, with a handle that isn't open.
 * The path of the fault's first place, such as `partition[0].port[1].kind`, goes into the buffer, and its length into
 * its place; no zero follows. Indexes count from 0. `configuration` is the text as a whole. For an unknown key, the path
 * is that of the partition, port or channel that has it. The buffer stays as it was if it is shorter than the path. If
 * the answer is 0 or APEX_OUT_OF_MEMORY, buffer and length stay as they were.
 * Assumed: `text` points to `text_length` bytes and `buffer` to `buffer_length`. */
uint32_t apex_configuration_fault(const uint8_t *text, size_t text_length, uint8_t *buffer, size_t buffer_length,
                                  uint64_t *path_length);

/* The same, with a line of ASCII in place of the path for each place that the fault has: what holds it, what is wrong
 * there, and what must be there (docs/FORMATS.md). If there are more than 20 places, it has lines for the first 20 and
 * then `and N more`. Each line ends in a line feed.
 * Assumed: `text` points to `text_length` bytes and `buffer` to `buffer_length`. */
uint32_t apex_configuration_mistakes(const uint8_t *text, size_t text_length, uint8_t *buffer, size_t buffer_length,
                                     uint64_t *lines_length);

/* Opens a handle as apex_open does. If the text is refused, the path and the lines go into their buffers, as
 * apex_configuration_fault and apex_configuration_mistakes put them, from one reading of the text. If the answer is
 * APEX_OUT_OF_MEMORY or APEX_ALREADY_OPEN, buffers and lengths stay as they were.
 * Assumed: `text` points to `text_length` bytes, `path` to `path_room`, and `lines` to `lines_room`. */
uint32_t apex_open_explained(struct apex_handle *handle, const uint8_t *text, size_t text_length, uint8_t *path,
                             size_t path_room, uint64_t *path_length, uint8_t *lines, size_t lines_room,
                             uint64_t *lines_length);

/* Closes a handle, which can be opened again. Answers 0, or APEX_NOT_OPEN. Assumed: no more than above. */
uint32_t apex_close(struct apex_handle *handle);

/* The services. `partition` is the partition's number, from 0 in the order of the configuration; `at` is the moment in
 * nanoseconds; then come the parameters of the standard in its order. Time-outs are zero. What a service gives beside
 * its answer goes to its place (`id`, `status`, `message_length`, `validity`, the buffer's first bytes) if the
 * answer is 0, and otherwise the place stays as it was. The buffer of a receive or a read needs room for the messages of
 * the port's channel, or the answer is APEX_SHORT_BUFFER. */

/* CREATE_SAMPLING_PORT. `size` is in bytes, `refresh` in nanoseconds.
 * Assumed: `name` points to `name_length` bytes. */
uint32_t apex_create_sampling_port(struct apex_handle *handle, uint32_t partition, uint64_t at, const uint8_t *name,
                                   size_t name_length, uint32_t size, uint32_t direction, uint64_t refresh,
                                   uint32_t *id);

/* WRITE_SAMPLING_MESSAGE, with a message of any length. Assumed: `message` points to `message_length` bytes. */
uint32_t apex_write_sampling_message(struct apex_handle *handle, uint32_t partition, uint64_t at, uint32_t id,
                                     const uint8_t *message, size_t message_length);

/* READ_SAMPLING_MESSAGE. If the answer is 0, `message_length` has the message's length and `validity` 0 (INVALID) or
 * 1 (VALID). Assumed: `buffer` points to `buffer_length` bytes. */
uint32_t apex_read_sampling_message(struct apex_handle *handle, uint32_t partition, uint64_t at, uint32_t id,
                                    uint8_t *buffer, size_t buffer_length, uint32_t *message_length,
                                    uint32_t *validity);

/* GET_SAMPLING_PORT_ID. Assumed: `name` points to `name_length` bytes. */
uint32_t apex_get_sampling_port_id(struct apex_handle *handle, uint32_t partition, uint64_t at, const uint8_t *name,
                                   size_t name_length, uint32_t *id);

/* The refresh period in nanoseconds, the greatest length of a message in bytes, and the numbers of the direction and of
 * the validity of the last read. */
struct apex_sampling_port_status {
    uint64_t refresh;
    uint32_t size;
    uint32_t direction;
    uint32_t last_validity;
};

/* GET_SAMPLING_PORT_STATUS. Assumed: no more than above. */
uint32_t apex_get_sampling_port_status(struct apex_handle *handle, uint32_t partition, uint64_t at, uint32_t id,
                                       struct apex_sampling_port_status *status);

/* CREATE_QUEUING_PORT. `size` is in bytes, `depth` in messages. Assumed: `name` points to `name_length` bytes. */
uint32_t apex_create_queuing_port(struct apex_handle *handle, uint32_t partition, uint64_t at, const uint8_t *name,
                                  size_t name_length, uint32_t size, uint32_t depth, uint32_t direction,
                                  uint32_t discipline, uint32_t *id);

/* SEND_QUEUING_MESSAGE, with a message of any length. Assumed: `message` points to `message_length` bytes. */
uint32_t apex_send_queuing_message(struct apex_handle *handle, uint32_t partition, uint64_t at, uint32_t id,
                                   const uint8_t *message, size_t message_length);

/* RECEIVE_QUEUING_MESSAGE. Assumed: `buffer` points to `buffer_length` bytes. */
uint32_t apex_receive_queuing_message(struct apex_handle *handle, uint32_t partition, uint64_t at, uint32_t id,
                                      uint8_t *buffer, size_t buffer_length, uint32_t *message_length);

/* GET_QUEUING_PORT_ID. Assumed: `name` points to `name_length` bytes. */
uint32_t apex_get_queuing_port_id(struct apex_handle *handle, uint32_t partition, uint64_t at, const uint8_t *name,
                                  size_t name_length, uint32_t *id);

/* The messages that wait, the depth, the greatest length of a message in bytes, and the direction's number. */
struct apex_queuing_port_status {
    uint32_t waiting;
    uint32_t depth;
    uint32_t size;
    uint32_t direction;
};

/* GET_QUEUING_PORT_STATUS. Assumed: no more than above. */
uint32_t apex_get_queuing_port_status(struct apex_handle *handle, uint32_t partition, uint64_t at, uint32_t id,
                                      struct apex_queuing_port_status *status);

/* CLEAR_QUEUING_PORT. Assumed: no more than above. */
uint32_t apex_clear_queuing_port(struct apex_handle *handle, uint32_t partition, uint64_t at, uint32_t id);

/* SET_PARTITION_MODE. Assumed: no more than above. */
uint32_t apex_set_partition_mode(struct apex_handle *handle, uint32_t partition, uint64_t at, uint32_t mode);

/* The readers, which change nothing. Each answers 0 or APEX_NOT_OPEN, APEX_NO_PARTITION if it takes a partition and
 * APEX_NO_CHANNEL if it takes a channel. If the answer isn't 0, each place stays as it was. Partitions and channels are
 * numbered from 0 in the order of the configuration, and the identifiers of a partition's ports from 1. A count of
 * calls or messages stays at the greatest uint64_t. Assumed: no more than above, and beyond that `buffer` points to
 * `buffer_length` bytes and `name` to `name_length`. */

/* The number of a partition's mode. */
uint32_t apex_partition_mode(struct apex_handle *handle, uint32_t partition, uint32_t *mode);

/* How many calls a partition made, those that were not made in IDLE included. */
uint32_t apex_call_count(struct apex_handle *handle, uint32_t partition, uint64_t *count);

/* How many messages a queuing channel accepted; how many of them were received, were cleared, and wait. All are 0 on a
 * sampling channel. */
uint32_t apex_accepted_count(struct apex_handle *handle, uint32_t channel, uint64_t *count);
uint32_t apex_received_count(struct apex_handle *handle, uint32_t channel, uint64_t *count);
uint32_t apex_cleared_count(struct apex_handle *handle, uint32_t channel, uint64_t *count);
uint32_t apex_waiting_count(struct apex_handle *handle, uint32_t channel, uint64_t *count);

/* The message that a sampling channel holds, with its length and the moment of its writing in nanoseconds. Answers
 * APEX_SHORT_BUFFER or APEX_NO_SAMPLE too. */
uint32_t apex_last_sample(struct apex_handle *handle, uint32_t channel, uint8_t *buffer, size_t buffer_length,
                          uint32_t *message_length, uint64_t *at);

/* The message of an index among those that wait on a channel, of which 0 is the oldest, with its length. Answers
 * APEX_SHORT_BUFFER or APEX_NO_MESSAGE too. */
uint32_t apex_waiting_message(struct apex_handle *handle, uint32_t channel, uint64_t index, uint8_t *buffer,
                              size_t buffer_length, uint32_t *message_length);

/* How many partitions and channels the module has, and how many ports a partition. */
uint32_t apex_partition_count(struct apex_handle *handle, uint32_t *count);
uint32_t apex_channel_count(struct apex_handle *handle, uint32_t *count);
uint32_t apex_port_count(struct apex_handle *handle, uint32_t partition, uint32_t *count);

/* The refresh period in nanoseconds, 0 of a queuing port; the channel's number; the direction's number; whether it is a
 * queuing or a sampling port. */
struct apex_configured_port {
    uint64_t refresh;
    uint32_t channel;
    uint32_t direction;
    bool is_queuing;
};

/* What the configuration says of a partition's port, whether it was created or not. Answers APEX_NO_PORT too. */
uint32_t apex_port_configuration(struct apex_handle *handle, uint32_t partition, uint32_t id,
                                 struct apex_configured_port *shown);

/* The greatest length of a message in bytes; the depth in messages, 0 of a sampling channel; whether it is a queuing or
 * a sampling channel. */
struct apex_configured_channel {
    uint32_t size;
    uint32_t depth;
    bool is_queuing;
};

/* What the configuration says of a channel. */
uint32_t apex_channel_configuration(struct apex_handle *handle, uint32_t channel,
                                    struct apex_configured_channel *shown);

/* The names of a partition, of a partition's port and of a channel: the first bytes of the buffer, which needs
 * APEX_NAME_LIMIT, and the length; no zero follows. Answers APEX_SHORT_BUFFER too, and for a port APEX_NO_PORT. */
uint32_t apex_partition_name(struct apex_handle *handle, uint32_t partition, uint8_t *buffer, size_t buffer_length,
                             uint32_t *name_length);
uint32_t apex_port_name(struct apex_handle *handle, uint32_t partition, uint32_t id, uint8_t *buffer,
                        size_t buffer_length, uint32_t *name_length);
uint32_t apex_channel_name(struct apex_handle *handle, uint32_t channel, uint8_t *buffer, size_t buffer_length,
                           uint32_t *name_length);

/* The number of the partition and of the channel of a name, and the identifier of a partition's port of a name, whether
 * it was created or not. Answers APEX_NO_NAME or APEX_UNKNOWN_NAME too. */
uint32_t apex_find_partition(struct apex_handle *handle, const uint8_t *name, size_t name_length,
                             uint32_t *partition);
uint32_t apex_find_port(struct apex_handle *handle, uint32_t partition, const uint8_t *name, size_t name_length,
                        uint32_t *id);
uint32_t apex_find_channel(struct apex_handle *handle, const uint8_t *name, size_t name_length, uint32_t *channel);

/* Why a call gets its reply. A call is asked about and not made: nothing changes, and the history doesn't have it.
 * After a call that wasn't made or was refused the answers are those before it. */

/* The services, by their numbers. */
enum apex_service {
    APEX_CREATE_SAMPLING_PORT = 0,
    APEX_WRITE_SAMPLING_MESSAGE = 1,
    APEX_READ_SAMPLING_MESSAGE = 2,
    APEX_GET_SAMPLING_PORT_ID = 3,
    APEX_GET_SAMPLING_PORT_STATUS = 4,
    APEX_CREATE_QUEUING_PORT = 5,
    APEX_SEND_QUEUING_MESSAGE = 6,
    APEX_RECEIVE_QUEUING_MESSAGE = 7,
    APEX_GET_QUEUING_PORT_ID = 8,
    APEX_GET_QUEUING_PORT_STATUS = 9,
    APEX_CLEAR_QUEUING_PORT = 10,
    APEX_SET_PARTITION_MODE = 11
};

/* A call: its service, and the values that it is made with. What the service doesn't take has no effect. */
struct apex_call {
    uint64_t refresh;
    uint32_t service;
    uint32_t id;
    uint32_t size;
    uint32_t depth;
    uint32_t direction;
    uint32_t discipline;
    uint32_t mode;
};

/* The rows of the reply table (docs/STANDARD.md). A call that isn't made, or the first check of its service that
 * refuses it; and of each kind of accepted calls its row. */
enum apex_row {
    APEX_ROW_IN_IDLE = 0,                   /* not made */
    APEX_ROW_NOT_CONFIGURED = 1,            /* INVALID_CONFIG */
    APEX_ROW_ALREADY_CREATED = 2,           /* NO_ACTION */
    APEX_ROW_SIZE_DIFFERS = 3,              /* INVALID_CONFIG */
    APEX_ROW_DEPTH_DIFFERS = 4,             /* INVALID_CONFIG */
    APEX_ROW_DIRECTION_DIFFERS = 5,         /* INVALID_CONFIG */
    APEX_ROW_REFRESH_PERIOD_DIFFERS = 6,    /* INVALID_CONFIG */
    APEX_ROW_UNKNOWN_DISCIPLINE = 7,        /* INVALID_CONFIG */
    APEX_ROW_IN_NORMAL = 8,                 /* INVALID_MODE */
    APEX_ROW_NOT_CREATED = 9,               /* INVALID_CONFIG */
    APEX_ROW_NO_SUCH_PORT = 10,             /* INVALID_PARAM */
    APEX_ROW_EMPTY_MESSAGE = 11,            /* INVALID_PARAM */
    APEX_ROW_MESSAGE_TOO_LONG = 12,         /* INVALID_CONFIG */
    APEX_ROW_NOT_A_SOURCE = 13,             /* INVALID_MODE */
    APEX_ROW_NOT_A_DESTINATION = 14,        /* INVALID_MODE */
    APEX_ROW_QUEUE_FULL = 15,               /* NOT_AVAILABLE */
    APEX_ROW_QUEUE_EMPTY = 16,              /* NOT_AVAILABLE */
    APEX_ROW_NEVER_WRITTEN = 17,            /* NO_ACTION */
    APEX_ROW_UNKNOWN_MODE = 18,             /* INVALID_PARAM */
    APEX_ROW_ALREADY_IN_NORMAL = 19,        /* NO_ACTION */
    APEX_ROW_WARM_START_IN_COLD_START = 20, /* INVALID_MODE */
    APEX_ROW_CREATED = 21,                  /* this and all below: NO_ERROR */
    APEX_ROW_IDENTIFIED = 22,
    APEX_ROW_SENT = 23,
    APEX_ROW_RECEIVED = 24,
    APEX_ROW_CLEARED = 25,
    APEX_ROW_QUEUING_STATUS = 26,
    APEX_ROW_WRITTEN = 27,
    APEX_ROW_READ = 28,
    APEX_ROW_SAMPLING_STATUS = 29,
    APEX_ROW_MODE_SET = 30
};

/* The row that a call of the partition would get at the moment `at`. `bytes` are the name of the port that the call is
 * made with, or its message, of any length; other calls take none. If the answer isn't 0, the row stays as it was.
 * Answers 0, APEX_NO_SERVICE, APEX_NO_NAME, APEX_NOT_OPEN or APEX_NO_PARTITION, the first that applies.
 * Assumed: `bytes` points to `bytes_length` bytes. */
uint32_t apex_call_row(struct apex_handle *handle, uint32_t partition, uint64_t at, const struct apex_call *call,
                       const uint8_t *bytes, size_t bytes_length, uint32_t *row);

/* The words of that row, in the buffer's first bytes, and their length; no zero follows. They say why the call would
 * not be made or would be refused; an accepted call has none. Answers as apex_call_row; APEX_SHORT_BUFFER if the
 * buffer has no room for the words, and then their length is set and the buffer stays as it was; or APEX_NO_MEMORY.
 * With any other answer, buffer and length stay as they were.
 * Assumed: `bytes` points to `bytes_length` bytes and `buffer` to `buffer_length`. */
uint32_t apex_call_words(struct apex_handle *handle, uint32_t partition, uint64_t at, const struct apex_call *call,
                         const uint8_t *bytes, size_t bytes_length, uint8_t *buffer, size_t buffer_length,
                         uint64_t *words_length);

/* Judging the calls of another layer, as it makes them: whether each gets the reply that the standard has. A judge makes
 * no calls; it notes those that it is given. One call is judged after the calls before it, as `dekarino judge` judges the
 * lines of a log (docs/FORMATS.md). Identifiers are those of apex_create_queuing_port and its like, and a call that waited
 * is given with the reply that it would have had without a time-out: NOT_AVAILABLE in the place of TIMED_OUT. */

/* The judge of a module, or none. As with a handle: it begins all zero, and nothing but these functions writes it. */
struct apex_judge {
    bool is_open;
    void *judge;
};

/* A reply: its return code, 0 to 6, or APEX_NOT_MADE, and what the service gives beside NO_ERROR but for a message. What
 * the service doesn't give has no effect, and is 0 in a reply that is given to C. `validity` is that of a read, or the last
 * one of a status. */
struct apex_reply {
    uint64_t refresh;
    uint32_t code;
    uint32_t id;
    uint32_t waiting;
    uint32_t depth;
    uint32_t size;
    uint32_t direction;
    uint32_t validity;
};

/* What the standard has for a call that departs: its reply, its row, and the lengths of its message and of its words. */
struct apex_departure {
    uint64_t words_length;
    struct apex_reply standard;
    uint32_t row;
    uint32_t message_length;
};

/* Opens a judge of a configuration before the first call, every partition in COLD_START. Answers as apex_open.
 * Assumed: `text` points to `text_length` bytes. */
uint32_t apex_judge_open(struct apex_judge *judge, const uint8_t *text, size_t text_length);

/* Closes a judge, which can be opened again. Answers 0, or APEX_NOT_OPEN. Assumed: no more than above. */
uint32_t apex_judge_close(struct apex_judge *judge);

/* Judges a call and the reply that it got, and notes it. `bytes` are the name or the message that the call is made with,
 * as in apex_call_row, and `message` is the message of the reply to a receive or a read. Answers 0 where the reply is the
 * standard's, or APEX_DEPARTS: then the places of `departure` are set, the message of the standard's reply is in the
 * buffer's first bytes, and the words of the row are in those of `words` if it has room for all of them; an accepted call
 * has none. Where it answers another number nothing changes: APEX_SHORT_BUFFER if `buffer` has fewer than
 * APEX_MESSAGE_LIMIT bytes, APEX_NO_SERVICE, APEX_NO_NAME, APEX_TOO_LONG, APEX_NO_REPLY, APEX_NOT_OPEN or
 * APEX_NO_PARTITION, the first that applies; or APEX_NO_MEMORY.
 * Assumed: each pointer to bytes points to as many as the length behind it. */
uint32_t apex_judge_call(struct apex_judge *judge, uint32_t partition, uint64_t at, const struct apex_call *call,
                         const uint8_t *bytes, size_t bytes_length, const struct apex_reply *reply,
                         const uint8_t *message, size_t message_length, struct apex_departure *departure,
                         uint8_t *buffer, size_t buffer_length, uint8_t *words, size_t words_room);

/* The kinds of a line of a log: it is blank or a comment, it has a call, or its first word is `after`, which ends the
 * calls of a log. */
enum { APEX_NO_CALL = 0, APEX_CALL = 1, APEX_CALLS_END = 2 };

/* What a line of a log is: its kind; how long its call may wait, 0 (not at all), 1 (for some time) or 2 (until it can be
 * served); and the number of its fault (docs/FORMATS.md) with the column, from 1 and in bytes. What it hasn't is 0. */
struct apex_line {
    uint64_t column;
    uint32_t kind;
    uint32_t wait;
    uint32_t fault;
};

/* Judges a line of a log, as `dekarino judge` does after the lines before it, and notes its call. A line feed may end the
 * line. If `time_outs` isn't 0, each send and receive whose line says no time-out has one. Answers 0 where the reply is
 * the standard's, and for a line without a call, or APEX_DEPARTS, with the places of `departure` as apex_judge_call sets
 * them. There a call that would still wait (`wait` is 2) has the row of an empty or a full queue, and NOT_AVAILABLE.
 * Answers APEX_FAULTY_LINE if the line can't be read, and notes nothing: `departure` has the length of the words, and
 * `words`, if it has room for all of them, what is wrong, what was found and what was expected. After each of these
 * three `line` is set. Where it answers another number nothing changes: APEX_SHORT_BUFFER if `buffer` has fewer than
 * APEX_MESSAGE_LIMIT bytes, APEX_TOO_LONG if there is more than one line, or one of more than APEX_LINE_LIMIT bytes,
 * APEX_NOT_OPEN, the first that applies; or APEX_NO_MEMORY.
 * The end of the calls is no end for a judge: its caller stops there.
 * Assumed: each pointer to bytes points to as many as the length behind it. */
uint32_t apex_judge_line(struct apex_judge *judge, const uint8_t *text, size_t text_length, uint32_t time_outs,
                         struct apex_line *line, struct apex_departure *departure, uint8_t *buffer,
                         size_t buffer_length, uint8_t *words, size_t words_room);

#ifdef __cplusplus
}
#endif

#endif
