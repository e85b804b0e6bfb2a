/* The partition CONTROL: its process LIMIT reads the speed every 100 ms, and sends an order if the speed is too
 * high or too old. If an order finds no place it stops. */
#include "arinc653/error.h"
#include "arinc653/partition.h"
#include "arinc653/process.h"
#include "arinc653/queuing.h"
#include "arinc653/sampling.h"
#include "partitions.h"

#include <stdio.h>
#include <string.h>

static SAMPLING_PORT_ID_TYPE speed_in;
static QUEUING_PORT_ID_TYPE orders_out;

/* The order that follows from the speed; null if there is none. */
static const char *read_speed(void) {
    APEX_BYTE speed[4];
    MESSAGE_SIZE_TYPE length;
    VALIDITY_TYPE validity;
    RETURN_CODE_TYPE code;
    char what[40];
    READ_SAMPLING_MESSAGE(speed_in, speed, &length, &validity, &code);
    snprintf(what, sizeof what, "LIMIT reads %.*s %s", (int)length, (const char *)speed,
             validity == VALID ? "VALID" : "INVALID");
    print_code(what, code);
    return validity == INVALID ? "REPEAT" : memcmp(speed, "240", 3) > 0 ? "SLOWER" : NULL;
}

static void send_order(const char *order) {
    APEX_BYTE message[8], text[] = "no place for an order";
    RETURN_CODE_TYPE code;
    char what[40];
    memcpy(message, order, strlen(order));
    SEND_QUEUING_MESSAGE(orders_out, message, (MESSAGE_SIZE_TYPE)strlen(order), 0, &code);
    snprintf(what, sizeof what, "LIMIT sends %s", order);
    print_code(what, code);
    if (code == NOT_AVAILABLE) {
        RAISE_APPLICATION_ERROR(APPLICATION_ERROR, text, (ERROR_MESSAGE_SIZE_TYPE)strlen((char *)text), &code);
        print_code("LIMIT raises an error", code);
        STOP_SELF();
    }
}

static void limit(void) {
    for (;;) {
        RETURN_CODE_TYPE code;
        const char *order = read_speed();
        if (order != NULL) {
            send_order(order);
        }
        TIMED_WAIT(5 * MILLISECOND, &code);
        print_code("LIMIT has waited", code);
        PERIODIC_WAIT(&code);
    }
}

static void print_status(void) {
    PARTITION_STATUS_TYPE status;
    RETURN_CODE_TYPE code;
    char what[80];
    GET_PARTITION_STATUS(&status, &code);
    snprintf(what, sizeof what, "CONTROL is partition %d in mode %d, with %d ms of %d ms", (int)status.IDENTIFIER,
             (int)status.OPERATING_MODE, (int)(status.DURATION / MILLISECOND), (int)(status.PERIOD / MILLISECOND));
    print_code(what, code);
}

void control_main(void) {
    static SAMPLING_PORT_NAME_TYPE speed_name = "SPEED_IN";
    static QUEUING_PORT_NAME_TYPE orders_name = "ORDERS_OUT";
    static PROCESS_ATTRIBUTE_TYPE attributes = {
        .PERIOD = 100 * MILLISECOND,
        .TIME_CAPACITY = 20 * MILLISECOND,
        .ENTRY_POINT = limit,
        .STACK_SIZE = 4096,
        .BASE_PRIORITY = 20,
        .DEADLINE = HARD,
        .NAME = "LIMIT",
    };
    PROCESS_ID_TYPE process;
    RETURN_CODE_TYPE code;
    CREATE_SAMPLING_PORT(speed_name, 4, DESTINATION, 100 * MILLISECOND, &speed_in, &code);
    print_code("CONTROL creates SPEED_IN", code);
    CREATE_QUEUING_PORT(orders_name, 8, 2, SOURCE, FIFO, &orders_out, &code);
    print_code("CONTROL creates ORDERS_OUT", code);
    CREATE_PROCESS(&attributes, &process, &code);
    print_code("CONTROL creates LIMIT", code);
    START(process, &code);
    print_code("CONTROL starts LIMIT", code);
    print_status();
    SET_PARTITION_MODE(NORMAL, &code);
    print_code("CONTROL cannot set NORMAL", code);
}
