/* The partition SENSOR: its process MEASURE takes orders and writes a speed, every 200 ms. */
#include "arinc653/error.h"
#include "arinc653/partition.h"
#include "arinc653/process.h"
#include "arinc653/queuing.h"
#include "arinc653/sampling.h"
#include "partitions.h"

#include <stdio.h>
#include <string.h>

static SAMPLING_PORT_ID_TYPE speed_out;
static QUEUING_PORT_ID_TYPE orders_in;

static void receive_orders(void) {
    RETURN_CODE_TYPE code;
    do {
        APEX_BYTE order[8];
        MESSAGE_SIZE_TYPE length;
        char what[40];
        RECEIVE_QUEUING_MESSAGE(orders_in, 0, order, &length, &code);
        snprintf(what, sizeof what, "MEASURE receives %.*s", code == NO_ERROR ? (int)length : 2,
                 code == NO_ERROR ? (const char *)order : "no");
        print_code(what, code);
    } while (code == NO_ERROR);
}

static void write_speed(const char *speed) {
    APEX_BYTE message[4];
    RETURN_CODE_TYPE code;
    char what[40];
    memcpy(message, speed, 3);
    WRITE_SAMPLING_MESSAGE(speed_out, message, 3, &code);
    snprintf(what, sizeof what, "MEASURE writes %s", speed);
    print_code(what, code);
}

static void measure(void) {
    static const char *const speeds[] = {"230", "250", "239"};
    APEX_BYTE text[] = "no more speeds";
    RETURN_CODE_TYPE code;
    for (int i = 0; i < 3; i++) {
        receive_orders();
        write_speed(speeds[i]);
        PERIODIC_WAIT(&code);
    }
    receive_orders();
    REPORT_APPLICATION_MESSAGE(text, (MESSAGE_SIZE_TYPE)strlen((char *)text), &code);
    print_code("MEASURE reports", code);
    STOP_SELF();
}

void sensor_main(void) {
    static SAMPLING_PORT_NAME_TYPE speed_name = "SPEED_OUT";
    static QUEUING_PORT_NAME_TYPE orders_name = "ORDERS_IN";
    static PROCESS_ATTRIBUTE_TYPE attributes = {
        .PERIOD = 200 * MILLISECOND,
        .TIME_CAPACITY = 10 * MILLISECOND,
        .ENTRY_POINT = measure,
        .STACK_SIZE = 4096,
        .BASE_PRIORITY = 10,
        .DEADLINE = SOFT,
        .NAME = "MEASURE",
    };
    PROCESS_ID_TYPE process;
    RETURN_CODE_TYPE code;
    CREATE_SAMPLING_PORT(speed_name, 4, SOURCE, 100 * MILLISECOND, &speed_out, &code);
    print_code("SENSOR creates SPEED_OUT", code);
    CREATE_QUEUING_PORT(orders_name, 8, 2, DESTINATION, FIFO, &orders_in, &code);
    print_code("SENSOR creates ORDERS_IN", code);
    CREATE_PROCESS(&attributes, &process, &code);
    print_code("SENSOR creates MEASURE", code);
    START(process, &code);
    print_code("SENSOR starts MEASURE", code);
    SET_PARTITION_MODE(NORMAL, &code);
    print_code("SENSOR cannot set NORMAL", code);
}
