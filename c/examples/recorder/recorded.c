/* The integrator's part of a partition whose calls are recorded: its log is the file LOG. MAIN is the partition's own
 * main process. */
#include "arinc653/partition.h"
#define APEX_RECORD_NO_MACROS
#include "record/apex_record.h"

#include <stdio.h>

void MAIN(void);

static int append(void *file, const char *text, size_t length) {
    return file != NULL && fwrite(text, 1, length, file) == length && fflush(file) == 0;
}

void recorded_main(void) {
    PARTITION_STATUS_TYPE status;
    RETURN_CODE_TYPE code;
    apex_record_to(append, fopen(LOG, "a"));
    GET_PARTITION_STATUS(&status, &code);
    if (status.START_CONDITION != NORMAL_START) {
        apex_record_restarted(status.OPERATING_MODE);
    }
    MAIN();
}
