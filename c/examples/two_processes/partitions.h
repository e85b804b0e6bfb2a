/* What the two partitions and the bench have in common. */
#ifndef PARTITIONS_H
#define PARTITIONS_H

#include "arinc653/time.h"

#define MILLISECOND ((SYSTEM_TIME_TYPE)1000000)

/* The partitions' main processes. */
void sensor_main(void);
void control_main(void);

/* Prints the time, who does what, and the return code. */
void print_code(const char *what, RETURN_CODE_TYPE code);

#endif
