/* GET_PARTITION_STATUS and SET_PARTITION_MODE, by a usual file name.
 *
 * To be included as "arinc653/partition.h" with -I on the folder above: docs/C.md. */
#ifndef ARINC653_PARTITION_H
#define ARINC653_PARTITION_H

#include "../bench_processes.h"

#endif
