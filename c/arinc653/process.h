/* The services of processes, by a usual file name.
 *
 * To be included as "arinc653/process.h" with -I on the folder above: docs/C.md. */
#ifndef ARINC653_PROCESS_H
#define ARINC653_PROCESS_H

#include "../bench_processes.h"

#endif
