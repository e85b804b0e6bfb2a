/* The services of time, by a usual file name.
 *
 * To be included as "arinc653/time.h" with -I on the folder above: docs/C.md. */
#ifndef ARINC653_TIME_H
#define ARINC653_TIME_H

#include "../bench_processes.h"

#endif
