/* The services of errors, by a usual file name.
 *
 * To be included as "arinc653/error.h" with -I on the folder above: docs/C.md. */
#ifndef ARINC653_ERROR_H
#define ARINC653_ERROR_H

#include "../bench_processes.h"

#endif
