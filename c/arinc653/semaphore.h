/* The services of semaphores, by a usual file name.
 *
 * To be included as "arinc653/semaphore.h" with -I on the folder above: docs/C.md. */
#ifndef ARINC653_SEMAPHORE_H
#define ARINC653_SEMAPHORE_H

#include "../bench_objects.h"

#endif
