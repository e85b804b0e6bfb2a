/* The types and limits that all services share, by a usual file name.
 *
 * To be included as "arinc653/types.h" with -I on the folder above: docs/C.md. */
#ifndef ARINC653_TYPES_H
#define ARINC653_TYPES_H

#include "../bench_objects.h"

#endif
