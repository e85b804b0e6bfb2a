/* The services of blackboards, by a usual file name.
 *
 * To be included as "arinc653/blackboard.h" with -I on the folder above: docs/C.md. */
#ifndef ARINC653_BLACKBOARD_H
#define ARINC653_BLACKBOARD_H

#include "../bench_objects.h"

#endif
