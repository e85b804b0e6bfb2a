/* The services of events, by a usual file name.
 *
 * To be included as "arinc653/event.h" with -I on the folder above: docs/C.md. */
#ifndef ARINC653_EVENT_H
#define ARINC653_EVENT_H

#include "../bench_objects.h"

#endif
