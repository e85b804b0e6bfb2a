/* The services of queuing ports, by a usual file name.
 *
 * To be included as "arinc653/queuing.h" with -I on the folder above: docs/C.md. */
#ifndef ARINC653_QUEUING_H
#define ARINC653_QUEUING_H

#include "../apex.h"

#endif
