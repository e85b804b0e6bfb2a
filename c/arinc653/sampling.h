/* The services of sampling ports, by a usual file name.
 *
 * To be included as "arinc653/sampling.h" with -I on the folder above: docs/C.md. */
#ifndef ARINC653_SAMPLING_H
#define ARINC653_SAMPLING_H

#include "../apex.h"

#endif
