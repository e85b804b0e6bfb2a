/* The services of buffers, by a usual file name.
 *
 * To be included as "arinc653/buffer.h" with -I on the folder above: docs/C.md. */
#ifndef ARINC653_BUFFER_H
#define ARINC653_BUFFER_H

#include "../bench_objects.h"

#endif
