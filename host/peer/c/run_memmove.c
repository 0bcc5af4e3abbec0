/* The run that copies by the C library. */
#include <string.h>

#define RUN peer_run_memmove
#define MOVE memmove
#include "run.h"
